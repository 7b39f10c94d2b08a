#!/usr/bin/env bash
# Looks whether the made files are what the grammar makes, whether the edits of edits.txt are refused, and whether literal.ebnf says the
# same as the table, on at least one sentence for each production. It ends with 1 where one of these isn't so, or python3 isn't there.
set -u
cd "$(dirname "$0")" || exit
if ! command -v python3 > /dev/null; then
    echo "grammar/check.sh: there is no python3, without which the made files can't be looked at" >&2
    exit 1
fi
export PYTHONDONTWRITEBYTECODE=1
status=0
python3 make_table.py --check || status=1
python3 make_literal.py --check || status=1
python3 make_effects.py --check || status=1
python3 make_spelling.py --check || status=1
python3 try_edits.py || status=1
python3 compare.py 1000 || status=1
exit $status
