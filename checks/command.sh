#!/usr/bin/env bash
# Looks at the command bin/hsql: through a link, from another folder, and without a search through the sources.
#
# usage: checks/command.sh
# shellcheck source=checks/shared.sh
. "$(dirname "$(readlink -f "$0")")/shared.sh"
needs strace
cd "$work"
if [ -n "${HSQL_PROGRAM:-}" ]; then
    done_with "nothing, as the command runs the proved program and no other"
    exit 0
fi
mkdir bin more
ln -s "$top/bin/hsql" bin/hsql
ln -s ../bin/hsql more/sql
ended 0 "" bin/hsql db <"$top/examples/first.sql" >output
same "$(cat "$top/examples/first.out")" "$(cat output)" "the first example through a link"
ended 0 "" more/sql db </dev/null >output
same "opened at 3" "$(head -1 output)" "the second run through two links"
ended 1 "hsql: usage: hsql DATABASE < ENTRIES" bin/hsql </dev/null >/dev/null
ended 0 "" bin/hsql --quick db </dev/null >/dev/null

# A closed standard error changes no status.
status=0
"$top/bin/hsql" db </dev/null >output 2>&- || status=$?
same 0 "$status" "the status where standard error is closed"
same "closed at 3" "$(tail -1 output)" "the last line where standard error is closed"

# Where the program is there no source is looked at.
strace -f -o calls -e trace=openat,execve "$top/bin/hsql" db </dev/null >/dev/null
same 0 "$(grep -c '/crates/[^/]*/src' calls || true)" "how often a source was looked at"
same 0 "$(grep -c 'execve(.*/find"' calls || true)" "how often find ran"

# A limit on the size of files, also of the output's: no signal ends the run.
limited() (
    ulimit -f 1
    exec "$@"
)
awk 'BEGIN { for (at = 0; at < 200; at++) print "a: SELECT * FROM T;" }' >long
ended 3 "hsql: output fault: standard output: File too large" limited "$top/bin/hsql" db <long >output

done_with "bin/hsql through links, its start, and limits"
