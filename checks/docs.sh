#!/usr/bin/env bash
# Looks at README and docs: their lengths, that each crate is named, and that each file that they link to or name is there.
# Their sentences have at most 29 words. And whether they name the clauses of run. It needs Python 3.
#
# usage: checks/docs.sh
no_program=1
# shellcheck source=checks/shared.sh
. "$(dirname "$(readlink -f "$0")")/shared.sh"
needs python3
cd "$top"
export LC_ALL=C.UTF-8
[ "$(wc -l <README.md)" -le 150 ] || fail "README has more than 150 lines"
pass
for document in README.md docs/*.md; do
    # A row of a table has at most 200 characters, any other line at most 119, but what is shown as typed or printed.
    ! grep -nE '^.{120,}$' "$document" | grep -vE '^[0-9]+:([|]|    )' || fail "a line of $document is too long"
    ! grep -nE '^[|].{200,}$' "$document" || fail "a row of $document is too long"
    pass
    while read -r linked; do
        [ -e "$(dirname "$document")/$linked" ] || fail "$document links to $linked, which isn't there"
        pass
    done < <(grep -o '](\([^)#:]*\)' "$document" | cut -c 3- | sort -u | grep -v '^$')
    while read -r named; do
        [ -e "$named" ] || fail "$document names $named, which isn't there"
        pass
    done < <(grep -oE "\`(crates|grammar|bin|bench|checks|examples)/[A-Za-z0-9_./]*\`" "$document" | tr -d "\`" | sort -u)
done
python3 checks/sentences.py README.md docs/*.md || fail "a sentence is too long"
pass
while read -r crate; do
    for document in docs/PROOF.md docs/ARCHITECTURE.md; do
        grep -q "\`$crate\`" "$document" || fail "$document doesn't name $crate"
        pass
    done
done < <(sed -n 's/^\([a-z_0-9]*\):.*/\1/p' crates.txt)
# The table of run's clauses in MODEL has each of them, and README names no other.
sed -n '/^pub fn run</,/^{/p' crates/hs_top/src/program.rt | sed -n 's/^    ensures \([a-z_]*\) .*/\1/p' | sort >"$work/clauses"
sed -n '/^## The clauses of /,/^## /p' docs/MODEL.md | sed -n "s/^| \`\([a-z_]*\)\` .*/\1/p" | sort >"$work/rows"
same "$(cat "$work/clauses")" "$(cat "$work/rows")" "the clauses of run in MODEL"
while read -r clause; do
    grep -qx "$clause" "$work/clauses" || fail "README promises $clause, which is no clause of run"
    pass
done < <(sed -n '/^## What is promised/,/^## /p' README.md | grep -E '^([1-9]\.|   )' | grep -oE "\`[a-z_]+\`" | tr -d "\`")
done_with "lengths, links and crates of the documents"
