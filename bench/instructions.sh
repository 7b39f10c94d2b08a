#!/usr/bin/env bash
# Counts the program's instructions: for an INSERT, in one session and in 63 by turns, for a byte of white space and of comments
# between entries, and for a commit that a start makes again.
#
# usage: bench/instructions.sh [PROGRAM]      (default: the proved program, which is built where it isn't there)
#
# valgrind counts them, so other work on the machine changes nothing. Each figure is the difference of two runs, whose inputs
# differ in what is counted alone. The databases are in memory below /dev/shm. This is no part of the gate.
set -eu
top=$(cd "$(dirname "${BASH_SOURCE[0]}")/.." && pwd)
# shellcheck source=bench/shared.sh
. "$top/bench/shared.sh"
program=${1:-$top/crates/hsql/out/hsql}
work=$(mktemp -d /dev/shm/hsql-count.XXXXXX)
trap 'rm -rf "$work"' EXIT
if [ ! -x "$program" ]; then
    "$top/bin/hsql" "$work/built" </dev/null >/dev/null
fi
rows=20000

# count NAME: sets `counted` to the instructions of a run on this database, whose input is the call's.
count() {
    valgrind --tool=callgrind --callgrind-out-file=/dev/null "$program" "$work/$1" >"$work/output" 2>"$work/errors"
    counted=$(sed -n 's/.*Collected : //p' "$work/errors")
}

# differ COUNT WHAT LESS MORE: says by how much the two files' runs differ, for each of COUNT.
differ() {
    local less
    rm -f "$work"/db.*
    count db <"$3"
    less=$counted
    rm -f "$work"/db.*
    count db <"$4"
    echo "$2: $(reckon "($counted - $less) / $1" "${5:-0}") instructions"
}

# by_turns COUNT SESSIONS: so many INSERTs, in turn by so many sessions, behind an INSERT of each and the table.
by_turns() {
    echo "a0: CREATE TABLE T (N BIGINT, M BIGINT);"
    awk -v count="$1" -v sessions="$2" 'BEGIN {
        for (at = 0; at < sessions + count; at++) printf "a%d: INSERT INTO T VALUES (%d,%d);\n", at % sessions, (at * 48271) % 2147483647, -at
    }'
}

for sessions in 1 63; do
    by_turns $rows $sessions >"$work/less"
    by_turns $((2 * rows)) $sessions >"$work/more"
    differ $rows "an INSERT of two columns, $sessions sessions by turns" "$work/less" "$work/more"
done
: >"$work/none"
head -c 1000000 /dev/zero | tr '\0' ' ' >"$work/blanks"
differ 1000000 "a byte of white space between entries" "$work/none" "$work/blanks" 1
awk 'BEGIN { for (at = 0; at < 20000; at++) print "-- a comment of fifty bytes and no more than that" }' >"$work/lines"
differ 1000000 "a byte of -- comments between entries" "$work/none" "$work/lines" 1
awk 'BEGIN { for (at = 0; at < 20000; at++) print "/* a comment of fifty bytes, no more than that */" }' >"$work/blocks"
differ 1000000 "a byte of /* comments between entries" "$work/none" "$work/blocks" 1
awk 'BEGIN { text = "x"; while (length(text) < 50000) text = text text; for (at = 0; at < 20; at++) printf "a:%s;", substr(text, 1, 49997) }' >"$work/entries"
differ 1000000 "a byte of an entry" "$work/none" "$work/entries" 1

# The same number of commits more are made again at the start.
for times in 1 2; do
    by_turns $((times * rows)) 1 | "$program" "$work/log$times" >/dev/null
done
count log1 <"$work/none"
less=$counted
count log2 <"$work/none"
echo "a commit that a start makes again: $(reckon "($counted - $less) / $rows") instructions"
