#!/usr/bin/env bash
# Times the log of the program: durable INSERTs a second beside a plain loop and beside SQLite, from a file and with each
# reply waited for, and opening.
#
# usage: bench/log.sh [FOLDER]      (default: the current folder; the disk under it is what is measured)
#
# It proves and builds the program by bin/hsql where need be, and works in a folder of its own below FOLDER, which it
# removes at the end. It needs a C compiler for the plain loop, and `sqlite3` for the comparison, which is left out
# where it is missing. Logs for opening are made in memory below /dev/shm. This is no part of the gate.
set -eu
top=$(cd "$(dirname "${BASH_SOURCE[0]}")/.." && pwd)
# shellcheck source=bench/shared.sh
. "$top/bench/shared.sh"
work=$(mktemp -d "${1:-.}/hsql-log.XXXXXX")
memory=$(mktemp -d /dev/shm/hsql-log.XXXXXX)
trap 'rm -rf "$work" "$memory"' EXIT
inserts=1000
rounds=9

# seconds_of COMMAND..: sets `seconds` of the clock, and `spent` of the processor. Standard input is handed on.
seconds_of() {
    local TIMEFORMAT='%R %U %S' real user system
    read -r real user system < <({ time "$@" >"$work/output"; } 2>&1)
    seconds=$real
    spent=$(reckon "$user + $system" 3)
}

expect() {
    if [ "$(tail -n 1 "$work/output")" != "$1" ]; then
        echo "log.sh: the output doesn't end with '$1'" >&2
        exit 70
    fi
}

"$top/bin/hsql" "$work/built" </dev/null >/dev/null
program="$top/crates/hsql/out/hsql"
cc -O2 -o "$work/plain_log" "$top/bench/plain_log.c"
cc -O2 -o "$work/waiting" "$top/bench/waiting.c"

{ echo "a: CREATE TABLE T (N BIGINT, M BIGINT);"; inserts_of "$inserts" "a: "; } >"$work/rows"
{
    echo "PRAGMA journal_mode=WAL; PRAGMA synchronous=FULL; CREATE TABLE T (N INTEGER, M INTEGER);"
    sed -n 's/^a: INSERT/INSERT/p' "$work/rows"
} >"$work/rows.sqlite"

# Short rounds of each in turn, since a disk's syncs vary from second to second; the median is of each alone.
loops=() ours=() waits=() theirs=()
for ((round = 1; round <= rounds; round++)); do
    seconds_of "$work/plain_log" "$work/plain.$round" "$inserts"
    loops+=("$seconds")
    seconds_of "$program" "$work/ours.$round" <"$work/rows"
    expect "closed at $((inserts + 1))"
    ours+=("$seconds")
    seconds_of "$work/waiting" "$program" "$work/waits.$round" <"$work/rows"
    expect "closed at $((inserts + 1))"
    waits+=("$seconds")
    if command -v sqlite3 >/dev/null; then
        seconds_of sqlite3 "$work/theirs.$round" <"$work/rows.sqlite"
        theirs+=("$seconds")
    fi
done
loop=$(median "${loops[@]}")
our=$(median "${ours[@]}")
wait=$(median "${waits[@]}")
echo "$rounds rounds of $inserts durable INSERTs: hsql $(reckon "$inserts / $our") a second, a plain loop $(reckon "$inserts / $loop"), ratio $(reckon "$loop / $our" 2)"
echo "each reply waited for: $(reckon "$inserts / $wait") a second, ratio to the plain loop $(reckon "$loop / $wait" 2)"
if [ ${#theirs[@]} -gt 0 ]; then
    their=$(median "${theirs[@]}")
    echo "SQLite (WAL, synchronous FULL, one INSERT a transaction): $(reckon "$inserts / $their") a second, hsql is $(reckon "$their / $our" 2) of it"
fi

# Opening logs, from memory, so that the program is what is measured.
for commits in 100000 1000000; do
    { echo "a: CREATE TABLE T (N BIGINT, M BIGINT);"; inserts_of $((commits - 1)) "a: "; } | "$program" "$memory/db" >"$work/output"
    expect "closed at $commits"
    all=() spents=()
    for _ in 1 2 3; do
        seconds_of "$program" "$memory/db" </dev/null
        expect "closed at $commits"
        all+=("$seconds")
        spents+=("$spent")
    done
    peak=""
    if [ -x /usr/bin/time ]; then
        /usr/bin/time -f '%M' -o "$work/spent" "$program" "$memory/db" </dev/null >"$work/output"
        peak=", peak $(reckon "$(cat "$work/spent") / 1024") MiB"
    fi
    echo "a log of $commits commits ($(stat -c %s "$memory/db.log") bytes) opens in $(median "${all[@]}") s, $(median "${spents[@]}") s of the processor$peak"
    rm -f "$memory"/db.*
done

# Reading long entries.
awk 'BEGIN { text = "x"; while (length(text) < 65000) text = text text; text = substr(text, 1, 65000); for (at = 0; at < 3200; at++) printf "a: \047%s\047;\n", text }' >"$memory/long"
size=$(stat -c %s "$memory/long")
seconds_of "$program" "$memory/db" <"$memory/long"
expect "closed at 0"
echo "$size bytes of long entries are read in $seconds s, $(reckon "$size / 1e6 / $seconds") MB a second"
