#!/usr/bin/env bash
# Times the program: entries a second, the growth of the time with the input, and memory.
#
# usage: bench/first_path.sh [ROWS]      (default: 1,000,000)
#
# It proves and builds the program by bin/hsql where need be, writes its inputs and the databases into a folder in memory
# below /dev/shm, where a sync costs a call alone, and removes that at the end. Times are the processor's, user and system, which other work on the machine
# changes least. This is no part of the gate. The peaks of memory need GNU time as /usr/bin/time; without it
# they are left out.
set -eu
top=$(cd "$(dirname "${BASH_SOURCE[0]}")/.." && pwd)
# shellcheck source=bench/shared.sh
. "$top/bench/shared.sh"
rows=${1:-1000000}
work=$(mktemp -d /dev/shm/hsql-bench.XXXXXX)
trap 'rm -rf "$work"' EXIT

# rows_of COUNT TABLES [FIRST]: that many INSERTs, in turn over the tables from T`FIRST` on (default: T0), with different keys in random order.
rows_of() {
    awk -v count="$1" -v tables="$2" -v first="${3:-0}" 'BEGIN {
        for (at = 1; at <= count; at++)
            printf "a: INSERT INTO T%d VALUES (%d,%d);\n", first + at % tables, (at * 48271) % 2147483647, -at
    }'
}

# tables_of TABLES [FIRST]: that many CREATEs.
tables_of() {
    awk -v tables="$1" -v first="${2:-0}" 'BEGIN {
        for (at = 0; at < tables; at++) printf "a: CREATE TABLE T%d (N BIGINT, M BIGINT);\n", first + at
    }'
}

# run INPUT COMMITS: runs the program on it, and sets `seconds` of the processor and `peak`, in KiB.
run() {
    local user system
    peak=0
    rm -f "$work"/bench.*
    if [ -x /usr/bin/time ]; then
        /usr/bin/time -f '%U %S %M' -o "$work/spent" "$program" "$work/bench" <"$1" >"$work/output"
        read -r user system peak <"$work/spent"
    else
        local TIMEFORMAT='%U %S'
        read -r user system < <({ time "$program" "$work/bench" <"$1" >"$work/output"; } 2>&1)
    fi
    seconds=$(reckon "$user + $system" 2)
    if [ "$(tail -n 1 "$work/output")" != "closed at $2" ]; then
        echo "first_path.sh: the output doesn't end with 'closed at $2'" >&2
        exit 70
    fi
}

# median_run INPUT COMMITS: the median of three runs, and the peak of the last.
median_run() {
    local all=()
    for _ in 1 2 3; do
        run "$1" "$2"
        all+=("$seconds")
    done
    seconds=$(median "${all[@]}")
}

# short_runs TABLES: sets `seconds` for that many runs, each over a new database of so many tables with 1,000 rows in all. With 0 tables
# a run has no entry, and its time is that of the program's start.
repeats=200
short_runs() {
    : >"$work/short"
    if [ "$1" -gt 0 ]; then
        { tables_of "$1" 1000; rows_of 1000 "$1" 1000; } >"$work/short"
    fi
    local user system TIMEFORMAT='%U %S'
    read -r user system < <({ time for ((at = 0; at < repeats; at++)); do
        "$program" "$work/new$at" <"$work/short" >"$work/output"
    done; } 2>&1)
    rm -f "$work"/new*
    seconds=$(reckon "$user + $system" 3)
}

"$top/bin/hsql" "$work/bench" </dev/null >/dev/null
program="$top/crates/hsql/out/hsql"

{ tables_of 1; rows_of "$rows" 1; } >"$work/once"
{ tables_of 1; rows_of $((2 * rows)) 1; } >"$work/twice"
{ cat "$work/once"; echo "a: SELECT * FROM T0;"; } >"$work/once_asked"
{ cat "$work/twice"; echo "a: SELECT * FROM T0;"; } >"$work/twice_asked"

median_run "$work/once_asked" $((rows + 1))
once=$seconds once_peak=$peak
echo "$rows INSERTs and one SELECT: $once s, $(reckon "($rows + 2) / $once") entries a second, peak $(reckon "$once_peak / 1024") MiB"
median_run "$work/twice_asked" $((2 * rows + 1))
echo "$((2 * rows)) INSERTs and one SELECT: $seconds s, $(reckon "(2 * $rows + 2) / $seconds") entries a second, peak $(reckon "$peak / 1024") MiB"
echo "twice as many entries take $(reckon "$seconds / $once" 2) times as long"

twice_peak=$peak

run "$work/once" $((rows + 1))
kept=$peak
run "$work/twice" $((2 * rows + 1))
if [ "$peak" -gt 0 ]; then
    echo "each further row takes $(reckon "($peak - $kept) * 1024 / $rows") bytes of memory at the peak, and $(reckon "($twice_peak - $once_peak) * 1024 / $rows") with the SELECT"
    echo "with the SELECT, $(reckon "$once_peak * 1024 / $rows") bytes a row at the peak, the program and all else counted"
fi

# What an entry costs over many tables: whole runs of 2,000 and of 1,001 entries, and long ones whose INSERTs go over the tables in turn.
# All names have one length, so that the texts have too.
short_runs 1000
many=$seconds
short_runs 1
one=$seconds
short_runs 0
echo "1,000 tables of one row: $(reckon "$many * 1e9 / $repeats / 2000") ns an entry, $(reckon "($many - $seconds) * 1e9 / $repeats / 2000") without the start of the program"
echo "one table of 1,000 rows: $(reckon "$one * 1e9 / $repeats / 1001") ns an entry, $(reckon "($one - $seconds) * 1e9 / $repeats / 1001") without the start of the program"
more=$((rows / 2))
for tables in 1 10 100 1000; do
    { tables_of "$tables" 1000; rows_of "$more" "$tables" 1000; } >"$work/spread"
    median_run "$work/spread" $((tables + more))
    echo "$more INSERTs in turn over $tables table(s): $(reckon "$seconds * 1e9 / ($more + $tables)") ns an entry"
done
