#!/usr/bin/env bash
# Four sessions with short transactions on 100 rows, under each model of transactions and beside SQLite and HSQLDB; and what a
# snapshot of many rows costs.
#
# usage: bench/models.sh [PART [ENTRIES [ROWS]]]      (default: all, 200,000 and 1,000,000)
#
#   sessions    ENTRIES of four sessions, of which one in five is a COMMIT and the others each add 1 to a row
#   snapshots   a tenth of ROWS INSERTs into a table of ROWS rows under MVCC, without a snapshot and beside one, and the first
#               one behind a start
#   all         these two
#
# All files are in memory, where a sync costs a call alone. The entries are those of the generated input of hs_workload, over a
# MEMORY table. hsql gets them as they come, and its sessions wait for each other as its model has it. HSQLDB gets them through
# bench/Models.java, in a connection and a thread for each session, and the time inside is given, without the JVM's start.
# `texts` are statements with their values in them, `prepared` is one statement with a parameter. SQLite has one writer at a
# time, and a shell one session. So it gets the transactions one after another as they are committed, each behind a BEGIN, and
# is spared every wait. Of hsql and sqlite3 the whole process is timed. Each one's sum of the rows is compared with what it has
# committed.
#
# It proves and builds the program by bin/hsql where need be, or takes the one that HSQL_PROGRAM names. It works in a folder
# below /dev/shm, which it removes at the end. An engine that isn't there is left out. HSQLDB's jar is looked for in the folder
# JARS (/usr/share/java if not set). This is no part of the gate.
set -eu
export LC_ALL=C
top=$(cd "$(dirname "${BASH_SOURCE[0]}")/.." && pwd)
# shellcheck source=bench/shared.sh
. "$top/bench/shared.sh"
part=${1:-all}
entries=${2:-200000}
rows=${3:-1000000}
jar=${JARS:-/usr/share/java}/hsqldb.jar
program=${HSQL_PROGRAM:-$top/crates/hsql/out/hsql}
work=$(mktemp -d /dev/shm/hsql-models.XXXXXX)
running=""
trap '[ -z "$running" ] || kill -KILL "$running" 2>/dev/null || true; rm -rf "$work"' EXIT
rounds=3
models="LOCKS MVLOCKS MVCC"

fail() {
    echo "models.sh: $1" >&2
    exit 70
}

# line NAME FIGURE.., up to three figures.
line() { printf '%-58s %14s %14s %14s\n' "$@" | sed 's/ *$//'; }

# seconds_of COMMAND..: sets `seconds` of the clock. Standard input is handed on, and the output is kept.
seconds_of() {
    local TIMEFORMAT='%R'
    seconds=$({ time "$@" >"$work/output" 2>"$work/errors"; } 2>&1) || fail "$* ended with an error: $(cat "$work/errors")"
}

# generate: the entries, as lines `SESSION ROW` and `SESSION COMMIT`. The numbers are those of hs_workload; products are taken
# in two parts, as awk counts exactly to 2^53 only.
generate() {
    awk -v count="$entries" 'BEGIN {
        x = count
        for (at = 1; at <= count; at++) {
            high = int(x / 65536)
            x = (((1103515245 * high) % 2147483648) * 65536 + 1103515245 * (x % 65536) + 12345) % 2147483648
            rest = int(x / 4)
            print x % 4, rest % 5 == 0 ? "COMMIT" : int(rest / 5) % 100
        }
    }'
}

# for_hsql MODEL: the input.
for_hsql() {
    echo "s: SET DATABASE TRANSACTION CONTROL $1;"
    echo "s: CREATE TABLE W (ID INTEGER PRIMARY KEY, V INTEGER);"
    for ((row = 0; row < 100; row++)); do echo "s: INSERT INTO W VALUES ($row,0);"; done
    for session in 0 1 2 3; do echo "s$session: SET AUTOCOMMIT FALSE;"; done
    awk '{ print "s" $1 ": " ($2 == "COMMIT" ? "COMMIT;" : "UPDATE W SET V = V + 1 WHERE ID = " $2 ";") }' "$work/entries"
}

# for_sqlite: the input, with each transaction at its COMMIT. What is never committed isn't done.
for_sqlite() {
    echo "PRAGMA journal_mode=WAL; PRAGMA synchronous=FULL; CREATE TABLE W (ID INTEGER PRIMARY KEY, V INTEGER);"
    for ((row = 0; row < 100; row++)); do echo "INSERT INTO W VALUES ($row,0);"; done
    awk '$2 != "COMMIT" { open[$1] = open[$1] "UPDATE W SET V = V + 1 WHERE ID = " $2 ";\n"; next }
        { printf "BEGIN;\n%sCOMMIT;\n", open[$1]; open[$1] = "" }' "$work/entries"
    echo "SELECT SUM(V) FROM W;"
}

# committed_updates: how many of the entries' updates are committed where nobody is refused.
committed_updates() {
    awk '$2 != "COMMIT" { open[$1]++; next } { sum += open[$1]; open[$1] = 0 } END { print sum + 0 }' "$work/entries"
}

# told_updates: how many updates the output says that it has committed, and how many transactions were refused.
told_updates() {
    awk '/ s[0-3]: ok 1 row$/ { open[$2]++ }
        / s[0-3]: refused / { open[$2] = 0; refused++ }
        / s[0-3]: ok committed / { sum += open[$2]; open[$2] = 0 }
        END { print sum + 0, refused + 0 }' "$work/output"
}

# hsql_under MODEL
hsql_under() {
    local all=() sum refused
    for_hsql "$1" >"$work/input"
    for ((round = 0; round < rounds; round++)); do
        rm -f "$work"/db.*
        seconds_of "$program" "$work/db" <"$work/input"
        read -r sum refused < <(told_updates)
        [ "$(echo "t: SELECT SUM(V) FROM W;" | "$program" "$work/db" | sed -n 's/.* t: row //p')" = "$sum" ] ||
            fail "hsql under $1: the sum isn't $sum"
        [ "$1" = MVCC ] || [ "$sum" = "$(committed_updates)" ] || fail "hsql under $1 committed $sum updates"
        all+=("$seconds")
    done
    rm -f "$work"/db.*
    line "hsql, $1" "$(reckon "$entries / $(median "${all[@]}")")" "$refused"
}

sqlite() {
    local all=()
    if ! command -v sqlite3 >/dev/null; then
        echo "sqlite3 isn't there: SQLite is left out"
        return
    fi
    for_sqlite >"$work/input"
    for ((round = 0; round < rounds; round++)); do
        rm -f "$work"/db*
        seconds_of sqlite3 "$work/db" <"$work/input"
        [ "$(tail -n 1 "$work/output")" = "$(committed_updates)" ] || fail "SQLite: the sum is $(tail -n 1 "$work/output")"
        all+=("$seconds")
    done
    rm -f "$work"/db*
    line "SQLite $(sqlite3 --version | cut -d ' ' -f 1) (WAL, synchronous FULL)" "$(reckon "$entries / $(median "${all[@]}")")" 0
}

# hsqldb STYLE: under each model. The first round of a JVM is left out.
hsqldb() {
    local model taken told all refused
    for model in $models; do
        java -Dhsqldb.reconfig_logging=false -cp "$work/classes:$jar" Models "$model" "$1" "$work/entries" "$work/h1" "$work/h2" "$work/h3" "$work/h4" \
            >"$work/output" 2>"$work/errors" || fail "HSQLDB under $model ended with an error: $(cat "$work/errors")"
        all=()
        while read -r taken told; do
            all+=("$taken")
            refused=$told
        done < <(tail -n +2 "$work/output")
        rm -rf "$work"/h[1-4]
        line "HSQLDB, $model, $1 (WRITE DELAY FALSE)" "$(reckon "$entries / $(median "${all[@]}")")" "$refused"
    done
}

sessions_part() {
    local model
    generate >"$work/entries"
    line "$entries entries of four sessions on 100 rows" "a second" "refused"
    for model in $models; do hsql_under "$model"; done
    sqlite
    if ! command -v javac >/dev/null || [ ! -e "$jar" ]; then
        echo "javac or $jar isn't there: HSQLDB is left out"
        return
    fi
    javac -d "$work/classes" "$top/bench/Models.java"
    hsqldb texts
    hsqldb prepared
}

# begin_program: one that reads a pipe. `tell` gives it entries, and `stage` waits for the answers and sets `seconds`.
begin_program() {
    mkfifo "$work/pipe"
    "$program" "$work/db" <"$work/pipe" >"$work/output" &
    running=$!
    exec 3>"$work/pipe"
    marks=0
}

# stage < ENTRIES: gives the entries to the program, and sets `seconds` of the clock until the last one is answered.
stage() {
    local begun=$EPOCHREALTIME
    marks=$((marks + 1))
    { cat; echo "mark: VALUES ('mark $marks');"; } >&3
    until tail -c 100 "$work/output" | grep -q "row 'mark $marks'"; do
        kill -0 "$running" 2>/dev/null || fail "hsql ended early"
        sleep 0.002
    done
    seconds=$(reckon "$EPOCHREALTIME - $begun" 6)
}

end_program() {
    exec 3>&-
    wait "$running" || fail "hsql ended with an error"
    running=""
    rm -f "$work/pipe" "$work"/db.*
}

# bulk: as many rows as are asked for, a thousand to an entry.
bulk() {
    awk -v count="$rows" 'BEGIN {
        for (at = 1; at <= count; at++) {
            printf "%s(%d,%d)", at % 1000 == 1 ? "w: INSERT INTO T VALUES " : ",", at, -at
            if (at % 1000 == 0 || at == count) print ";"
        }
    }'
}

# more FIRST COUNT: so many INSERTs of one row behind the first ones.
more() {
    awk -v first="$1" -v count="$2" 'BEGIN { for (at = 1; at <= count; at++) printf "w: INSERT INTO T VALUES (%d,%d);\n", first + at, -at }'
}

snapshots_part() {
    local count=$((rows / 10)) next=$rows plain=() beside=() first=()
    line "under MVCC, $rows rows with a key" "microseconds" "milliseconds" "of without"
    begin_program
    stage < <(echo "w: SET DATABASE TRANSACTION CONTROL MVCC;"; echo "w: CREATE TABLE T (N BIGINT PRIMARY KEY, M BIGINT);"; bulk)
    line "the rows are put, a thousand to a commit" "" "$(reckon "1000 * $seconds")"
    for ((round = 0; round < rounds; round++)); do
        stage < <(more "$next" $count)
        plain+=("$seconds")
        next=$((next + count))
        stage < <(echo "r: START TRANSACTION ISOLATION LEVEL SERIALIZABLE;")
        begins=$seconds
        stage < <(more "$next" 1)
        first+=("$seconds")
        next=$((next + 1))
        stage < <(more "$next" $count)
        beside+=("$seconds")
        next=$((next + count))
        stage < <(echo "r: COMMIT;")
    done
    line "an INSERT, with no transaction open" "$(reckon "1000000 * $(median "${plain[@]}") / $count" 1)"
    line "START TRANSACTION at SERIALIZABLE" "" "$(reckon "1000 * $begins")"
    line "the first INSERT behind it, which keeps a copy" "" "$(reckon "1000 * $(median "${first[@]}")")"
    line "an INSERT behind that, with the snapshot open" "$(reckon "1000000 * $(median "${beside[@]}") / $count" 1)" "" \
        "$(reckon "$(median "${beside[@]}") / $(median "${plain[@]}")" 2)"
    two_at_one_state "$next"
    end_program
}

# two_at_one_state FIRST: two transactions start at one state, and then a row is put.
two_at_one_state() {
    stage < <(for session in r q; do echo "$session: START TRANSACTION ISOLATION LEVEL SERIALIZABLE;"; done)
    stage < <(more "$1" 1)
    line "the first INSERT behind two starts at one state" "" "$(reckon "1000 * $seconds")"
    stage < <(more "$(($1 + 1))" 1)
    line "the next one" "" "$(reckon "1000 * $seconds")"
    stage < <(echo "r: COMMIT;"; echo "q: COMMIT;")
}

case $part in
    sessions | snapshots) parts=$part ;;
    all) parts="sessions snapshots" ;;
    *) fail "the parts are sessions, snapshots and all" ;;
esac
[ -n "${HSQL_PROGRAM:-}" ] || { "$top/bin/hsql" "$work/built" </dev/null >/dev/null && rm -f "$work"/built.*; }
for part in $parts; do "${part}_part"; done
