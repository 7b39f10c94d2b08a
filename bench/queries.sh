#!/usr/bin/env bash
# Asks hsql and SQLite the same queries over the same rows, checks that both answer the same, and prints what each took.
#
# usage: bench/queries.sh [ROWS]      (default: 100,000)
#
# A table T has ROWS rows of three whole numbers and a text, U a tenth of them, and A and B have 1,000 each. N is the primary
# key of each. Every file is in memory. A query is asked ROUNDS times in a process of its own, and the time of a process that
# asks one question of an empty table is taken off: the start, and with hsql the reading of the log. Each figure is the
# median of three such processes. `by key` are statements of one row each, and `join` pairs A and B.
#
# It proves and builds the program by bin/hsql where need be, or takes the one that HSQL_PROGRAM names. It works in a folder
# below /dev/shm, which it removes at the end. This is no part of the gate.
set -eu
export LC_ALL=C
top=$(cd "$(dirname "${BASH_SOURCE[0]}")/.." && pwd)
# shellcheck source=bench/shared.sh
. "$top/bench/shared.sh"
rows=${1:-100000}
program=${HSQL_PROGRAM:-$top/crates/hsql/out/hsql}
work=$(mktemp -d /dev/shm/hsql-queries.XXXXXX)
trap 'rm -rf "$work"' EXIT

fail() {
    echo "queries.sh: $1" >&2
    exit 70
}

command -v sqlite3 >/dev/null || fail "sqlite3 isn't there"
if [ ! -x "$program" ]; then
    "$top/bin/hsql" "$work/built" </dev/null >/dev/null
fi

# tables: the statements that make the tables and put their rows, a line each.
tables() {
    awk -v rows="$rows" 'BEGIN {
        print "CREATE TABLE NONE (N INTEGER PRIMARY KEY)"
        for (t = 1; t <= 4; t++) {
            name = substr("TUAB", t, 1)
            count = t == 1 ? rows : t == 2 ? int(rows / 10) : 1000
            print "CREATE TABLE " name " (N INTEGER PRIMARY KEY, M INTEGER, G INTEGER, W VARCHAR(12))"
            for (at = 1; at <= count; at += 100) {
                printf "INSERT INTO %s VALUES ", name
                for (i = at; i < at + 100 && i <= count; i++)
                    printf "%s(%d,%d,%d,%cw%d%c)", (i > at ? "," : ""), i, (i * 48271) % 2147483647, (i * 7919) % 1000, 39, i % 5000, 39
                print ""
            }
        }
    }'
}

# statements ENGINE FILE: these statements, as the engine takes them.
statements() {
    case $1 in
    hsql) sed 's/^/a: /; s/$/;/' "$2" ;;
    sqlite) sed 's/$/;/' "$2" ;;
    esac
}

# run ENGINE FILE: takes the statements of a file, and sets `seconds`. What is answered is kept in `answer`.
run() {
    local TIMEFORMAT='%R'
    statements "$1" "$2" >"$work/input"
    case $1 in
    hsql)
        cp "$work/kept.log" "$work/db.log"
        seconds=$({ time "$program" "$work/db" <"$work/input" >"$work/output"; } 2>&1) || fail "hsql: $seconds"
        sed -n "s/^[0-9]* a: row //p" "$work/output" | tr -d "'" >"$work/answer"
        ;;
    sqlite)
        cp "$work/kept.sqlite" "$work/db.sqlite"
        seconds=$({ time sqlite3 -separator , "$work/db.sqlite" <"$work/input" >"$work/answer"; } 2>&1) || fail "sqlite3: $seconds"
        ;;
    esac
}

# median_of ENGINE FILE: sets `taken`.
median_of() {
    local all=()
    for _ in 1 2 3; do
        run "$1" "$2"
        all+=("$seconds")
    done
    taken=$(median "${all[@]}")
}

# ratio MINE THEIRS: none where the other's time is below what the clock shows.
ratio() { awk -v mine="$1" -v theirs="$2" 'BEGIN { if (theirs < 0.1) print "-"; else printf "%.1f\n", mine / theirs }'; }

# ask WHAT ROUNDS QUERY: the figures of one query, which is asked so often. `#` in it is the number of the round.
ask() {
    local engine mine theirs none
    awk -v rounds="$2" -v query="$3" 'BEGIN { for (at = 1; at <= rounds; at++) { q = query; gsub("#", at * 37 % 900 + 1, q); print q } }' >"$work/queries"
    echo "SELECT COUNT(*) FROM NONE" >"$work/nothing"
    for engine in hsql sqlite; do
        median_of "$engine" "$work/nothing"
        none=$taken
        median_of "$engine" "$work/queries"
        sort "$work/answer" >"$work/$engine.answer"
        taken=$(reckon "($taken - $none) * 1000 / $2" 2)
        if [ "$engine" = hsql ]; then mine=$taken; else theirs=$taken; fi
    done
    cmp -s "$work/hsql.answer" "$work/sqlite.answer" || fail "$1: the answers differ"
    printf '%-58s %12s %12s %9s\n' "$1" "$mine" "$theirs" "$(ratio "$mine" "$theirs")"
}

tables >"$work/tables"
statements hsql "$work/tables" >"$work/input"
"$program" "$work/db" <"$work/input" >"$work/output" || fail "hsql: the tables"
! grep -q refused "$work/output" || fail "hsql refused a table"
mv "$work/db.log" "$work/kept.log"
{
    echo "BEGIN;"
    statements sqlite "$work/tables"
    echo "COMMIT;"
} | sqlite3 "$work/kept.sqlite"

echo "$rows rows, $(sqlite3 --version | cut -d ' ' -f 1) of SQLite"
printf '%-58s %12s %12s %9s\n' "milliseconds a query" hsql SQLite ratio
ask "a filter that keeps one row in a thousand" 5 "SELECT * FROM T WHERE M < 2147483"
ask "a sum and a count of all rows" 5 "SELECT SUM(G), COUNT(*) FROM T"
ask "GROUP BY into 1,000 groups" 5 "SELECT G, SUM(N), MIN(M) FROM T GROUP BY G"
ask "ORDER BY of all rows" 3 "SELECT N FROM T ORDER BY M, N"
ask "DISTINCT" 5 "SELECT DISTINCT G FROM T"
ask "UNION of two tables" 3 "SELECT G, W FROM T UNION SELECT G, W FROM U"
ask "EXISTS of 1,000 by 1,000" 1 "SELECT COUNT(*) FROM A WHERE EXISTS (SELECT * FROM B WHERE B.M = A.M AND B.G > 500)"
ask "join of 1,000 and 1,000 rows by their keys" 1 "SELECT SUM(A.M), COUNT(*) FROM A JOIN B ON A.N = B.N"
ask "SELECT by key" 900 "SELECT * FROM T WHERE N = #"
ask "UPDATE by key" 900 "UPDATE T SET M = M + 1 WHERE N = #"
ask "DELETE by key" 900 "DELETE FROM T WHERE N = #"
