#!/usr/bin/env bash
# Does the same work on hsql, SQLite, HSQLDB, H2 and Derby, checks that all answer the same, and prints what each took.
#
# usage: bench/engines.sh [PART [ROWS [FOLDER]]]      (default: all, 100,000, and the current folder)
#
#   disk      INSERTs on the disk under FOLDER, in short rounds of each engine in turn
#   memory    ROWS INSERTs with the files in memory, where a sync costs a call alone; then the SELECT of all rows
#   open      opening a database of ROWS rows that was left without a close, in a new process, up to the first answer
#   peak      memory at the peak of a process that puts ROWS rows and reads them all
#   all       these four
#
# There is one table T (N BIGINT, M BIGINT), and each INSERT is a commit of its own. hsql answers SELECT * in ascending order
# of all columns, so the others are asked for ORDER BY N, M, which is the same work. hsql and sqlite3 take texts from a file
# and write the rows as texts, and the whole process is timed. The others run in a JVM each, where bench/Engines.java calls
# them through JDBC and reads every number, and the time inside is given, without the JVM's start. `texts` are statements with
# their values in them, as hsql and sqlite3 get them; `prepared` is one statement with two parameters.
#
# It proves and builds the program by bin/hsql where need be, and works in folders of its own, below FOLDER and /dev/shm,
# which it removes at the end. An engine that isn't there is left out. The jars of the last three are looked for in the
# folder JARS (/usr/share/java if not set). The peaks need GNU time as /usr/bin/time. This is no part of the gate.
# Words are parted on purpose here: an engine stands with its style in one word, and an answer is rows and sums.
# shellcheck disable=SC2046,SC2086,SC2178,SC2128,SC2207
set -eu
export LC_ALL=C
top=$(cd "$(dirname "${BASH_SOURCE[0]}")/.." && pwd)
# shellcheck source=bench/shared.sh
. "$top/bench/shared.sh"
part=${1:-all}
rows=${2:-100000}
jars=${JARS:-/usr/share/java}
work=$(mktemp -d "${3:-.}/hsql-engines.XXXXXX")
memory=$(mktemp -d /dev/shm/hsql-engines.XXXXXX)
trap 'rm -rf "$work" "$memory"' EXIT
disk_rounds=9
disk_rows=300
warm_rows=1000

declare -A names=(
    [hsql]="hsql"
    [SQLITE]="SQLite (WAL, synchronous FULL)"
    [HSQLDB]="HSQLDB (WRITE DELAY FALSE)"
    [H2]="H2 (WRITE_DELAY 0: not synced)"
    [H2_DELAYED]="H2 (default: written later, not synced)"
    [DERBY]="Derby"
)
declare -A programs=([hsql]="$top/crates/hsql/out/hsql" [SQLITE]=sqlite3)
declare -A jar_names=([HSQLDB]=hsqldb [H2]=h2 [H2_DELAYED]=h2 [DERBY]=derby)

fail() {
    echo "engines.sh: $1" >&2
    exit 70
}

# line NAME ROWS FIGURE.., up to four figures.
line() { printf '%-52s %8s %12s %12s %12s %12s\n' "$@" | sed 's/ *$//'; }

is_jdbc() { [ -n "${jar_names[$1]:-}" ]; }

# jvm_of ENGINE: sets `jvm` to the command that runs bench/Engines.java with that engine's jar alone.
jvm_of() {
    jvm=(java "-Dderby.stream.error.file=$memory/derby.log" -cp "$memory/classes:$jars/${jar_names[$1]}.jar" Engines)
}


label() {
    if is_jdbc "$1"; then echo "${names[$1]}, $2"; else echo "${names[$1]}"; fi
}

# Sets `found` to the engines that are there, and `lines` to each of them with the ways in which it gets the values.
find_engines() {
    found=(hsql)
    if command -v sqlite3 >/dev/null; then
        found+=(SQLITE)
        echo "SQLite $(sqlite3 --version | cut -d ' ' -f 1)"
    else
        echo "sqlite3 isn't there: SQLite is left out"
    fi
    if command -v javac >/dev/null; then
        javac -d "$memory/classes" "$top/bench/Engines.java"
        java -version 2>&1 | sed -n 2p
        find_jar HSQLDB
        find_jar H2
        find_jar DERBY
    else
        echo "javac isn't there: HSQLDB, H2 and Derby are left out"
    fi
    local engine
    lines=()
    for engine in "${found[@]}"; do
        lines+=("$engine texts")
        if is_jdbc "$engine"; then lines+=("$engine prepared"); fi
    done
}

# find_jar ENGINE
find_jar() {
    local jar=$jars/${jar_names[$1]}.jar
    if [ ! -e "$jar" ]; then
        echo "$jar isn't there: $1 is left out"
        return
    fi
    found+=("$1")
    jvm_of "$1"
    "${jvm[@]}" version "$1" "$memory/version"
    rm -rf "$memory/version"
}

# seconds_of COMMAND..: sets `seconds` of the clock. Standard input is handed on, and the output is kept.
seconds_of() {
    local TIMEFORMAT='%R'
    seconds=$({ time "$@" >"$memory/output" 2>"$memory/errors"; } 2>&1) || fail "$* ended with an error: $(cat "$memory/errors")"
}

sums_of() {
    awk -F "$1" -v first="$2" '{ rows++; n += $first; m += $(first + 1) } END { printf "%.0f %.0f %.0f\n", rows, n, m }'
}

# inputs_of COUNT: makes, once, the inputs of so many rows and what a SELECT of them must answer.
inputs_of() {
    [ ! -e "$memory/$1.answer" ] || return 0
    # The keys are those of bench/Engines.java.
    inserts_of "$1" >"$memory/inserts"
    { echo "a: CREATE TABLE T (N BIGINT, M BIGINT);"; sed 's/^/a: /' "$memory/inserts"; } >"$memory/$1.hsql"
    {
        echo "PRAGMA journal_mode=WAL; PRAGMA synchronous=FULL; CREATE TABLE T (N INTEGER, M INTEGER);"
        cat "$memory/inserts"
    } >"$memory/$1.SQLITE"
    sums_of '[(,)]' 2 <"$memory/inserts" >"$memory/$1.answer"
    rm "$memory/inserts"
}

# The inputs that ask for all rows, and those that only open the database. Opening, hsql says itself how many commits there are.
ask_inputs() {
    echo "a: SELECT * FROM T;" >"$memory/ask.hsql"
    echo "SELECT * FROM T ORDER BY N, M;" >"$memory/ask.SQLITE"
    echo "a: SELECT * FROM U;" >"$memory/open.hsql"
    echo "SELECT 1 FROM T LIMIT 1;" >"$memory/open.SQLITE"
    printf '.dbconfig no_ckpt_on_close on\nSELECT COUNT(*) FROM T;\n' >"$memory/count.SQLITE"
    cp "$memory/open.hsql" "$memory/count.hsql"
}

# check ENGINE COUNT ROWS SUM_OF_N SUM_OF_M
check() {
    local wanted
    wanted=$(cat "$memory/$2.answer")
    [ "${*:3}" = "$wanted" ] || fail "$1 answers so many rows and such sums: ${*:3}, and it should be $wanted"
}

check_output() {
    case $1 in
        hsql) check hsql "$2" $(grep ' row [-0-9]' "$memory/output" | sums_of '[ ,]' 4) ;;
        SQLITE) check SQLITE "$2" $(grep '|' "$memory/output" | sums_of '|' 1) ;;
    esac
}

# insert ENGINE STYLE FOLDER COUNT: makes a database in the folder, and sets `seconds` that the INSERTs took.
insert() {
    local selecting answer inserting
    if is_jdbc "$1"; then
        jvm_of "$1"
        "${jvm[@]}" work "$1" "$2" "$memory/warm" $warm_rows "$3" "$4" >"$memory/output" || fail "$1 ended with an error"
        read -r seconds selecting answer < <(tail -n 1 "$memory/output")
        check "$1" "$4" $answer
        rm -rf "$memory/warm"
        return
    fi
    mkdir "$3"
    seconds_of "${programs[$1]}" "$3/db" <"$memory/$4.$1"
    inserting=$seconds
    seconds_of "${programs[$1]}" "$3/db" <"$memory/ask.$1"
    check_output "$1" "$4"
    seconds=$inserting
}

# Rounds of all engines come in turn, since a disk's syncs vary from second to second. The median is of each alone.
disk_part() {
    local round each sorted
    local -A taken=()
    inputs_of $disk_rows
    for ((round = 1; round <= disk_rounds; round++)); do
        for each in "${lines[@]}"; do
            insert $each "$work/database" $disk_rows
            taken[$each]="${taken[$each]:-} $seconds"
            rm -rf "$work/database"
        done
    done
    line "INSERTs on the disk, $disk_rounds rounds" rows "a second" slowest fastest ""
    for each in "${lines[@]}"; do
        sorted=($(printf '%s\n' ${taken[$each]} | sort -g))
        line "$(label $each)" $disk_rows "$(reckon "$disk_rows / $(median "${sorted[@]}")")" \
            "$(reckon "$disk_rows / ${sorted[-1]}")" "$(reckon "$disk_rows / ${sorted[0]}")" ""
    done
}

memory_part() {
    local each
    line "INSERTs with the files in memory, and the SELECT" rows "a second" "at first" "SELECT, ms" "at first"
    for each in "${lines[@]}"; do
        if is_jdbc $each; then jdbc_in_memory $each; else process_in_memory $each; fi
        if [ "$each" = "H2 prepared" ]; then jdbc_in_memory H2_DELAYED prepared; fi
    done
}

# Derby compiles each text to a class of its own, which takes a millisecond: a tenth of the rows must do.
count_for() {
    case "$1 $2" in
        "DERBY texts") echo $((rows / 10)) ;;
        *) echo "$rows" ;;
    esac
}

# The first round is in a JVM that has just started. The later ones, on other databases in that JVM, give the medians.
jdbc_in_memory() {
    local count inserting selecting answer insertings=() selectings=() asked=- asked_first=- folder=$memory/database
    count=$(count_for "$1" "$2")
    inputs_of "$count"
    jvm_of "$1"
    "${jvm[@]}" work "$1" "$2" "$folder/1" "$count" "$folder/2" "$count" "$folder/3" "$count" "$folder/4" "$count" \
        >"$memory/output" || fail "$1 ended with an error"
    while read -r inserting selecting answer; do
        check "$1" "$count" $answer
        insertings+=("$inserting")
        selectings+=("$selecting")
    done <"$memory/output"
    rm -rf "$folder"
    if [ "$count" = "$rows" ]; then
        asked=$(reckon "1000 * $(median "${selectings[@]:1}")")
        asked_first=$(reckon "1000 * ${selectings[0]}")
    fi
    line "$(label "$1" "$2")" "$count" "$(reckon "$count / $(median "${insertings[@]:1}")")" \
        "$(reckon "$count / ${insertings[0]}")" "$asked" "$asked_first"
}

# The SELECT's time is that of a process that opens the database and asks, less that of one that only opens it.
process_in_memory() {
    local insertings="" openings="" selectings="" folder=$memory/database
    inputs_of "$rows"
    for _ in 1 2 3; do
        rm -rf "$folder"
        insert "$1" texts "$folder" "$rows"
        insertings="$insertings $seconds"
        seconds_of "${programs[$1]}" "$folder/db" <"$memory/open.$1"
        openings="$openings $seconds"
        seconds_of "${programs[$1]}" "$folder/db" <"$memory/ask.$1"
        selectings="$selectings $seconds"
    done
    rm -rf "$folder"
    line "${names[$1]}" "$rows" "$(reckon "$rows / $(median $insertings)")" - \
        "$(reckon "1000 * ($(median $selectings) - $(median $openings))")" -
}

# leave ENGINE: makes a database of all rows in the folder `left`, which is not closed.
leave() {
    mkdir "$memory/left"
    case $1 in
        hsql) leave_hsql ;;
        SQLITE) { echo ".dbconfig no_ckpt_on_close on"; cat "$memory/$rows.SQLITE"; } | "${programs[SQLITE]}" "$memory/left/db" >/dev/null ;;
        *) jvm_of "$1" && "${jvm[@]}" fill "$1" "$memory/left" "$rows" ;;
    esac
}

# Kills the program once it has answered all that was put.
leave_hsql() {
    local running
    mkfifo "$memory/pipe"
    "${programs[hsql]}" "$memory/left/db" <"$memory/pipe" >"$memory/output" &
    running=$!
    exec 3>"$memory/pipe"
    cat "$memory/$rows.hsql" >&3
    until tail -n 1 "$memory/output" | grep -q "committed $((rows + 1))\$"; do
        kill -0 $running || fail "hsql ended early"
        sleep 0.1
    done
    kill -KILL $running
    wait $running 2>/dev/null || true
    exec 3>&-
    rm "$memory/pipe"
}

# rows_opened ENGINE: how many rows the database that was opened says that it has.
rows_opened() {
    case $1 in
        hsql) awk 'NR == 1 { commits = $3 } $0 == "1 a: refused no such U" { print commits - 1 }' "$memory/output" ;;
        SQLITE) tail -n 1 "$memory/output" ;;
        *) cut -d ' ' -f 2 "$memory/output" ;;
    esac
}

open_part() {
    local engine
    inputs_of "$rows"
    line "opening what was left without a close, in memory" rows "process, ms" "inside, ms" "" ""
    for engine in "${found[@]}"; do
        leave "$engine"
        open_often "$engine"
        rm -rf "$memory/left"
    done
}

# Each time a copy is opened. HSQLDB would wait ten seconds for the mark of the process that died, so it is taken away.
open_often() {
    local processes="" insides="" inside=- copy=$memory/copy
    for _ in 1 2 3 4 5; do
        cp -r "$memory/left" "$copy"
        rm -f "$copy/db.lck"
        if is_jdbc "$1"; then
            jvm_of "$1"
            seconds_of "${jvm[@]}" open "$1" "$copy"
            insides="$insides $(cut -d ' ' -f 1 "$memory/output")"
        else
            seconds_of "${programs[$1]}" "$copy/db" <"$memory/count.$1"
        fi
        [ "$(rows_opened "$1")" = "$rows" ] || fail "$1 opens with $(rows_opened "$1") rows"
        processes="$processes $seconds"
        rm -rf "$copy"
    done
    if [ -n "$insides" ]; then inside=$(reckon "1000 * $(median $insides)"); fi
    line "${names[$1]}" "$rows" "$(reckon "1000 * $(median $processes)")" "$inside" "" ""
}

# peak_of COMMAND..: sets `peak`, in MiB. Standard input is handed on, and the output is kept.
peak_of() {
    /usr/bin/time -f '%M' -o "$memory/spent" "$@" >"$memory/output" || fail "$1 ended with an error"
    peak=$(reckon "$(cat "$memory/spent") / 1024")
}

peak_part() {
    local engine
    if [ ! -x /usr/bin/time ]; then
        echo "/usr/bin/time isn't there: the peaks of memory are left out"
        return
    fi
    inputs_of "$rows"
    line "a process that puts all rows and reads them" rows "peak, MiB" "" "" ""
    for engine in "${found[@]}"; do
        if is_jdbc "$engine"; then
            jvm_of "$engine"
            peak_of "${jvm[@]}" work "$engine" prepared "$memory/database" "$rows"
            check "$engine" "$rows" $(cut -d ' ' -f 3- "$memory/output")
        else
            mkdir "$memory/database"
            cat "$memory/$rows.$engine" "$memory/ask.$engine" >"$memory/input"
            peak_of "${programs[$engine]}" "$memory/database/db" <"$memory/input"
            check_output "$engine" "$rows"
        fi
        line "$(label "$engine" prepared)" "$rows" "$peak" "" "" ""
        rm -rf "$memory/database"
    done
}

case $part in
    disk | memory | open | peak) parts=$part ;;
    all) parts="disk memory open peak" ;;
    *) fail "the parts are disk, memory, open, peak and all" ;;
esac
"$top/bin/hsql" "$memory/built" </dev/null >/dev/null
find_engines
ask_inputs
for part in $parts; do "${part}_part"; done
