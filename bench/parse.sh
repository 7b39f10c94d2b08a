#!/usr/bin/env bash
# Times the parser, from a statement's text to its tree: `tokens` and then `statement`. Prints each figure with its limit.
#
# usage: bench/parse.sh [statements|long|memory]..      (default: all three)
#
# statements: ordinary statements, in microseconds each. long: texts of 65,536 bytes of many kinds, in milliseconds each.
# memory: the peak over those texts, and how it grows from 32,768 bytes to 65,536.
#
# A time is that of the clock over a round, of about a millisecond or of one long text; the least of the rounds and their
# median are printed, and the limit is for the least, which other work on the machine disturbs little. The answer to
# each text is compared with what it should be.
#
# It writes a throwaway program over copies of crates.txt and crates/ into a temporary folder, has it proved and built
# there, and removes the folder at the end. This is no part of the gate. A first run proves the libraries in the copy,
# which takes some minutes. With BENCH_FOLDER the copy is kept in that folder, and a later run proves only what has
# changed. The peaks need GNU time as /usr/bin/time.
set -eu
wanted=" ${*:-statements long memory} "
top=$(cd "$(dirname "${BASH_SOURCE[0]}")/.." && pwd)
work=$(mktemp -d)
trap 'rm -rf "$work"' EXIT
copy=${BENCH_FOLDER:-$work/copy}

# The parser and what it stands on, in a root of their own.
mkdir -p "$copy/crates/bench_parse/src" "$copy/crates/bench_parse/specs" "$copy/crates/bench_parse/proofs"
cp "$top/HANDLES" "$copy/"
grep -v '^#' "$top/crates.txt" | grep -E '^(hs_ast|hs_grammar|hs_lexer|hs_builder|hs_builder_laws|hs_syntax|hs_parser):' >"$copy/crates.txt"
for name in hs_ast hs_grammar hs_lexer hs_builder hs_builder_laws hs_syntax hs_parser; do
    mkdir -p "$copy/crates/$name"
    for part in src specs proofs; do
        rm -rf "$copy/crates/$name/$part"
        [ ! -d "$top/crates/$name/$part" ] || cp -rp "$top/crates/$name/$part" "$copy/crates/$name/"
    done
done
echo "bench_parse: hs_lexer hs_parser" >>"$copy/crates.txt"
touch "$copy/crates/bench_parse/specs/Lib.antt" "$copy/crates/bench_parse/proofs/Lib.antt"
cat >"$copy/crates/bench_parse/src/main.rt" <<'RT'
//! Parses the text on standard input: `bench_parse CALLS ROUNDS`. It prints the answer, and of each round the nanoseconds.
#![tactic(auto)]

use hs_lexer::tokens;
use hs_parser::{SyntaxFault, statement};
use std::alloc::Global;
use std::env;
use std::io;
use std::time::Instant;

/// What a text is.
#[derive(Clone, Copy, PartialEq, Eq)]
enum Answer {
    TooLong,
    NoTokens,
    Tree,
    NoStatement,
    TooDeep,
    NoMemory,
}

fn parse(alloc: Global, text: &str) -> Answer {
    if text.len() > 65_536 {
        return Answer::TooLong;
    }
    match tokens(alloc, text) {
        Err(_) => Answer::NoTokens,
        Ok(found) => match statement(alloc, text, &found) {
            Ok(_) => Answer::Tree,
            Err(SyntaxFault::At(_)) | Err(SyntaxFault::NotOffered(_)) => Answer::NoStatement,
            Err(SyntaxFault::Depth) => Answer::TooDeep,
            Err(SyntaxFault::NoMemory) => Answer::NoMemory,
        },
    }
}

fn word(answer: Answer) -> &'static str {
    match answer {
        Answer::TooLong => "too_long",
        Answer::NoTokens => "no_tokens",
        Answer::Tree => "tree",
        Answer::NoStatement => "no_statement",
        Answer::TooDeep => "too_deep",
        Answer::NoMemory => "no_memory",
    }
}

/// How many of so many calls give the same answer.
fn calls(alloc: Global, text: &str, count: u32, same: Answer) -> u32 {
    let mut found = 0u32;
    for _call in 0..count {
        if parse(alloc, text) == same {
            found = found.saturating_add(1);
        }
    }
    found
}

/// The number that a word of the command line is, 1 if it is none.
fn number(word: Option<&String>) -> u32 {
    match word {
        Some(word) => word.parse::<u32>().unwrap_or(1),
        None => 1,
    }
}

fn main(rt: HostRuntime) -> io::Result<()> {
    let alloc = rt.alloc();
    let mut words = Vec::new(alloc);
    for word in env::args(&rt)? {
        words.push(word)?;
    }
    let count = number(words.get(1));
    let rounds = number(words.get(2));
    let text = io::read_to_string(alloc, rt.stdin())?;
    let first = parse(alloc, text.as_str());
    println!(rt; "answer {}", word(first))?;
    for _round in 0..rounds {
        let start = Instant::now(&rt)?;
        let same = calls(alloc, text.as_str(), count, first);
        let spent = start.elapsed(&rt)?.as_nanos();
        println!(rt; "round {spent} {same}")?;
    }
    Ok(())
}
RT
echo "parse.sh: proving and building bench_parse" >&2
if ! (cd "$copy/crates/bench_parse" && rt run -- 1 0 </dev/null >"$work/log" 2>&1); then
    tail -40 "$work/log" >&2
    echo "parse.sh: bench_parse was not proved and built" >&2
    exit 70
fi
program="$copy/crates/bench_parse/out/bench_parse"

# text BYTES FRONT PIECE END: the front, the piece as often as it fits, the end, and spaces up to so many bytes.
text() {
    awk -v bytes="$1" -v front="$2" -v piece="$3" -v end="$4" 'BEGIN {
        printf "%s", front
        count = int((bytes - length(front) - length(end)) / length(piece))
        for (at = 0; at < count; at++) printf "%s", piece
        printf "%s%*s", end, bytes - length(front) - length(end) - count * length(piece), "" }'
}

# long_text BYTES NAME: a long text by its name.
long_text() {
    case $2 in
        parentheses_open) text "$1" "VALUES (" "(" "" ;;
        parentheses_closed) awk -v bytes="$1" 'BEGIN {
            count = int((bytes - 10) / 2)
            printf "VALUES ("
            for (at = 0; at < count; at++) printf "("
            printf "1"
            for (at = 0; at < count; at++) printf ")"
            printf ")%*s", bytes - 10 - 2 * count, "" }' ;;
        name_of_all_bytes) text "$1" "" "A" "" ;;
        quoted_name) text "$1" "SELECT * FROM \"" "A" "\"" ;;
        digits) text "$1" "VALUES (" "7" ")" ;;
        sums) text "$1" "VALUES (1" "+1" ")" ;;
        products_of_names) text "$1" "VALUES (A" "*A" ")" ;;
        negations) text "$1" "VALUES (" "NOT " "TRUE)" ;;
        in_list) text "$1" "SELECT * FROM T WHERE A IN (1" ",1" ")" ;;
        in_list_of_texts) text "$1" "SELECT * FROM T WHERE A IN ('x'" ",'y'" ")" ;;
        one_text) text "$1" "VALUES ('" "a" "')" ;;
        text_of_quotes) text "$1" "VALUES ('" "''" "')" ;;
        text_of_escapes) text "$1" "VALUES (U&'" '\\0041' "')" ;;
        one_comment) text "$1" "VALUES (1) /*" "a" "*/" ;;
        comments) text "$1" "VALUES (1)" "/**/" "" ;;
        comment_left_open) text "$1" "VALUES (1) /*" "*" "" ;;
        line_comments) text "$1" "VALUES (1)" "--\n" "" ;;
        white_space) text "$1" "VALUES (1)" " " "" ;;
        values) text "$1" "INSERT INTO T VALUES (1,2)" ",(1,2)" "" ;;
        rows_of_a_query) text "$1" "VALUES (1,2)" ",(1,2)" "" ;;
        select_list) text "$1" "SELECT A" ",A" " FROM T" ;;
        unions) text "$1" "VALUES (1)" " UNION VALUES (1)" "" ;;
        joins) text "$1" "SELECT * FROM T" ",T" "" ;;
        columns) text "$1" "CREATE TABLE T (A INT" ",A INT" ")" ;;
        case_arms) text "$1" "VALUES (CASE " "WHEN A = 1 THEN 1 " "END)" ;;
        signs_before_intervals) text "$1" "VALUES (" "- " "" ;;
    esac
}

# Each kind of long text, with the answer.
kinds="parentheses_open:no_statement parentheses_closed:too_deep name_of_all_bytes:no_tokens quoted_name:no_tokens
digits:no_tokens sums:too_deep products_of_names:too_deep negations:too_deep in_list:tree in_list_of_texts:tree one_text:tree
text_of_quotes:tree text_of_escapes:tree one_comment:tree comments:tree comment_left_open:no_tokens line_comments:tree
white_space:tree values:tree rows_of_a_query:tree select_list:tree unions:too_deep joins:tree columns:tree case_arms:tree
signs_before_intervals:no_statement"

# measure LABEL ANSWER CALLS ROUNDS UNIT LIMIT FILE: prints the least and the median of the rounds, in units of so many nanoseconds.
measure() {
    "$program" "$3" "$4" <"$7" >"$work/out"
    if ! awk -v answer="$2" -v calls="$3" \
        'NR == 1 && $2 != answer { exit 1 } NR > 1 && $3 != calls { exit 1 }' "$work/out"; then
        echo "parse.sh: not every call of $1 answers $2" >&2
        head -n 2 "$work/out" >&2
        exit 70
    fi
    awk '$1 == "round" { print $2 }' "$work/out" | sort -g |
        awk -v label="$1" -v calls="$3" -v unit="$5" -v limit="$6" '{ v[NR] = $1 / calls / unit } END {
            printf "%-24s best %7.2f, median %7.2f %s (limit: %s)%s\n", label, v[1], v[1 + int((NR - 1) / 2)],
                unit == 1000 ? "microseconds" : "ms", limit, v[1] <= limit ? "" : "  ABOVE THE LIMIT" }'
}

# statement LABEL LIMIT TEXT
statement() {
    printf '%s' "$3" >"$work/text"
    measure "$1" tree 400 101 1000 "$2" "$work/text"
}

if [[ $wanted == *" statements "* ]]; then
    statement point_select 3 "SELECT V FROM T WHERE K = 12345"
    statement point_update 3 "UPDATE T SET V = V + 1 WHERE K = 12345"
    statement insert_of_two 3 "INSERT INTO T VALUES (12345, 'abc')"
    statement query_of_55_tokens 10 "SELECT C.NAME, SUM(O.AMOUNT) TOTAL FROM CUSTOMERS C JOIN ORDERS O ON C.ID = O.CUSTOMER WHERE O.PLACED >= 20200101 AND C.KIND = 1 GROUP BY C.NAME HAVING COUNT(*) > 1 ORDER BY C.NAME"
fi

if [[ $wanted == *" long "* ]]; then
    for kind in $kinds; do
        long_text 65536 "${kind%:*}" >"$work/text"
        measure "${kind%:*}" "${kind#*:}" 1 31 1000000 20 "$work/text"
    done
fi

# peak FILE: the greatest memory of one call, in KiB.
peak() {
    /usr/bin/time -f '%M' -o "$work/peak" "$program" 1 0 <"$1" >/dev/null
    cat "$work/peak"
}

if [[ $wanted == *" memory "* ]]; then
    printf 'VALUES (1)' >"$work/text"
    base=$(peak "$work/text")
    for kind in $kinds; do
        long_text 32768 "${kind%:*}" >"$work/text"
        half=$(peak "$work/text")
        long_text 65536 "${kind%:*}" >"$work/text"
        whole=$(peak "$work/text")
        awk -v label="${kind%:*}" -v base="$base" -v half="$half" -v whole="$whole" 'BEGIN {
            half -= base; whole -= base
            # A peak is known to some 200 KiB: below that no ratio is told.
            above = whole > 2.5 * half + 256
            printf "%-24s %6d KiB above a short text, %6d KiB at half the bytes (limit: linear)%s\n", label, whole, half, above ? "  NOT LINEAR" : "" }'
    done
fi
