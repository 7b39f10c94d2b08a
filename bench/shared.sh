# What the measurements share. Each script of this folder that reckons sources it.
# shellcheck shell=bash

# reckon EXPRESSION [DIGITS]: its value, with so many digits behind the point (default: 0).
reckon() { awk "BEGIN { printf \"%.${2:-0}f\", $1 }"; }

# median FIGURE..
median() { printf '%s\n' "$@" | sort -g | sed -n "$((($# + 1) / 2))p"; }

# inserts_of COUNT [BEFORE]: so many INSERTs of two values into T, with different keys in random order, behind these words.
inserts_of() {
    awk -v count="$1" -v before="${2:-}" 'BEGIN {
        for (at = 1; at <= count; at++) printf "%sINSERT INTO T VALUES (%d,%d);\n", before, (at * 48271) % 2147483647, -at
    }'
}

# Throwaway programs over the repository's libraries. The script sets `top`, a temporary folder `work`, and `copy`, the
# root of the libraries' copy.

# libraries NAME..: copies these libraries into `copy`, without what was built of them.
libraries() {
    : "${top:?}" "${work:?}" "${copy:?}"
    mkdir -p "$copy/crates"
    cp "$top/HANDLES" "$copy/"
    : >"$copy/crates.txt"
    : >"$work/rounds"
    local name part
    for name in "$@"; do
        grep "^$name:" "$top/crates.txt" >>"$copy/crates.txt"
        mkdir -p "$copy/crates/$name"
        for part in src specs proofs; do
            rm -rf "$copy/crates/$name/$part"
            [ ! -d "$top/crates/$name/$part" ] || cp -rp "$top/crates/$name/$part" "$copy/crates/$name/"
        done
    done
}

# program NAME DEPS, with the text of its main.rt on standard input: has it proved and built, runs it three times, and
# keeps the lines `LABEL CALLS NANOSECONDS ..` that it prints.
program() {
    local folder="$copy/crates/$1"
    mkdir -p "$folder/src" "$folder/specs" "$folder/proofs"
    touch "$folder/specs/Lib.antt" "$folder/proofs/Lib.antt"
    cat >"$folder/src/main.rt"
    echo "$1: $2" >>"$copy/crates.txt"
    echo "$(basename "$0"): proving and building $1" >&2
    if ! (cd "$folder" && rt run </dev/null >"$work/out" 2>"$work/log"); then
        tail -40 "$work/log" >&2
        echo "$(basename "$0"): $1 was not proved and built" >&2
        exit 70
    fi
    for _ in 1 2 3; do
        "$folder/out/$1" </dev/null >>"$work/rounds"
    done
}

# labels: those of the rounds that were kept.
labels() { cut -d ' ' -f 1 "$work/rounds" | sort -u; }

# rank LABEL PART: the nanoseconds a call of the round at that part of the way from the least to the greatest.
rank() {
    awk -v label="$1" '$1 == label { print $3 / $2 }' "$work/rounds" | sort -g |
        awk -v part="$2" '{ v[NR] = $1 } END { print v[1 + int((NR - 1) * part)] }'
}
