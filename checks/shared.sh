# What the checks share: the program that they look at, a folder of their own, and the count of what passed. Each script of
# this folder sources it.
#
# The program is the proved one, which is built where it isn't there; or the one that HSQL_PROGRAM names. A script that looks
# at no program sets `no_program` first.
# shellcheck shell=bash
set -eu
top=$(cd "$(dirname "$(readlink -f "${BASH_SOURCE[0]}")")/.." && pwd)
check=$(basename "$0" .sh)
work=$(mktemp -d)
passed=0
at_end() { :; }
trap 'at_end; chmod -R u+w "$work"; rm -rf "$work"' EXIT
program=${HSQL_PROGRAM:-$top/crates/hsql/out/hsql}
if [ -z "${no_program:-}" ] && [ ! -x "$program" ]; then
    "$top/bin/hsql" "$work/built" </dev/null >/dev/null
    rm -f "$work"/built.*
fi

fail() {
    echo "$check: $1" >&2
    exit 1
}

# needs COMMAND: ends the check, as one that failed, where this command is missing.
needs() {
    command -v "$1" >/dev/null || fail "$1 is missing"
}

pass() { passed=$((passed + 1)); }

# same WANTED SEEN WHAT: two texts are the same.
same() {
    [ "$1" = "$2" ] || fail "$3: '$2' in place of '$1'"
    pass
}

# ended STATUS MESSAGE COMMAND..: the command, with the standard input and output of the call, ends so.
ended() {
    local wanted=$1 message=$2 status=0
    shift 2
    "$@" 2>"$work/errors" || status=$?
    if [ "$status" != "$wanted" ] || [ "$(cat "$work/errors")" != "$message" ]; then
        fail "'$*' ended with $status and '$(cat "$work/errors")' in place of $wanted and '$message'"
    fi
    pass
}

# opens_behind NAME OUTPUT WHAT: the next run of this database opens, at the last commit that this output acknowledges or behind
# it. Sets `acknowledged` and `opened` to the two numbers of commits.
opens_behind() {
    acknowledged=$(grep -o ' committed [0-9]*$' "$2" | tail -1 | cut -d' ' -f3)
    acknowledged=${acknowledged:-0}
    "$program" "$1" </dev/null >"$work/again" 2>"$work/errors" || fail "$3: the next run ended with $? and '$(cat "$work/errors")'"
    opened=$(sed -n '1s/opened at //p' "$work/again")
    [ "$opened" -ge "$acknowledged" ] || fail "$3: commit $acknowledged was acknowledged, and the next run opened at $opened"
}

# opens_close NAME OUTPUT WHAT [BEFORE [MORE]]: the same, and the next run opens so many commits (default: 1) behind the last
# acknowledged one at most, or behind those that were there before (default: 0).
opens_close() {
    local last
    opens_behind "$1" "$2" "$3"
    last=$((acknowledged > ${4:-0} ? acknowledged : ${4:-0}))
    [ "$opened" -le $((last + ${5:-1})) ] || fail "$3: the last commit that was acknowledged is $last, and the next run opened at $opened"
}

# done_with WHAT: the last line of a check, which checks/all counts by.
done_with() { echo "$check: $passed passed: $1"; }
