#!/usr/bin/env bash
# Refuses each allocation of the built program in turn, on the first example, each time over a new database.
#
# usage: checks/allocations.sh
#
# A run whose allocation is refused must end with status 5, `hsql: out of memory` on standard error and a prefix of the
# example's output, and the log that it leaves must open at the last acknowledged commit or one behind it. Past the last
# allocation the run ends with status 0, nothing on standard error and the whole output, and the loop stops. It needs a C
# compiler, since the allocations are refused by a library that is loaded before the C library's. A single one can be
# refused, before any proof, by `rt try --fail-alloc NUMBER`.
# shellcheck source=checks/shared.sh
. "$(dirname "$(readlink -f "$0")")/shared.sh"
needs cc
cc -O2 -shared -fPIC -o "$work/refuse_alloc.so" "$top/checks/refuse_alloc.c" -ldl

prefixes=0
for ((number = 1; number < 100000; number++)); do
    rm -f "$work"/db.*
    status=0
    REFUSE_AT=$number LD_PRELOAD="$work/refuse_alloc.so" "$program" "$work/db" \
        <"$top/examples/first.sql" >"$work/output" 2>"$work/errors" || status=$?
    size=$(wc -c <"$work/output")
    cmp -s <(head -c "$size" "$top/examples/first.out") "$work/output" || fail "at allocation $number the output is no prefix of the expected one"
    if [ "$status" = 0 ]; then
        cmp -s "$top/examples/first.out" "$work/output" || fail "at allocation $number the output isn't whole"
        [ ! -s "$work/errors" ] || fail "at allocation $number standard error has '$(cat "$work/errors")'"
        [ "$number" -gt 1 ] || fail "no allocation was refused: is this program linked with another allocator?"
        pass
        done_with "each allocation refused in turn, with a prefix of the output, $prefixes of them not empty"
        exit 0
    fi
    [ "$status" = 5 ] || fail "at allocation $number the status is $status"
    cmp -s <(echo "hsql: out of memory") "$work/errors" || fail "at allocation $number standard error has '$(cat "$work/errors")'"
    [ "$size" = 0 ] || prefixes=$((prefixes + 1))
    opens_close "$work/db" "$work/output" "allocation $number refused"
    pass
done
fail "no run was whole"
