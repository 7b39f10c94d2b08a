#!/usr/bin/env bash
# Kills the built program in the middle of its work, again and again, over one database that grows.
#
# usage: checks/kill.sh [ROUNDS]      (default: 100)
#
# Each round answers INSERTs without end and is killed (SIGKILL) after 1 to 40 milliseconds. The next run must open the log,
# at a commit that isn't before an acknowledged one, nor before the one at which the round began. So the log isn't
# only read back whole: what stands behind its closed gate when the program dies is of any kind. A killed process isn't a
# power cut, since what was written and not synced stays.
# shellcheck source=checks/shared.sh
. "$(dirname "$(readlink -f "$0")")/shared.sh"
rounds=${1:-100}
"$program" "$work/db" <<<'a: CREATE TABLE T (N BIGINT, M BIGINT);' >/dev/null

awk 'BEGIN { for (at = 1; at <= 2000000; at++) printf "a: INSERT INTO T VALUES (%d,%d);\n", at, -at }' >"$work/input"
opened=1
torn=0
for ((round = 1; round <= rounds; round++)); do
    before=$opened
    "$program" "$work/db" <"$work/input" >"$work/output" &
    sleep "0.0$(printf '%02d' $((RANDOM % 40 + 1)))"
    kill -KILL $! 2>/dev/null || true
    wait $! 2>/dev/null || true
    closed=$(wc -c <"$work/db.log")
    opens_behind "$work/db" "$work/output" "in round $round"
    [ "$opened" -ge "$before" ] || fail "in round $round: the run began at $before, and the next one opened at $opened"
    [ "$(wc -c <"$work/db.log")" = "$closed" ] || torn=$((torn + 1))
    pass
done
done_with "rounds killed, each log opened with every acknowledged commit; in $torn bytes of a group stood behind the gate"
