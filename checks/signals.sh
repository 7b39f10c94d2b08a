#!/usr/bin/env bash
# Ends, stops and crowds the built program from outside: signals, a reader that goes, and runs that begin at once.
#
# usage: checks/signals.sh
#
# Whatever ends a run, the next one has every commit whose reply was written. SIGKILL is looked at by checks/kill.sh, again
# and again, and Ctrl-C on a terminal by checks/terminal.sh.
# shellcheck source=checks/shared.sh
. "$(dirname "$(readlink -f "$0")")/shared.sh"
cd "$work"
ulimit -c 0
awk 'BEGIN {
    print "a: CREATE TABLE T (N BIGINT);"
    for (at = 1; at <= 300000; at++) printf "a: INSERT INTO T VALUES (%d);\n", at
}' >many

# A signal that ends a process ends a run at work, without a word of its own.
for signal in HUP INT QUIT TERM; do
    status=0
    env --default-signal "$program" "$signal" <many >output 2>errors &
    running=$!
    until [ "$(wc -c <output)" -gt 1000 ]; do
        kill -0 "$running"
        sleep 0.05
    done
    kill -"$signal" "$running"
    wait "$running" 2>/dev/null || status=$?
    same "$((128 + $(kill -l "$signal")))" "$status" "the status behind SIG$signal"
    same "" "$(cat errors)" "standard error behind SIG$signal"
    opens_behind "$signal" output "SIG$signal"
    pass
done

# A run that is stopped and goes on, and one whose terminal changes its size, go on where they were.
mkfifo waiting
"$program" stopped <waiting >output &
running=$!
exec 3>waiting
echo 'a: CREATE TABLE T (N BIGINT);' >&3
for signal in STOP CONT WINCH; do
    kill -"$signal" "$running"
    sleep 0.1
done
echo 'a: SELECT * FROM T;' >&3
exec 3>&-
wait "$running" || fail "a run that was stopped ended with $?"
same "opened at 0
1 a: ok committed 1
2 a: ok 0 rows
closed at 1" "$(cat output)" "the output of a run that was stopped"

# A reader that takes one line, as `head -1`.
status=0
"$program" reader <many 2>errors > >(head -1 >first) || status=$?
wait
same "3 hsql: output fault: standard output: Broken pipe" "$status $(cat errors)" "a run whose reader goes"
same "opened at 0" "$(cat first)" "what its reader had"
opens_behind reader first "a run whose reader goes"
pass

# Twenty runs on one new name that begin at once: each has the files alone, or ends as told, and each commit counts.
runs=()
for ((at = 1; at <= 20; at++)); do
    echo "a: CREATE TABLE T$at (N BIGINT);" | "$program" crowd >"output$at" 2>"errors$at" &
    runs+=($!)
done
done_runs=0
for ((at = 1; at <= 20; at++)); do
    status=0
    wait "${runs[at - 1]}" || status=$?
    case "$status $(cat "errors$at")" in
    "0 ") done_runs=$((done_runs + 1)) ;;
    "4 hsql: disk fault: crowd.log: is in use by another process") same "" "$(cat "output$at")" "the output of a run beside another" ;;
    *) fail "a run beside others ended with $status and '$(cat "errors$at")'" ;;
    esac
done
ended 0 "" "$program" crowd </dev/null >again
same "opened at $done_runs" "$(head -1 again)" "the commits of runs that began at once"

done_with "signals, a reader that goes, and runs that begin at once"
