#!/usr/bin/env bash
# Brings the built program to each way in which a run ends but want of memory, and looks at its exit status and at standard
# error.
#
# usage: checks/statuses.sh
#
# No contract speaks of either, and the gate runs the program to status 0 only. Want of memory is looked at by
# checks/allocations.sh. An output that fails is a device that is always full, and a failing read of standard input is a
# folder in its place. Streams are also closed from the start, or lose their reader. The disk that gets full is a small file
# system in memory, which root alone may mount. A folder that can't be written is tried as a user without rights, by
# `setpriv` where the script runs as root.
# shellcheck source=checks/shared.sh
. "$(dirname "$(readlink -f "$0")")/shared.sh"
cd "$work"
mounted=""
at_end() {
    cd /
    if [ -n "$mounted" ]; then umount "$mounted"; fi
}

# without_errors COMMAND..: the command with its standard error closed.
without_errors() {
    "$@" 2>&-
}

# with_small_files COMMAND..: the command, whose files may have 64 KiB.
with_small_files() (
    ulimit -f 64
    exec "$@"
)

# holds_nothing_else NAME: the files of a database but its log are there and empty.
holds_nothing_else() {
    local ending
    for ending in script script.new data backup; do
        if [ ! -e "$1.$ending" ] || [ -s "$1.$ending" ]; then
            fail "$1.$ending isn't there and empty"
        fi
    done
    pass
}

usage="hsql: usage: hsql DATABASE < ENTRIES"
echo 'a: CREATE TABLE T (N BIGINT);' >commit
ended 0 "" "$program" db <commit >/dev/null
ended 0 "" "$program" db </dev/null >/dev/null

# The first example leaves a log of 160 bytes, and the next run makes its commits again.
ended 0 "" "$program" kept <"$top/examples/first.sql" >output
same "$(cat "$top/examples/first.out")" "$(cat output)" "the first example"
same 160 "$(stat -c %s kept.log)" "the size of its log"
echo 'b: SELECT * FROM T;' >query
ended 0 "" "$program" kept <query >output
same "$(printf '%s\n' 'opened at 3' '1 b: row 1,-7' '1 b: row 2,5' '1 b: ok 2 rows' 'closed at 3')" "$(cat output)" "its second run"

# Command lines that are none, and words that aren't UTF-8.
ended 1 "$usage" "$program" </dev/null >/dev/null
ended 1 "$usage" "$program" -db </dev/null >/dev/null
ended 1 "$usage" "$program" db more </dev/null >/dev/null
ended 1 "$usage" "$program" "" </dev/null >/dev/null
ended 1 "$usage" "$program" $'\xff' </dev/null >/dev/null
ended 1 "$usage" "$program" db $'\xff' </dev/null >/dev/null

ended 2 "hsql: input fault: standard input: Is a directory" "$program" db <. >/dev/null
ended 3 "hsql: output fault: standard output: No space left on device" "$program" db </dev/null >/dev/full

# Without a standard input, output or error. No file takes the place of a stream: a new log has its 11 bytes, and no line
# stands in any file.
ended 2 "hsql: input fault: standard input: Bad file descriptor" "$program" no_input <&- >/dev/null
ended 3 "hsql: output fault: standard output: Bad file descriptor" "$program" no_output <commit >&-
ended 3 "hsql: output fault: standard output: Bad file descriptor" "$program" neither <&- >&-
ended 3 "" without_errors "$program" no_errors <commit >/dev/full
printf '\001\001\000\000\000\000\000\000\000\001\000' >new
for name in no_input no_output neither no_errors; do
    holds_nothing_else "$name"
    cmp -s "$name.log" new || fail "$name.log isn't as a new log is"
    pass
done

# A reader that goes: the output is longer than a pipe holds.
awk 'BEGIN { for (at = 0; at < 20000; at++) print "a: SELECT * FROM T;" }' >long
ended 3 "hsql: output fault: standard output: Broken pipe" "$program" db <long > >(head -c 1 >/dev/null)

ended 4 "hsql: disk fault: none/db: No such file or directory" "$program" none/db </dev/null >/dev/null
mkdir taken.log
ended 4 "hsql: disk fault: taken.log: Is a directory" "$program" taken </dev/null >/dev/null

# In a folder that can't be written no file is made; and a log that can't be written is left as it was.
cp "$program" hsql
mkdir shut
cp kept.* shut
ls shut >before
chmod 755 . hsql
chmod a-w shut shut/*
other_user=()
if [ "$(id -u)" = 0 ]; then
    other_user=(setpriv --reuid 65534 --regid 65534 --clear-groups)
fi
if "${other_user[@]}" test -x hsql 2>/dev/null && ! "${other_user[@]}" test -w shut; then
    ended 4 "hsql: disk fault: shut/new.log: Permission denied" "${other_user[@]}" ./hsql shut/new <commit >output
    ended 4 "hsql: disk fault: shut/kept.log: Permission denied" "${other_user[@]}" ./hsql shut/kept <commit >>output
    same "" "$(cat output)" "the output in a folder that can't be written"
    same "$(cat before)" "$(ls shut)" "the files of a folder that can't be written"
    cmp -s shut/kept.log kept.log || fail "a log that can't be written was changed"
else
    echo "a folder that can't be written wasn't tried: root can't give up its rights here"
fi

# A run that waits for its input has the files; a second one changes nothing. The first line of output comes before the input.
mkfifo waiting
"$program" db <waiting >first &
first=$!
exec 3>waiting
until [ -s first ]; do
    kill -0 $first
    sleep 0.1
done
cp db.log before
ended 4 "hsql: disk fault: db.log: is in use by another process" "$program" db <commit >second
ended 4 "hsql: disk fault: db.log: is in use by another process" "$program" db <commit >>second
same "" "$(cat second)" "the output of a second run"
cmp -s db.log before || fail "a second run wrote while the first was at work"
exec 3>&-
wait $first
ended 0 "" "$program" db </dev/null >/dev/null

# The closed gate at the log's end is opened, with no group behind it; and a log is born, but not open.
for ending in log script script.new data backup; do
    cp "db.$ending" "torn.$ending"
    cp "db.$ending" "closed.$ending"
done
printf '\001' | dd of=torn.log bs=1 seek="$(($(stat -c %s torn.log) - 1))" conv=notrunc status=none
ended 6 "hsql: damaged log 2: torn.log" "$program" torn <commit >/dev/null
printf '\001\000' >closed.log
ended 6 "hsql: damaged log 0: closed.log" "$program" closed <commit >/dev/null

head -c $(((1 << 30) + 1)) /dev/zero | ended 7 "hsql: input too long" "$program" db >/dev/null

# A disk that gets full at a commit, and files that may not get longer: what was gathered is still handed over, so that the
# next run, with room again, opens at the last commit that was acknowledged, or one behind it.
awk 'BEGIN {
    print "a: CREATE TABLE T (N BIGINT);"
    for (at = 1; at <= 20000; at++) printf "a: INSERT INTO T VALUES (%d);\n", at
}' >many
mkdir small
if mount -t tmpfs -o size=256k tmpfs small 2>/dev/null; then
    mounted="$work/small"
    ended 4 "hsql: disk fault: small/db.log: No space left on device" "$program" small/db <many >output
    mount -o remount,size=16m small
    opens_close small/db output "on a full disk"
    pass
else
    echo "a full disk wasn't tried: no file system can be mounted here"
fi
ended 4 "hsql: disk fault: limited.log: File too large" with_small_files "$program" limited <many >output
opens_close limited output "with small files"
pass

done_with "each status but want of memory, and its message"
