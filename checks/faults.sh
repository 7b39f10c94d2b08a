#!/usr/bin/env bash
# Has each call of the system by which the built program reaches its files, its input and its output fail in turn, once a run.
#
# usage: checks/faults.sh
#
# Each run must end with the status of that device, name it and the system's reason on standard error, and write a prefix of
# its output. The next run must open at the last acknowledged commit, or up to three behind it, which are logged together, or
# further behind where the output failed. A read or a write that a signal interrupts is no fault. It needs `strace`, which
# makes the calls fail.
# shellcheck source=checks/shared.sh
. "$(dirname "$(readlink -f "$0")")/shared.sh"
needs strace
cd "$work"
input="$top/examples/first.sql"
paths=(-P "$input" -P "$work" -P "$work/output" -P "$work/db.properties")
for ending in log script script.new data backup; do
    paths+=(-P "$work/db.$ending")
done

# with_fault CALL ERROR NUMBER: a run whose call of this name and number fails so; sets `status`, and `injected` to whether
# there was such a call.
with_fault() {
    status=0
    strace -qq -o calls "${paths[@]}" -e trace="$1" -e inject="$1:error=$2:when=$3" "$program" "$work/db" \
        <"$input" >output 2>errors || status=$?
    injected=0
    if grep -q INJECTED calls; then
        injected=1
    fi
}

# each_fails BEGINNING STATUS MESSAGE CALL..: from the files of this beginning, each of these calls fails in turn.
each_fails() {
    local beginning=$1 wanted=$2 message=$3 opens=opens_close call number
    shift 3
    if [ "$wanted" = 3 ]; then
        opens=opens_behind
    fi
    for call in "$@"; do
        for ((number = 1; number < 100; number++)); do
            rm -f db.*
            cp "$beginning"/* . 2>/dev/null || true
            with_fault "$call" EIO "$number"
            if [ "$injected" = 0 ]; then
                break
            fi
            [ "$status" = "$wanted" ] || fail "$call $number failed over $beginning, and the status is $status"
            grep -qxE "hsql: $message: Input/output error" errors || fail "$call $number failed over $beginning, and standard error has '$(cat errors)'"
            cmp -s <(head -c "$(wc -c <output)" "$beginning.out") output || fail "$call $number failed over $beginning, and the output is no prefix of the expected one"
            "$opens" "$work/db" output "$call $number failed over $beginning" "$(<"$beginning.commits")" 3
            pass
        done
    done
}

mkdir new old
cp "$top/examples/first.out" new.out
echo 0 >new.commits
echo 3 >old.commits
"$program" "$work/db" <"$input" >/dev/null
mv db.* old
cp old/* .
"$program" "$work/db" <"$input" >old.out
for beginning in new old; do
    each_fails "$beginning" 2 "input fault: standard input" read
    each_fails "$beginning" 3 "output fault: standard output" write
    each_fails "$beginning" 4 "disk fault: $work/db[a-z.]*" statx openat flock ftruncate pread64 pwrite64 fdatasync fsync
done

for call in read write; do
    rm -f db.*
    with_fault "$call" EINTR 1
    same 1 "$injected" "whether a $call was interrupted"
    same 0 "$status" "the status where a $call was interrupted"
    same "$(cat new.out)" "$(cat output)" "the output where a $call was interrupted"
done

done_with "calls of the system that failed, each named, and no acknowledged commit lost"
