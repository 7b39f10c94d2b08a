#!/usr/bin/env bash
# Looks at the built program's calls of the system on the first example, in their order, over a new database.
#
# usage: checks/calls.sh
#
# No contract can see whether the host over real files does sync what it says, and no test of the gate does. Here each
# lock, write, cut and sync of the program, up to its end, must be the expected one: the log is locked; the folder is
# synced once the files are made; a new log is written without its birth byte, synced, born, and synced. All entries are at
# hand, so the three commits are written together behind the closed gate, synced, that gate opened, and synced; and what is
# told is written behind that. It needs `strace`.
# shellcheck source=checks/shared.sh
. "$(dirname "$(readlink -f "$0")")/shared.sh"
needs strace

# One call a line: its name, what it is of, and for a write how many bytes and, in a file, at which place.
strace -y -o "$work/calls" -e trace=flock,write,pwrite64,ftruncate,fdatasync,fsync "$program" "$work/db" \
    <"$top/examples/first.sql" >"$work/output"
same "$(cat "$top/examples/first.out")" "$(cat "$work/output")" "the first example"
sed -n -E \
    -e "s#[<(]$work/#<#" \
    -e 's#^flock\([0-9]+<db\.([a-z.]+)>, LOCK_EX\|LOCK_NB\) = 0$#flock \1#p' \
    -e "s#^fsync\([0-9]+<$work>\).*#fsync folder#p" \
    -e 's#^(fdatasync|fsync)\([0-9]+<db\.([a-z.]+)>\).*= 0$#\1 \2#p' \
    -e 's#^ftruncate\([0-9]+<db\.([a-z.]+)>, ([0-9]+)\).*= 0$#ftruncate \1 to \2#p' \
    -e 's#^pwrite64\([0-9]+<db\.([a-z.]+)>, .*, ([0-9]+), ([0-9]+)\) = \2$#pwrite \1 \2 at \3#p' \
    -e 's#^write\(1<output>, .*, ([0-9]+)\) = \1$#write output \1#p' \
    "$work/calls" >"$work/seen"
cat >"$work/expected" <<'END'
flock log
fsync folder
pwrite log 11 at 0
ftruncate log to 11
fdatasync log
pwrite log 1 at 0
fdatasync log
write output 12
pwrite log 149 at 11
fdatasync log
pwrite log 1 at 10
fdatasync log
write output 167
write output 12
END
same "$(cat "$work/expected")" "$(cat "$work/seen")" "the calls"
# Nothing that the patterns don't know was called.
same "$(wc -l <"$work/seen")" "$(grep -c -v '^+++' "$work/calls")" "how many calls there were"

done_with "commits are synced twice before their replies are written"
