#!/usr/bin/env bash
# Looks at which files the built program takes for its own, that it leaves others alone, and which names a database may have.
#
# usage: checks/files.sh
# shellcheck source=checks/shared.sh
. "$(dirname "$(readlink -f "$0")")/shared.sh"
cd "$work"
echo 'a: CREATE TABLE T (N BIGINT);' >commit

# of NAME: the entries of this name and what they hold, the errors of the last run left out.
of() {
    local file
    for file in "$1".*; do
        if [ -L "$file" ]; then
            echo "$file -> $(readlink "$file")"
        elif [ -f "$file" ]; then
            echo "$file $(md5sum <"$file")"
        elif [ -e "$file" ]; then
            stat -c '%n %F' "$file"
        fi
    done
}

# untouched NAME STATUS MESSAGE: a run on this name ends so, writes nothing, and leaves all entries of the name as they were.
untouched() {
    local before
    before=$(of "$1")
    ended "$2" "$3" "$program" "$1" <commit >output
    same "" "$(cat output)" "the output over $1"
    same "$before" "$(of "$1")" "the files of $1"
}

# refused NAME STATUS MESSAGE: a run on this name ends so, and writes nothing to its output.
refused() {
    ended "$2" "$3" "$program" "$1" <commit >output
    same "" "$(cat output)" "the output over $1"
}

# Files of another program: `.properties` beside them, and a log that isn't empty and stands alone.
touch other.properties
untouched other 6 "hsql: damaged foreign: other.properties"
ln -s nowhere leads.properties
untouched leads 6 "hsql: damaged foreign: leads.properties"
echo "a line of another program" >lone.log
untouched lone 6 "hsql: damaged foreign: lone.log"
ln -s lone.log linked.log
untouched linked 6 "hsql: damaged foreign: linked.log"

# An empty log alone is a new database, and so is one beside any of the other four files.
touch empty.log
ended 0 "" "$program" empty <commit >/dev/null
echo "no log" >beside.log
touch beside.backup
ended 0 "" "$program" beside <commit >/dev/null

# A database is copied by its five files; its log alone is foreign.
ended 0 "" "$program" whole <commit >/dev/null
cp whole.log copied.log
untouched copied 6 "hsql: damaged foreign: copied.log"
for file in whole.*; do cp "$file" "copy${file#whole}"; done
ended 0 "" "$program" copy </dev/null >output
same "opened at 1" "$(head -1 output)" "a copy of five files"

# Names and links that are none.
mkdir folder
for name in folder/ . .. folder/. folder/..; do
    untouched "$name" 4 "hsql: disk fault: $name: is the name of a folder"
done
same "" "$(ls -A folder)" "the files of a folder"
ln -s nowhere dead.log
untouched dead 4 "hsql: disk fault: dead.log: is a link that leads nowhere"
ln -s none/nowhere dead_too.data
untouched dead_too 4 "hsql: disk fault: dead_too.data: is a link that leads nowhere"
[ ! -e nowhere ] || fail "a file was made where a link led"
ln -s commit/x odd.script
untouched odd 4 "hsql: disk fault: odd.script: Not a directory"

# What is no plain file: a folder, a pipe, a socket, a device, a link in a circle.
mkdir folder.log folder_too.data
untouched folder 4 "hsql: disk fault: folder.log: Is a directory"
refused folder_too 4 "hsql: disk fault: folder_too.data: Is a directory"
mkfifo pipe.log
refused pipe 4 "hsql: disk fault: pipe.log: Illegal seek"
ln -s /dev/full device.log
refused device 4 "hsql: disk fault: device.log: No space left on device"
ln -s circle.log circle.log
untouched circle 4 "hsql: disk fault: circle.log: Too many levels of symbolic links"
untouched commit/below 4 "hsql: disk fault: commit/below.properties: Not a directory"
mkdir -p gone
(
    cd gone
    rmdir ../gone
    ended 4 "hsql: disk fault: db.log: No such file or directory" "$program" db <../commit >/dev/null 2>&1 || exit 1
) || fail "a run in a folder that was removed"
pass

# Names as people write them. What the shell passes on is the name, and its five files have it.
for name in 'with space' $'of two\nlines' 'ünïcødé' '日本語' '🙂' 'a.b.log' '*' '"' '~' $'\x01' 'a-b' './here' '../here/there'; do
    mkdir -p here
    (cd here && ended 0 "" "$program" "$name" <../commit >output) || fail "a run on '$name'"
    (cd here && ended 0 "" "$program" "$name" </dev/null >output) || fail "a second run on '$name'"
    same "opened at 1" "$(head -1 here/output)" "the second run on '$name'"
    [ "$(find here -name '*.log' -printf x)" = x ] || fail "the files of '$name' have other names"
    rm -rf here
done
# The longest name has 244 bytes, so that `.properties` can be looked for behind it.
longest=$(printf '%0244d' 0)
ended 0 "" "$program" "$longest" <commit >/dev/null
untouched "${longest}0" 4 "hsql: disk fault: ${longest}0.properties: File name too long"
untouched "$(printf '%05000d' 0)" 4 "hsql: disk fault: $(printf '%05000d' 0).properties: File name too long"
for name in -db -- --help -; do
    untouched "$name" 1 "hsql: usage: hsql DATABASE < ENTRIES"
done

# A link to a file that is there is followed.
touch there.bytes
ln -s there.bytes there.log
ended 0 "" "$program" there <commit >/dev/null
[ -s there.bytes ] || fail "a log behind a link wasn't written"
pass

done_with "foreign files, copies, names and links"
