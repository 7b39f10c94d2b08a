#!/usr/bin/env bash
# Gives the built program inputs as people and other programs make them: other line ends, no line end, bytes that are no
# text, entries without end, everything on one line.
#
# usage: checks/inputs.sh
#
# Each run ends with status 0 and says nothing on standard error; what is no entry is refused in its place, and the entries
# behind it are answered.
# shellcheck source=checks/shared.sh
. "$(dirname "$(readlink -f "$0")")/shared.sh"
cd "$work"
create='a: CREATE TABLE T (N BIGINT);'

# answered NAME WANTED: the run over standard input, on a new database, writes these lines between its first and its last.
answered() {
    ended 0 "" "$program" "$1" >output
    same "opened at 0"$'\n'"$2" "$(sed '$d' output)" "the answers over $1"
}

answered carriage_returns '1 a: ok committed 1
2 a: ok 1 row committed 2' < <(printf '%s\r\na: INSERT INTO T VALUES (1);\r\n' "$create")
answered no_line_end '1 a: ok committed 1' < <(printf '%s' "$create")
answered comment_at_the_end '1 a: ok committed 1' < <(printf '%s -- the end' "$create")
answered one_line '1 a: ok committed 1
2 a: refused exists T
3 b: ok 0 rows' < <(printf '%s%sb: SELECT * FROM T;' "$create" "$create")
answered byte_order_mark '1 -: refused entry
2 a: ok committed 1' < <(printf '\xef\xbb\xbf%s\n%s\n' "$create" "$create")
answered zero_bytes '1 a: refused syntax at 10
2 -: refused entry
3 a: ok committed 1' < <(printf 'a: CREATE \0TABLE T (N BIGINT);\0\0;%s\n' "$create")
answered no_utf8 '1 -: refused entry
2 a: ok committed 1' < <(printf 'a: SELECT * FROM \xe9;\n%s\n' "$create")
answered other_letters '1 -: refused entry
2 a: refused syntax at 17
3 a: ok committed 1' < <(printf 'é: SELECT * FROM T;\na: SELECT * FROM É;\n%s\n' "$create")
answered open_text '1 a: ok committed 1
2 -: refused entry' < <(printf '%s\na: SELECT '"'"'x;\na: SELECT * FROM T;\n' "$create")
answered long_entry '1 -: refused too long
2 a: ok committed 1' < <(printf 'a: %70000d;\n%s\n' 0 "$create")
answered no_end '1 a: ok committed 1
2 -: refused too long' < <(printf '%s\n' "$create" && head -c 10000000 /dev/zero)

# Any bytes at all: each entry has one answer, and nothing else is written.
head -c 1000000 /dev/urandom >bytes
ended 0 "" "$program" bytes_of_any_kind <bytes >output
same "" "$(sed -e 1d -e '$d' output | grep -vE '^[0-9]+ (-: refused (entry|too long)|[A-Za-z][A-Za-z0-9_]*: refused syntax at [0-9]+)$')" "the answers over any bytes"
same "opened at 0 closed at 0" "$(sed -n -e 1p -e '$p' output | tr '\n' ' ' | sed 's/ $//')" "the first and the last line over any bytes"

# More sessions than a run has.
awk 'BEGIN { for (at = 1; at <= 66; at++) printf "s%d: SELECT * FROM T;\n", at }' >many
ended 0 "" "$program" sessions <many >output
same "64 s64: refused no such T
65 s65: refused sessions
66 s66: refused sessions" "$(sed -n 65,67p output)" "the answers to sessions too many"

done_with "inputs of any kind, each entry answered in its place"
