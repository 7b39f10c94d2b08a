#!/usr/bin/env bash
# Brings a log to the most bytes that it may have, and looks at which commits it still takes: `log full` comes exactly where the
# log would be longer than 2^30 bytes.
#
# usage: checks/limits.sh
#
# The log is written by a script and not by the program, in memory below /dev/shm: 268,000 rows of 4,000 bytes, with room for
# one more commit of a text of 10 characters. It needs Python 3, and some 4 GB of memory.
# shellcheck source=checks/shared.sh
. "$(dirname "$(readlink -f "$0")")/shared.sh"
needs python3
memory=$(mktemp -d /dev/shm/hsql-limits.XXXXXX)
at_end() { rm -rf "$memory"; }
cd "$memory"

# A group is a 1, the length of its text in eight bytes, and the text. Behind the last stands a byte that is 0.
python3 - <<'PY'
from struct import pack

limit = 2 ** 30
last = b"INSERT INTO T VALUES('1234567890')\nCOMMIT\n"
room = 9 + len(last)


def row(letter, length):
    return b"INSERT INTO T VALUES('" + letter * length + b"')\n"


def texts():
    first = b"/*C1*/\nCREATE MEMORY TABLE T(S VARCHAR(4000))\nCOMMIT\n"
    yield first
    left = limit - room - 11 - (9 + len(first))
    whole = row(b"x", 3990)
    while left > 9 + 10_000 * len(whole) + 7 + 20_000:
        yield whole * 10_000 + b"COMMIT\n"
        left -= 9 + 10_000 * len(whole) + 7
    left -= 9 + 7
    count = left // len(whole) - 1
    left -= count * len(whole)
    short = left // 2 - len(row(b"", 0))
    other = left - left // 2 - len(row(b"", 0))
    yield whole * count + row(b"y", short) + row(b"z", other) + b"COMMIT\n"


with open("full.log", "wb") as log:
    log.write(b"\1\1" + pack(">Q", 1))
    for text in texts():
        log.write(b"\1" + pack(">Q", len(text)) + text)
    log.write(b"\0")
PY
same "$((2 ** 30 - 51))" "$(stat -c %s full.log)" "the bytes of the log"
# A log without the four other files is another program's.
touch full.script full.script.new full.data full.backup

cat >entries <<'SQL'
a: INSERT INTO T VALUES ('12345678901');
a: CREATE TABLE LONGER (NUMBER INTEGER);
a: START TRANSACTION;
a: INSERT INTO T VALUES ('12345678901');
a: COMMIT;
a: ROLLBACK;
a: INSERT INTO T VALUES ('1234567890');
a: INSERT INTO T VALUES ('');
a: DELETE FROM T WHERE S = '1234567890';
a: SELECT COUNT(*) FROM T WHERE S = '1234567890';
SQL
ended 0 "" "$program" full <entries >output
opened=$(sed -n '1s/opened at //p' output)
same "$(printf '%s\n' "opened at $opened" \
    '1 a: refused log full' '2 a: refused log full' \
    '3 a: ok' '4 a: ok 1 row' '5 a: refused log full' '6 a: ok' \
    "7 a: ok 1 row committed $((opened + 1))" \
    '8 a: refused log full' '9 a: refused log full' \
    '10 a: row 1' '10 a: ok 1 row' "closed at $((opened + 1))")" "$(cat output)" "a log that is nearly full"
same "$((2 ** 30))" "$(stat -c %s full.log)" "the bytes of the full log"
ended 0 "" "$program" full </dev/null >output
same "$(printf '%s\n' "opened at $((opened + 1))" "closed at $((opened + 1))")" "$(cat output)" "the full log opened again"

done_with "a log with room for one more commit, and a full one"
