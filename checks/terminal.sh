#!/usr/bin/env bash
# Types at the built program, on a terminal of its own.
#
# usage: checks/terminal.sh
#
# Each answer comes before more is typed, and the end of the input (Ctrl-D) ends the run, also behind an entry that isn't
# whole: after a read that gave nothing the program asks for no more. Ctrl-C ends it by its signal. It needs Python 3.
# shellcheck source=checks/shared.sh
. "$(dirname "$(readlink -f "$0")")/shared.sh"
needs python3
cat >"$work/type.py" <<'END'
"""Runs PROGRAM NAME on a new terminal, types the lines, and prints what the program wrote and its status.

A line is typed once the answer to the one before it is there; ^D stands for the end of the input, ^C for Ctrl-C."""
import os, pty, select, sys, termios, time

program, name, *lines = sys.argv[1:]
child, terminal = pty.fork()
if child == 0:
    os.execv(program, ["hsql", name])
settings = termios.tcgetattr(terminal)
settings[3] &= ~termios.ECHO
termios.tcsetattr(terminal, termios.TCSANOW, settings)
seen = b""

def read_until(ends, limit):
    """Reads until the answer ends so, or the program ends; answers whether it did."""
    global seen
    end = time.time() + limit
    while not ends(seen) and time.time() < end:
        if select.select([terminal], [], [], 0.1)[0]:
            try:
                piece = os.read(terminal, 4096)
            except OSError:
                return True
            if not piece:
                return True
            seen += piece
    return False

read_until(lambda text: text.startswith(b"opened at ") and text.endswith(b"\n"), 10)
for line in lines:
    answers = seen.count(b"\n")
    if line.endswith("^D"):
        # Behind unfinished text the first Ctrl-D only hands that over, and the second one is the end.
        os.write(terminal, line[:-2].encode())
        os.write(terminal, b"\x04\x04" if line[:-2] else b"\x04")
    elif line == "^C":
        os.write(terminal, b"\x03")
    else:
        os.write(terminal, line.encode() + b"\n")
        read_until(lambda text: text.count(b"\n") > answers, 10)
if not read_until(lambda text: False, 5):
    print("the program goes on")
    os.kill(child, 9)
_, status = os.waitpid(child, 0)
print(seen.decode().replace("\r\n", "\n"), end="")
print("status", os.waitstatus_to_exitcode(status))
END

# typed NAME WANTED LINE..: so the program answers what is typed.
typed() {
    local name=$1 wanted=$2
    shift 2
    same "$wanted" "$(python3 "$work/type.py" "$program" "$work/$name" "$@")" "what was typed on $name"
}

typed ended 'opened at 0
closed at 0
status 0' '^D'
typed answered 'opened at 0
1 a: ok committed 1
2 a: refused exists T
closed at 1
status 0' 'a: CREATE TABLE T (N BIGINT);' 'a: CREATE TABLE T (N BIGINT);' '^D'
typed unfinished 'opened at 0
1 a: ok committed 1
2 -: refused entry
closed at 1
status 0' 'a: CREATE TABLE T (N BIGINT);' 'a: SELECT^D'
typed comment 'opened at 0
closed at 0
status 0' '-- nothing^D'

typed stopped 'opened at 0
1 a: ok committed 1
status -2' 'a: CREATE TABLE T (N BIGINT);' '^C'
typed stopped 'opened at 1
closed at 1
status 0' '^D'

done_with "answers on a terminal, Ctrl-D and Ctrl-C"
