"""Runs the inputs of crates/hs_top_cases through the built program, each on a new database, whole and byte by byte.

usage: cases.py PROGRAM CASES FOLDER      CASES is the file with the cases and their outputs, FOLDER one to work in

It prints how many runs were as written, or the first that wasn't and ends with 1.
"""
import os
import re
import subprocess
import sys
import threading

# Longer inputs aren't given byte by byte: there are so many calls of the system then.
MOST = 3000


def bytes_of(text):
    """The bytes that a text of a case stands for, as hs_casetext reads it."""
    whole = re.sub(r"\{(\d+) ([^}]*)\}", lambda it: "".join(it[2].replace("#", str(at + 1)) for at in range(int(it[1]))), text)
    parts = re.split(rb"(\\n|\\x[0-9a-f]{2})", whole.encode())
    escaped = {b"\\n": b"\n"}
    return b"".join(escaped.get(it, bytes([int(it[2:], 16)]) if it.startswith(b"\\x") else it) for it in parts)


def shown(output):
    """The lines of an output as a case has them: what isn't printed, or no ASCII, as the number of each byte."""
    lines = output.split(b"\n")[:-1]
    return ["".join(chr(it) if 32 <= it < 127 and it != 92 else f"\\x{it:02x}" for it in line) for line in lines]


def cases(file):
    """The inputs to new databases with the lines that they print."""
    found = []
    for line in open(file, encoding="utf-8"):
        line = line.rstrip("\n")
        if line.startswith("input"):
            found.append((line[len("input ") :], []))
        elif line.startswith("  ") and found:
            found[-1][1].append(line[2:])
        elif line and not line.startswith("#"):
            found.append((None, []))
    return [it for it in found if it[0] is not None]


def run(program, folder, given, piece):
    for name in os.listdir(folder):
        os.remove(f"{folder}/{name}")
    ran = subprocess.Popen([program, "db"], cwd=folder, stdin=subprocess.PIPE, stdout=subprocess.PIPE)

    def feed():
        for at in range(0, len(given), piece):
            os.write(ran.stdin.fileno(), given[at : at + piece])
        ran.stdin.close()

    feeding = threading.Thread(target=feed)
    feeding.start()
    output = ran.stdout.read()
    feeding.join()
    return ran.wait(), output


def main(program, file, folder):
    passed = 0
    for text, wanted in cases(file):
        given = bytes_of(text)
        for piece in [len(given) + 1, 1]:
            if piece == 1 and len(given) > MOST:
                continue
            status, output = run(program, folder, given, piece)
            if status or shown(output) != wanted:
                print(f"input {text[:500]}", f"in pieces of {piece}: status {status}", *shown(output), sep="\n")
                return 1
            passed += 1
    print(passed)
    return 0


if __name__ == "__main__":
    sys.exit(main(*sys.argv[1:]))
