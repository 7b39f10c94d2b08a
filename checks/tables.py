"""Gives the statements of examples/queries.txt and examples/binding.txt to the built program, and compares its replies with
the answers that stand there.

usage: tables.py PROGRAM FOLDER TABLE..      FOLDER is one to work in, and TABLE a file with statements and their answers

It prints how many replies were as written and how many statements no input can hold, or the first reply that wasn't as
written and ends with 1.
"""
import os
import re
import subprocess
import sys

from cases import bytes_of

SESSION = "a: "
VALUE = r"(?:[^',]|'(?:[^']|'')*')+"
WORDS = r"'(?:[^']|'')*'|[()]|[^()' ]+"
DEFINITIONS = ["create-memory-table", "create-index", "add-column", "add-constraint", "drop-constraint", "drop-index", "drop-table", "set-level", "set-control"]
QUERIES = ["select", "values", "union", "union-all", "except", "intersect", "query"]


class Differs(Exception):
    """A reply isn't as written."""


def cases(file):
    """The words of the lines of a table, with their texts and the lines that stand below them."""
    found = []
    for line in open(file, encoding="utf-8"):
        line = line.rstrip("\n")
        if line.startswith("  "):
            found[-1][2].append(line[2:])
        elif line and not line.startswith("#"):
            word, _, text = line.partition(" ")
            found.append((word, text, []))
    return found


def refusal(answer):
    """The reply that an answer stands for, which isn't rows. Its place counts from the statement, and a reply's from the entry."""
    kind, at, place = answer.rpartition(" at ")
    if at:
        return f"refused {kind} at {int(place) + len(SESSION)}"
    kind, named, name = re.fullmatch("(?:(no such|exists|ambiguous)( ))?(.*)", answer).groups()
    if named and not re.fullmatch("[A-Z][A-Z0-9_]*", name):
        name = '"' + name.replace('"', '""') + '"'
    return f"refused {kind} {name}" if named else f"refused {name}"


def count(number):
    return f"ok {number} row" if number == 1 else f"ok {number} rows"


def reply(answers):
    """The lines of the reply that these answers stand for."""
    answers = bytes_of("\n".join(answers)).decode().split("\n")
    if answers == ["no rows"]:
        return [count(0)]
    if answers == ["made"]:
        return ["ok committed *"]
    if re.fullmatch("[0-9]+ rows?", answers[0]):
        return [f"ok {answers[0]} committed *"]
    if answers[0].startswith("("):
        rows = [re.findall(rf"({VALUE})(?:, |$)", it[1:-1]) for it in answers]
        return ["row " + ",".join(it) for it in rows] + [count(len(rows))]
    return [refusal(answers[0])]


def plan_of(text):
    """A plan as lists in lists."""
    open_lists = [[]]
    for word in re.findall(WORDS, text):
        if word == "(":
            open_lists.append([])
        elif word == ")":
            closed = open_lists.pop()
            open_lists[-1].append(closed)
        else:
            open_lists[-1].append(word)
    return open_lists[0][0]


def is_empty(plan):
    """Whether a query, or a part of FROM, has no row where the tables have none."""
    kind, *parts = plan
    if kind == "select":
        of = {it[0]: it[1:] for it in parts if isinstance(it, list)}
        return of.get("group") != [] and any(map(is_empty, of["from"]))
    if kind == "joined":
        return is_empty(parts[0]) or any(it[0] != "left" and is_empty(it[1]) for it in parts[1:])
    if kind in ["union", "union-all"]:
        return is_empty(parts[1]) and is_empty(parts[2])
    if kind == "except":
        return is_empty(parts[1])
    if kind == "intersect":
        return is_empty(parts[1]) or is_empty(parts[2])
    return kind == "table" or (kind in ["query", "derived"] and is_empty(parts[0]))


def reply_to_plan(plan):
    """The lines of the reply to a statement with this plan over tables without rows."""
    kind, *parts = plan
    if kind in DEFINITIONS:
        return ["ok committed *"]
    if kind == "insert" and parts[2][0] == "row":
        return [f"{count(len(parts[2:]))} committed *"]
    if kind in ["update", "delete"] or is_empty(parts[2] if kind == "insert" else plan):
        return [count(0)]
    return ["more rows than follow from the plan"] if kind in QUERIES + ["insert"] else ["ok"]


class Table:
    """What stands in every database, and the statements that are given to the next one, each with the lines of its reply."""

    def __init__(self, program, folder):
        self.program, self.folder = program, folder
        self.passed, self.left_out = 0, 0
        self.held, self.given = [], []

    def hold(self, text, wanted):
        """A statement that is done in every database from now on."""
        self.end()
        self.held.append((text, [f"{wanted} committed {len(self.held) + 1}"]))

    def hold_none(self):
        self.end()
        self.held = []

    def end(self):
        """Runs what was given. What follows is given to a new database."""
        if self.given:
            self.compare(self.held + self.given)
            self.passed += len(self.given)
        self.given = []

    def compare(self, statements):
        for (text, wanted), seen in zip(statements, self.replies([text for text, _ in statements])):
            if len(seen) != len(wanted) or not all(map(matches, wanted, seen)):
                raise Differs("\n".join([text[:500], *seen[:20], "in place of", *wanted[:20]]))

    def replies(self, texts):
        for name in os.listdir(self.folder):
            os.remove(f"{self.folder}/{name}")
        entries = b"".join(SESSION.encode() + bytes_of(it) + b";\n" for it in texts)
        ran = subprocess.run([self.program, "db"], cwd=self.folder, input=entries, stdout=subprocess.PIPE, check=False)
        if ran.returncode:
            raise Differs(f"status {ran.returncode} of a run with {self.given[0][0][:300]} to {self.given[-1][0][:300]}")
        told = [[] for _ in texts]
        for number, line in re.findall(f"^([0-9]+) {SESSION}(.*)$", ran.stdout.decode(), re.MULTILINE):
            told[int(number) - 1].append(line)
        return told

    def ask(self, text, wanted):
        if text.count("'") % 2:
            # Such a text takes the entries behind it in, so that it is no statement of an input.
            self.left_out += 1
        else:
            self.given.append((text, wanted))


def matches(wanted, seen):
    """A `*` stands for a number that isn't told."""
    return re.fullmatch(re.escape(wanted).replace(r"\*", r"\d+"), seen) is not None


def answer_queries(table, word, text, answers):
    if word == "query":
        table.ask(text, reply(answers))
    elif word == "fill":
        table.hold(f"INSERT INTO {text}", "ok * rows")
    else:
        table.hold(text, "ok")


def answer_binding(table, word, text, answers):
    first, *more = answers or [""]
    if word == "new":
        table.hold_none()
    elif word in ["define", "define-all"]:
        for statement in bytes_of(text).decode().split(";"):
            table.hold(statement, "ok")
    elif first == "a plan" or first.startswith("("):
        table.ask(text, reply(more) if more else reply_to_plan(plan_of(first)))
        if not re.match(r"SELECT|VALUES|\(", text):
            # It may leave rows or a table behind.
            table.end()
    else:
        table.ask(text, [refusal(first)])


ANSWERS = {"queries": answer_queries, "binding": answer_binding}


def main(program, folder, *files):
    passed = left_out = 0
    for file in files:
        table = Table(program, folder)
        answer = ANSWERS[os.path.basename(file).removesuffix(".txt")]
        try:
            for word, text, answers in cases(file):
                answer(table, word, text, answers)
            table.end()
        except Differs as it:
            print(os.path.basename(file), it, sep=": ")
            return 1
        passed += table.passed
        left_out += table.left_out
    print(passed, left_out)
    return 0


if __name__ == "__main__":
    sys.exit(main(*sys.argv[1:]))
