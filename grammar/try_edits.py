#!/usr/bin/env python3
"""Tries the edits of `edits.txt` on `sql.g`, each in memory: none may make a table that the literal grammar can be shown to say the same as.

    python3 try_edits.py    names each edit with why it is refused, and ends with 1 if one is not
"""
import os
import sys

from make_literal import Literal, runs_file, scripts_file
from make_table import Grammar, HERE


def edits(text):
    lines = [line.strip() for line in text.split('\n') if not line.startswith('#')]
    blocks = '\n'.join(lines).strip().split('\n\n')
    return [[line.replace('\\n', '\n') for line in block.split('\n')] for block in blocks]


def refusal(table, literal):
    """Why the edited grammar is refused; None if it isn't."""
    g = Grammar(table)
    g.work_out()
    if g.conflicts:
        return f'{len(g.conflicts)} conflicts'
    try:
        read = Literal(g, literal)
        scripts_file(g, read)
    except SystemExit as said:
        return str(said).replace('\n', ' ')
    _, left_out = runs_file(g, read)
    names = [name for _, name, _, _ in left_out if name != 'decimal']
    return f'{", ".join(names)} has no run' if names else None


def main():
    table = open(os.path.join(HERE, 'sql.g')).read()
    literal = open(os.path.join(HERE, 'literal.g')).read()
    wrong = 0
    assert refusal(table, literal) is None
    for name, old, new in edits(open(os.path.join(HERE, 'edits.txt')).read()):
        if table.count(old) != 1:
            print(f'{name}: the old text stands in sql.g {table.count(old)} times')
            wrong += 1
            continue
        found = refusal(table.replace(old, new), literal)
        print(f'{name}: {"NOT REFUSED" if found is None else found}')
        wrong += found is None
    return 1 if wrong else 0


if __name__ == '__main__':
    sys.exit(main())
