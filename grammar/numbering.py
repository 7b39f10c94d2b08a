"""The numbers of rules, productions and steps, which stay when others are added.

`numbers.txt` lists them in the order of their numbers. What is new takes the place of what is gone, or comes at the end; where more is gone
than comes, the last ones move up. So a new alternative leaves all other numbers as they are.
"""
import os

PATH = os.path.join(os.path.dirname(os.path.abspath(__file__)), 'numbers.txt')
HEAD = """# The rules, productions and steps in the order of their numbers, from 0 (productions: from 1), kept by make_table.py and
# make_literal.py: what is new comes at the end, and nothing is put elsewhere by hand.
"""


class Numbers:
    def __init__(self, path=PATH):
        self.kept = {}
        lists = open(path).read().split('\n') if path and os.path.exists(path) else []
        for line in lists:
            if line.startswith('## '):
                found = self.kept.setdefault(line[3:], [])
            elif line and not line.startswith('#'):
                found.append(line.strip())

    def ordered(self, kind, wanted):
        """What is wanted, in the order of its numbers."""
        wanted = list(wanted)
        assert len(set(wanted)) == len(wanted), [x for x in wanted if wanted.count(x) > 1]
        kept = [x if x in wanted else None for x in self.kept.get(kind, [])]
        for name in [x for x in wanted if x not in kept]:
            if None in kept:
                kept[kept.index(None)] = name
            else:
                kept.append(name)
        while None in kept:
            last = kept.pop()
            if last is not None:
                kept[kept.index(None)] = last
        self.kept[kind] = kept
        return kept

    def text(self):
        return HEAD + ''.join(f'\n## {kind}\n\n' + ''.join(f'    {x}\n' for x in kept) for kind, kept in self.kept.items())
