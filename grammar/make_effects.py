#!/usr/bin/env python3
"""Makes what each rule of `sql.g` takes from the stacks of a tree's building and leaves on them.

    python3 make_effects.py          writes crates/hs_parser/proofs/RuleEffects.antt
    python3 make_effects.py --check  says whether it is what it would write, and ends with 1 if not

What each mark takes and puts stands in crates/hs_builder_laws/proofs/Effects.antt, and is written by hand. A rule takes the least with
which none of its productions finds a part missing, and leaves the same parts whichever of them is taken, unless it leaves
different states. Rules for which that can't be are named, and then nothing is written.
"""
import os
import re
import sys
from collections import Counter

from make_table import CRATES, Grammar, HERE, laid_out


def effects_of_marks(text):
    """By family and mark, the kinds of parts that it takes and puts."""
    effects = {}
    for family, mark, takes, puts in re.findall(r'^\w+ \(?(\w+)_mark\.(\w+)(?: _)*\)? = by (\[\]|\(.*?\)) (\[\]|\(.*?\))$', text, re.M):
        effects[family, mark] = tuple(Counter(re.findall(r'\w+', part)) for part in (takes, puts))
    return effects


def clean(parts):
    return Counter({kind: n for kind, n in parts.items() if n})


class Typing:
    """By rule, what it takes, and by the state that it leaves how the stacks have changed; no state where it may be any."""

    def __init__(self, g, effects):
        self.g = g
        families = {'Leaf': 'leaf', 'Expression': 'e', 'Function': 'f', 'Query': 'q', 'Change': 'c', 'Definition': 'd', 'Session': 's'}
        self.marks = []
        for name in g.marks:
            family, mark = re.match(r'(\w+)\(\w+::(\w+)', g.named[name]).groups()
            self.marks.append(effects[families[family], mark])
        self.needs, self.changes = {}, {}
        while self.again():
            pass

    def ways(self, symbols, state, change, least):
        """How the symbols may go on: the state behind them, the change, and the least of each kind on the way."""
        if not symbols:
            yield state, clean(change), least
            return
        (kind, *rest), symbols = symbols[0], symbols[1:]
        if kind in ('Take', 'TakeUpTo'):
            yield from self.ways(symbols, state, change, least)
        elif kind == 'TakeKeep':
            yield from self.ways(symbols, None, change, least)
        elif kind == 'Keep':
            yield from self.ways(symbols, rest[0], change, least)
        elif kind == 'Mark':
            takes, puts = self.marks[rest[0]]
            change, least = self.taken(takes, change, least)
            change.update(puts)
            yield from self.ways(symbols, state, change, least)
        elif kind in ('Rule', 'Turn'):
            rule = rest[0]
            if kind == 'Turn':
                if state is None:
                    return
                rule += min(state, 2)
            if rule in self.changes:
                below, least = self.taken(self.needs[rule], change, least)
                for left, by in self.changes[rule].items():
                    now = Counter(change)
                    now.update(by)
                    yield from self.ways(symbols, left, now, least)

    @staticmethod
    def taken(takes, change, least):
        change, least = Counter(change), Counter(least)
        change.subtract(takes)
        for kind in takes:
            least[kind] = min(least[kind], change[kind])
        return change, least

    def again(self):
        changed = False
        for rule, name in enumerate(self.g.rules):
            found, needs = {}, Counter()
            for owner, symbols in self.g.productions:
                if owner == name:
                    for state, change, least in self.ways(symbols, None, Counter(), Counter()):
                        found.setdefault(state, [])
                        if change not in found[state]:
                            found[state].append(change)
                        for kind, n in least.items():
                            needs[kind] = max(needs[kind], -n)
            if None in found:
                found = {None: [c for k, c in enumerate(sum(found.values(), [])) if c not in sum(found.values(), [])[:k]]}
            if any(len(changes) > 1 for changes in found.values()):
                raise SystemExit(f'{name} leaves different parts: {found}')
            new = {state: changes[0] for state, changes in found.items()}
            if new and (self.needs.get(rule), self.changes.get(rule)) != (clean(needs), new):
                self.needs[rule], self.changes[rule] = clean(needs), new
                changed = True
        return changed


def effects_file(g, typing, kinds):
    def listed(parts):
        names = [kind for kind in kinds for _ in range(parts[kind])]
        return '(' + ' ∷ '.join(names + ['[]']) + ')' if names else '[]'

    used = set()
    needs, results = [], []
    for rule, name in enumerate(g.rules):
        if rule not in typing.changes:
            raise SystemExit(f'{name} derives nothing')
        outcomes = []
        for state, change in sorted(typing.changes[rule].items(), key=lambda x: (x[0] is not None, x[0])):
            puts = Counter(typing.needs[rule])
            puts.update(change)
            used |= set(clean(puts)) | set(typing.needs[rule])
            outcomes.append(f'in_any {listed(puts)}' if state is None else f'in_state {state} {listed(puts)}')
        needs.append(f'    {listed(typing.needs[rule])} ∷ -- {name}')
        results.append(f'    ({" ∷ ".join(outcomes + ["[]"])}) ∷ -- {name}')
    head = f'''-- By rule of the grammar, what it takes from the stacks and leaves on them, made by grammar/make_effects.py.
use Rattle.std.specs.Prelude.{{ℕ, List, [], ◌∷◌, Some, None}}
use Rattle.hs_builder_laws.proofs.Effects.{{{", ".join(kind for kind in kinds if kind in used)}}}
use Rattle.hs_parser.proofs.Typing.{{Outcome}}

abbrev in_any : List ℕ → Outcome
in_any puts = record {{ state = None; puts = puts }}

abbrev in_state : ℕ → List ℕ → Outcome
in_state q puts = record {{ state = Some q; puts = puts }}

-- what stands on the stacks before it, and is taken
abbrev pub needs : List (List ℕ)
needs =
'''
    return head + '\n'.join(needs) + '\n    []\n\n-- what it leaves, in a state or in any\nabbrev pub results : List (List Outcome)\nresults =\n' + '\n'.join(results) + '\n    []\n'


def main():
    g = Grammar(open(os.path.join(HERE, 'sql.g')).read())
    g.work_out()
    text = open(os.path.join(CRATES, 'hs_builder_laws', 'proofs', 'Effects.antt')).read()
    kinds = re.findall(r'^abbrev pub (\w+) : ℕ$', text, re.M)
    made = effects_file(g, Typing(g, effects_of_marks(text)), kinds)
    path = os.path.join(CRATES, 'hs_parser', 'proofs', 'RuleEffects.antt')
    if os.path.exists(path) and laid_out(open(path).read()) == laid_out(made):
        return 0
    if '--check' in sys.argv:
        print('hs_parser/proofs/RuleEffects.antt is not what the grammar makes')
        return 1
    open(path, 'w').write(made)
    return 0


if __name__ == '__main__':
    sys.exit(main())
