#!/usr/bin/env python3
"""Makes the parser's table from `sql.g`.

    python3 make_table.py            writes the files below crates/hs_syntax and crates/hs_parser, and the small tables of the tests of
                                     crates/hs_grammar, each of the grammar at its file's head
    python3 make_table.py --check    says whether they are what it would write, and ends with 1 if not

The form of the grammar is told at the top of `sql.g`. The table has for each rule and each column the production with
which the rule goes on. A column is a class of tokens, or a view: a class that stands before a certain other one. Two
productions that want one cell are a conflict, and then nothing is written. `rt fmt` lays the files out afterwards, which
`--check` doesn't mind.
"""
import os
import re
import sys

from numbering import PATH, Numbers

HERE = os.path.dirname(os.path.abspath(__file__))
CRATES = os.environ.get('OUT') or os.path.join(HERE, '..', 'crates')
COLUMNS = 256
VIEWED = COLUMNS - 2  # the column of the first view; the others stand before it
STATES = 3
MARK_KINDS = {'ChangeMark', 'DefinitionMark', 'ExpressionMark', 'FunctionMark', 'LeafMark', 'QueryMark', 'SessionMark'}
SYMBOL_NAMES = {
    '(': 'LeftParenthesis', ')': 'RightParenthesis', ',': 'Comma', '.': 'Point', '*': 'Star', '+': 'Plus', '-': 'Minus',
    '/': 'Slash', '=': 'Equal', '<>': 'Unequal', '!=': 'NotEqual', '<': 'Less', '<=': 'LessOrEqual', '>': 'Greater',
    '>=': 'GreaterOrEqual', '||': 'Concatenate', ';': 'Semicolon',
}


class Grammar:
    """A grammar with the numbers that are kept, or, where it is a small one for a test, in the order of its text."""

    def __init__(self, text, is_small=False):
        self.classes = ['END']
        self.views = []
        self.named = {}
        self.rules = {}
        self.read(text)
        self.numbers = Numbers(None) if is_small else Numbers()
        self.number = {name: k for k, name in enumerate(self.classes)}
        self.rules = {name: self.rules[name] for name in self.numbers.ordered('rules of the table', self.rules)}
        self.rule_number = {name: k for k, name in enumerate(self.rules)}
        written = {f'{rule} : {" ".join(words)}'.strip(): (rule, words) for rule, alternatives in self.rules.items() for words in alternatives}
        used = [word for _, words in written.values() for word in words if word.startswith('#') and word not in self.number]
        for word in used:
            assert is_small or word in self.named, word
        self.marks = self.numbers.ordered('steps', dict.fromkeys(used))
        self.texts = [None] + self.numbers.ordered('productions of the table', written)
        self.productions = [(None, [])] + [(written[text][0], [self.symbol(word) for word in written[text][1]]) for text in self.texts[1:]]
        self.seen = {}
        for k, (name, before) in enumerate(self.views):
            self.seen[self.number[name]] = (self.number[before], len(self.classes) + k if is_small else VIEWED - k)
        self.column_count = len(self.classes) + len(self.views)
        assert self.column_count < COLUMNS
        assert len(self.rules) <= 256 and len(self.marks) <= 256

    def read(self, text):
        part = 'rules'
        rule = None
        for line in text.split('\n'):
            line = line.strip()
            if line == '' or line.startswith('#') and part != 'marks':
                continue
            words = line.split()
            if words in (['classes'], ['views'], ['marks']):
                part = words[0]
            elif words == ['end']:
                part = 'rules'
            elif part == 'classes':
                self.classes += words
            elif part == 'views':
                self.views.append(tuple(words))
            elif part == 'marks':
                self.named[words[0]] = words[1]
            else:
                if len(words) > 1 and words[1] == ':':
                    rule = words[0]
                    assert rule not in self.rules, rule
                    assert rule not in self.classes, rule
                    self.rules[rule] = [[]]
                    words = words[2:]
                for word in words:
                    if word == '|':
                        self.rules[rule].append([])
                    else:
                        self.rules[rule][-1].append(word)

    def ends_of(self, text):
        first, _, last = text.partition('..')
        return self.number[first], self.number[last or (first if '..' not in text else self.classes[-1])]

    def symbol(self, word):
        if word in self.number:
            return 'Take', self.number[word]
        if word in self.rules:
            return 'Rule', self.rule_number[word]
        if word.startswith('#'):
            assert word in self.marks, word
            return 'Mark', self.marks.index(word)
        if word.startswith('@'):
            return 'Keep', int(word[1:])
        if word.startswith('?'):
            first = self.rule_number[word[1:]]
            if [self.rule_number.get(f'{word[1:-1]}{k}') for k in range(STATES)] != [first + k for k in range(STATES)]:
                raise SystemExit(f'{word[1:]} and the two rules of the other states must stand one behind another in numbers.txt')
            return 'Turn', first
        if word.startswith('<=') and word.endswith('>'):
            return ('TakeUpTo', *self.ends_of(word[2:-1]))
        if word.startswith('<') and word.endswith('>'):
            return ('TakeKeep', *self.ends_of(word[1:-1]))
        if word.startswith('!'):
            return ('Refuse', *self.ends_of(word[1:]))
        raise SystemExit(f'what is {word}?')

    def reached(self, symbol):
        """The rules with which a symbol may go on."""
        if symbol[0] == 'Rule':
            return [symbol[1]]
        if symbol[0] == 'Turn':
            return [symbol[1] + k for k in range(STATES)]
        return []

    def leading(self, begins, end, symbols):
        """The columns in which something of the symbols may begin, `end` being those behind them."""
        for k, symbol in enumerate(symbols):
            kind = symbol[0]
            if kind == 'Take':
                if symbol[1] not in self.seen:
                    return {symbol[1]}
                before, column = self.seen[symbol[1]]
                behind = self.leading(begins, end, symbols[k + 1:])
                return ({column} if before in behind else set()) | ({symbol[1]} if behind - {before} else set())
            if kind in ('TakeKeep', 'TakeUpTo'):
                views = {column for c, (_, column) in self.seen.items() if symbol[1] <= c <= symbol[2]}
                return set(range(symbol[1], symbol[2] + 1)) | views
            if kind == 'Refuse':
                assert all(s[0] == 'Mark' for s in symbols[:k]) and k == 0, 'a word that is not offered stands first'
                return set(range(symbol[1], symbol[2] + 1))
            if kind in ('Rule', 'Turn'):
                return set().union(*(begins[n] for n in self.reached(symbol)))
        return set(end)

    def work_out(self):
        count = len(self.rules)
        begins = [set() for _ in range(count)]
        behind = [set() for _ in range(count)]
        behind[0].add(0)
        changed = True
        while changed:
            changed = False
            for rule, symbols in self.productions[1:]:
                n = self.rule_number[rule]
                more = self.leading(begins, behind[n], symbols)
                if not more <= begins[n]:
                    begins[n] |= more
                    changed = True
                for k, symbol in enumerate(symbols):
                    for m in self.reached(symbol):
                        more = self.leading(begins, behind[n], symbols[k + 1:])
                        if not more <= behind[m]:
                            behind[m] |= more
                            changed = True
        self.behind = behind
        self.rows = [[0] * COLUMNS for _ in range(count)]
        self.conflicts = []
        for p, (rule, symbols) in enumerate(self.productions):
            if p == 0:
                continue
            n = self.rule_number[rule]
            for column in sorted(self.leading(begins, behind[n], symbols)):
                if self.rows[n][column] != 0:
                    self.conflicts.append((rule, column, self.rows[n][column], p))
                else:
                    self.rows[n][column] = p
        self.heights()
        self.solids()
        self.weights()

    def heights(self):
        """A production by which each rule ends, none being refused, and how deep it goes."""
        self.short = {}
        self.height = {}
        changed = True
        while changed:
            changed = False
            for p, (rule, symbols) in enumerate(self.productions):
                if p == 0 or self.rule_number[rule] in self.height:
                    continue
                reached = [m for symbol in symbols for m in self.reached(symbol)]
                if any(symbol[0] == 'Refuse' for symbol in symbols) or any(m not in self.height for m in reached):
                    continue
                n = self.rule_number[rule]
                self.short[n] = p
                self.height[n] = 1 + max([self.height[m] for m in reached], default=-1)
                changed = True
        for name, n in self.rule_number.items():
            if n not in self.height:
                raise SystemExit(f'{name} never ends')

    def is_solid(self, symbols):
        for symbol in symbols:
            if symbol[0] in ('Take', 'TakeKeep', 'TakeUpTo', 'Refuse'):
                return True
            if symbol[0] == 'Rule' and self.solid[symbol[1]]:
                return True
        return False

    def solids(self):
        """Which rules take a token at least."""
        self.solid = [1] * len(self.rules)
        changed = True
        while changed:
            changed = False
            for rule, symbols in self.productions[1:]:
                n = self.rule_number[rule]
                if self.solid[n] and not self.is_solid(symbols):
                    self.solid[n] = 0
                    changed = True

    def work(self, symbols):
        total = 0
        for symbol in symbols:
            if symbol[0] in ('Take', 'TakeKeep', 'TakeUpTo', 'Refuse'):
                return total
            if symbol[0] in ('Mark', 'Keep'):
                total += 1
            elif symbol[0] == 'Rule':
                total += self.weight[symbol[1]]
                if self.solid[symbol[1]]:
                    return total
            else:
                total += sum(self.weight[m] for m in self.reached(symbol))
        return total

    def weights(self):
        """How much work comes at most before a rule takes a token."""
        self.weight = [0] * len(self.rules)
        for _ in range(1000):
            changed = False
            for rule, symbols in self.productions[1:]:
                n = self.rule_number[rule]
                if self.weight[n] <= self.work(symbols):
                    self.weight[n] = self.work(symbols) + 1
                    changed = True
            if not changed:
                return
        raise SystemExit('a rule goes on without taking a token')

    def class_name(self, name):
        if name in SYMBOL_NAMES:
            return SYMBOL_NAMES[name]
        return ''.join(word.capitalize() for word in name.split('_'))


def rust_symbol(symbol):
    return f'Symbol::{symbol[0]}({", ".join(str(x) for x in symbol[1:])})'


def antt_list(items):
    return ' ∷ '.join(str(x) for x in items) + ' ∷ []'


def table_file(g, lines=None):
    out = ['// The table of the grammar, made by grammar/make_table.py. It is never written by hand.']
    out.append('use hs_grammar::{CLASSES, Production, Symbol, View};')
    if lines is not None:
        out = ['// The table of a small grammar, made by grammar/make_table.py from these lines:', '//'] + ['//     ' + line for line in lines]
        out.append('use crate::{CLASSES, Production, Symbol, View};')
    out.append('')
    out.append('/// By rule and column, the production with which the rule goes on, 0 for none.')
    out.append(f'pub const ROWS: [[u16; CLASSES]; {len(g.rules)}] = [')
    for row in g.rows:
        out.append('    [' + ', '.join(str(p) for p in row) + '],')
    out.append('];')
    out.append('')
    symbols = []
    out.append('/// Production 0 counts for nothing.')
    out.append(f'pub const PRODUCTIONS: [Production; {len(g.productions)}] = [')
    for rule, right in g.productions:
        start = len(symbols)
        symbols += reversed(right)
        number = 255 if rule is None else g.rule_number[rule]
        out.append(f'    Production {{ rule: {number}, from: {start}, to: {len(symbols)} }},')
    out.append('];')
    out.append('')
    out.append('/// The right sides of the productions, each from its end to its beginning.')
    out.append(f'pub const SYMBOLS: [Symbol; {len(symbols)}] = [')
    out += [f'    {rust_symbol(symbol)},' for symbol in symbols]
    out.append('];')
    out.append('')
    if lines is None:
        out.append('/// A sign before INTERVAL is looked up in a column of its own.')
    out.append(f'pub const VIEWS: [View; {len(g.views)}] = [')
    for c, (before, column) in sorted(g.seen.items()):
        out.append(f'    View {{ class: {c}, before: {before}, seen: {column} }},')
    out.append('];')
    return '\n'.join(out) + '\n'


def rows_file(g, of=''):
    out = [f'-- What the test of the table{of} needs beside its rows, made by grammar/make_table.py.']
    out.append('use Rattle.std.specs.Prelude.{ℕ, List, [], ◌∷◌}')
    out.append('use Rattle.hs_grammar.specs.Check.{Table}')
    out.append('')
    out.append('-- by rule, the columns that may follow it')
    out.append('abbrev pub behind : List (List ℕ)')
    out.append('behind =')
    for columns in g.behind:
        last = max(columns, default=-1)
        out.append('    (' + antt_list([1 if c in columns else 0 for c in range(last + 1)]) + ') ∷' if columns else '    [] ∷')
    out.append('    []')
    count = len(g.rules)
    lists = {
        'short': ('by rule, a production by which it ends', [g.short[n] for n in range(count)]),
        'height': ('how deep that goes', [g.height[n] for n in range(count)]),
        'weight': ('how much work comes at most before a token is taken', g.weight),
        'solid': ('1 where it takes a token at least', g.solid),
    }
    for name, (comment, values) in lists.items():
        out += ['', f'-- {comment}', f'abbrev pub {name} : List ℕ', f'{name} = {antt_list(values)}']
    out += ['', 'abbrev pub table_of : List (List ℕ) → Table']
    out.append('table_of rows = record { choice = rows; behind = behind; short = short; height = height; weight = weight; solid = solid }')
    return '\n'.join(out) + '\n'


def small_tables():
    """The tables of the tests of hs_grammar."""
    files = {}
    for name in ('expression', 'settings'):
        path = f'hs_grammar/src/tests/{name}.rt'
        lines = [line[7:].rstrip() for line in open(os.path.join(CRATES, path)) if line.startswith('//     ')]
        g = Grammar('\n'.join(lines), is_small=True)
        g.work_out()
        assert g.conflicts == [], (name, g.conflicts)
        files[path] = table_file(g, lines)
        files[f'hs_grammar/proofs/{name.capitalize()}Table.antt'] = rows_file(g, f' in src/tests/{name}.rt')
    return files


def mark_file(g):
    out = ['// The steps that build a tree, by their numbers, made by grammar/make_table.py.']
    types = sorted(set(re.findall(r'\b([A-Z][A-Za-z]*)::', ' '.join(g.named[mark] for mark in g.marks))) - MARK_KINDS)
    out.append(f'use hs_ast::{{{", ".join(types)}}};')
    out.append('use hs_builder::{ChangeMark, DefinitionMark, ExpressionMark, FunctionMark, LeafMark, Mark, QueryMark, SessionMark};')
    out.append('')
    out.append(f'pub const MARKS: [Mark; {len(g.marks)}] = [')
    out += [f'    Mark::{g.named[mark]},' for mark in g.marks]
    out.append('];')
    return '\n'.join(out) + '\n'


def starts_of(words):
    """By letter, as its number from 0 to 32, how many of the words in alphabetical order stand before its first one."""
    return [sum(ord(word[0]) % 32 < letter for word in words) for letter in range(33)]


def words_file(g):
    words = [c for c in g.classes[1:] if c.isupper() or re.fullmatch(r'[A-Z_]+', c)]
    out = ['// The words and symbols of the grammar and the classes of tokens, made by grammar/make_table.py.', '']
    names = [(c, g.number[c]) for c in g.classes[1:] if not re.fullmatch(r'[A-Z_]+', c) and c not in SYMBOL_NAMES]
    plain = {name: number for name, number in names if not name.isdigit()}
    out.append('/// A whole number from 0 to 38 is of this class and as many behind it.')
    out.append(f'pub const SMALL: u8 = {g.number["0"]};')
    out.append('/// A whole number from 39 to 4,000.')
    out.append(f'pub const MIDDLE: u8 = {g.number["4000"]};')
    out.append('/// No class: no rule takes it.')
    out.append(f'pub const NOTHING: u8 = {COLUMNS - 1};')
    for name, comment in [('above', 'A whole number above 4,000.'), ('fraction', 'A number with a point.'),
                          ('digit_text', 'A text of 1 to 18 digits.'), ('other_text', 'Any other text.'),
                          ('identifier', 'A quoted name, or a word that is none of KEYWORDS.')]:
        out.append(f'/// {comment}')
        out.append(f'pub const {name.upper()}: u8 = {plain[name]};')
    out.append('')
    symbols = [c for c in g.classes if c in SYMBOL_NAMES]
    out.append('/// The symbols and their classes.')
    out.append(f'pub const SIGNS: [(&[u8], u8); {len(symbols)}] = [')
    out += [f'    (b"{c}", {g.number[c]}),' for c in symbols]
    out.append('];')
    out.append('')
    out.append('/// The words of the grammar, in alphabetical order, and their classes.')
    out.append(f'pub const KEYWORDS: [(&[u8], u8); {len(words)}] = [')
    out += [f'    (b"{c}", {g.number[c]}),' for c in sorted(words)]
    out.append('];')
    out.append('')
    may_be = [symbols[0][1] for rule, symbols in g.productions if rule == 'name']
    out.append('/// The classes of the words that may be names, and IDENTIFIER.')
    out.append(f'pub const NAMES: [u8; {len(may_be)}] = [' + ', '.join(str(n) for n in may_be) + '];')
    out.append('')
    out.append('/// By letter, A being 1, the place in KEYWORDS of the first word with it; and behind the last one the end.')
    out.append('pub const STARTS: [u8; 33] = [' + ', '.join(str(n) for n in starts_of(sorted(words))) + '];')
    return '\n'.join(out) + '\n'


def laid_out(text):
    """The words and signs of a text, which its layout doesn't change, but for a comma in front of a bracket that closes."""
    words = re.findall(r'\w+|[^\w\s]', text)
    return [word for word, behind in zip(words, words[1:] + ['']) if word != ',' or behind not in (')', ']', '}')]


def main():
    g = Grammar(open(os.path.join(HERE, 'sql.g')).read())
    g.work_out()
    names = list(g.rules)
    for rule, column, first, second in g.conflicts:
        where = g.classes[column] if column < len(g.classes) else 'view of ' + ' '.join(g.views[VIEWED - column])
        print(f'conflict in {rule} at {where}: productions {first} and {second}')
    print(f'{len(names)} rules, {len(g.productions) - 1} productions, {sum(len(r) for _, r in g.productions)} symbols, '
          f'{g.column_count} columns, {len(g.marks)} marks, greatest height {max(g.height.values())}, greatest weight {max(g.weight)}')
    if g.conflicts:
        return 1
    files = {'hs_syntax/src/table.rt': table_file(g), 'hs_syntax/src/words.rt': words_file(g), 'hs_syntax/specs/Rows.antt': rows_file(g),
             'hs_parser/src/marks.rt': mark_file(g), PATH: g.numbers.text(), **small_tables()}
    stale = []
    for name, text in files.items():
        path = os.path.join(CRATES, name)
        if os.path.exists(path) and laid_out(open(path).read()) == laid_out(text):
            continue
        if '--check' in sys.argv:
            stale.append(name)
        else:
            os.makedirs(os.path.dirname(path), exist_ok=True)
            open(path, 'w').write(text)
    for name in stale:
        print(f'{os.path.relpath(os.path.join(CRATES, name))} is not what the grammar makes')
    return 1 if stale else 0


if __name__ == "__main__":
    sys.exit(main())
