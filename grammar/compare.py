#!/usr/bin/env python3
"""Compares the table of `sql.g` with `literal.ebnf` on sentences made at random, whole and spoilt.

    python3 compare.py [SENTENCES] [SEED]

For each token list both must accept it, or name the same first token with which no sentence begins. The words that aren't
offered aren't in `literal.ebnf`: where the table refuses one, the literal grammar has to leave off at it.

Before the random ones come sentences for each alternative of `literal.ebnf`. In the end each production of the table, but for those
that refuse a word, has to have been met in a sentence; else the program names them and ends with 1.
"""
import os
import random
import re
import sys

from make_table import Grammar, HERE


class Literal:
    """The literal grammar as plain productions, with a recogniser after Earley."""

    def __init__(self, text, number, count):
        self.number = number
        self.count = count
        self.rules = {}
        self.names = 0
        text = '\n'.join(line.split('#')[0] if line.strip().startswith('#') else line for line in text.split('\n'))
        words = re.findall(r"'[^']*'|w\([^)]*\)|[A-Za-z_]+|[=\[\]{}()|]", text)
        starts = [k for k in range(len(words) - 1) if words[k + 1] == '=' and words[k].islower()]
        self.defined = {words[k] for k in starts}
        for k, start in enumerate(starts):
            end = starts[k + 1] if k + 1 < len(starts) else len(words)
            self.words = words[start + 2:end]
            self.rules[words[start]] = self.alternatives()
            assert self.words == [], self.words
        self.low = {}
        self.lengths()
        self.high = {}
        for _ in range(60):
            for name, alternatives in self.rules.items():
                self.high[name] = max(self.most(a) for a in alternatives)

    def fresh(self, alternatives):
        self.names += 1
        name = f'_{self.names}'
        self.rules[name] = alternatives
        return name

    def alternatives(self):
        found = [[]]
        while self.words and self.words[0] not in (']', '}', ')'):
            word = self.words.pop(0)
            if word == '|':
                found.append([])
            elif word == '(':
                found[-1].append(self.fresh(self.alternatives()))
                self.words.pop(0)
            elif word == '[':
                found[-1].append(self.fresh(self.alternatives() + [[]]))
                self.words.pop(0)
            elif word == '{':
                inner = self.fresh(self.alternatives())
                self.words.pop(0)
                name = self.fresh([])
                self.rules[name] = [[], [name, inner]]
                found[-1].append(name)
            elif word.startswith('w('):
                low, high = word[2:-1].split('..')
                found[-1].append(frozenset(range(self.number[low], self.number[high] + 1)))
            elif word.startswith("'"):
                found[-1].append(frozenset([self.number[word[1:-1]]]))
            elif word in self.defined:
                found[-1].append(word)
            else:
                found[-1].append(frozenset([self.number[word]]))
        return found

    def lengths(self):
        """How many tokens a rule takes at least."""
        changed = True
        while changed:
            changed = False
            for name, alternatives in self.rules.items():
                for parts in alternatives:
                    if all(not isinstance(p, str) or p in self.low for p in parts):
                        length = sum(self.low[p] if isinstance(p, str) else 1 for p in parts)
                        if length < self.low.get(name, 10 ** 9):
                            self.low[name] = length
                            changed = True

    def most(self, parts):
        return min(1000, sum(self.high.get(p, 0) if isinstance(p, str) else 1 for p in parts))

    def sentence(self, name, budget, rng):
        alternatives = self.rules[name]
        fitting = [a for a in alternatives if sum(self.low[p] if isinstance(p, str) else 1 for p in a) <= budget]
        if fitting == []:
            least = min(sum(self.low[p] if isinstance(p, str) else 1 for p in a) for a in alternatives)
            fitting = [a for a in alternatives if sum(self.low[p] if isinstance(p, str) else 1 for p in a) == least]
        wide = [a for a in fitting if self.most(a) >= budget]
        parts = rng.choice(wide if wide and rng.random() < 0.85 else fitting)
        tokens = []
        small = {k: rng.randint(self.low[p], self.high[p]) for k, p in enumerate(parts) if isinstance(p, str) and self.high[p] < 12}
        big = [k for k, p in enumerate(parts) if isinstance(p, str) and k not in small]
        spare = max(0, budget - len(parts) - sum(small.values()) - sum(self.low[parts[k]] for k in big))
        shares = {k: rng.random() ** 2 for k in big}
        total = sum(shares.values()) or 1
        for k, part in enumerate(parts):
            if k in small:
                tokens += self.sentence(part, small[k], rng)
            elif isinstance(part, str):
                tokens += self.sentence(part, self.low[part] + int(spare * shares[k] / total), rng)
            else:
                tokens.append(rng.choice(sorted(part)))
        return tokens

    def ways(self):
        """By rule, an alternative and a place in it at which the rule stands, on the shortest way from `start`."""
        found = {'start': None}
        work = ['start']
        for rule in work:
            for k, parts in enumerate(self.rules[rule]):
                for at, part in enumerate(parts):
                    if isinstance(part, str) and part not in found:
                        found[part] = (rule, k, at)
                        work.append(part)
        return found

    def written(self, parts, spare, rng):
        """Tokens for parts, each with up to so many more than it needs."""
        tokens = []
        for part in parts:
            tokens += self.sentence(part, self.low[part] + rng.randint(0, spare), rng) if isinstance(part, str) else [rng.choice(sorted(part))]
        return tokens

    def sentence_by(self, ways, rule, k, spare, rng):
        """A sentence in which this alternative of the rule is used."""
        tokens = self.written(self.rules[rule][k], spare, rng)
        while ways[rule] is not None:
            rule, k, at = ways[rule]
            parts = self.rules[rule][k]
            tokens = self.written(parts[:at], spare, rng) + tokens + self.written(parts[at + 1:], spare, rng)
        return tokens

    def fault(self, tokens):
        """The first token with which no sentence begins; their number, where they only begin one; None for a sentence."""
        columns = [set()]
        pending = [('start', k, 0, 0) for k in range(len(self.rules['start']))]
        for at in range(len(tokens) + 1):
            here = columns[at]
            waiting = {}
            done = {}
            work = list(pending)
            nexts = []
            finished = False
            seen = set()
            self.waits = getattr(self, 'waits', None)
            if at == 0:
                self.waits = []
            self.waits.append({})
            while work:
                item = work.pop()
                if item in seen:
                    continue
                seen.add(item)
                name, k, dot, origin = item
                parts = self.rules[name][k]
                if dot == len(parts):
                    if name == 'start':
                        finished = True
                    done.setdefault(name, set()).add(origin)
                    for waiter in list(self.waits[origin].get(name, ())):
                        work.append((waiter[0], waiter[1], waiter[2] + 1, waiter[3]))
                    continue
                part = parts[dot]
                if isinstance(part, str):
                    waiters = self.waits[at].setdefault(part, set())
                    waiters.add(item)
                    for j in range(len(self.rules[part])):
                        work.append((part, j, 0, at))
                    if at in done.get(part, ()):
                        work.append((name, k, dot + 1, origin))
                elif at < len(tokens) and tokens[at] in part:
                    nexts.append((name, k, dot + 1, origin))
            if at == len(tokens):
                return None if finished else at
            if nexts == []:
                return at
            columns.append(set())
            pending = nexts
        raise AssertionError


def run(g, tokens, used=None):
    """What the table makes of tokens: their items, or the place of a fault and whether it is a refusal. The productions that are used are put into a set."""
    def column(at):
        if at >= len(tokens):
            return 0
        c = tokens[at]
        if c in g.seen and at + 1 < len(tokens) and tokens[at + 1] == g.seen[c][0]:
            return g.seen[c][1]
        return c

    stack = [('Rule', 0)]
    state = 0
    at = 0
    items = []
    while stack:
        symbol = stack.pop()
        kind = symbol[0]
        if kind == 'Take':
            if at >= len(tokens) or tokens[at] != symbol[1]:
                return None, at, False
            items.append(tokens[at])
            at += 1
        elif kind == 'TakeKeep':
            if at >= len(tokens) or not symbol[1] <= tokens[at] <= symbol[2]:
                return None, at, False
            state = tokens[at]
            items.append(tokens[at])
            at += 1
        elif kind == 'TakeUpTo':
            if at >= len(tokens) or not symbol[1] <= tokens[at] <= min(symbol[2], max(symbol[1], state)):
                return None, at, False
            items.append(tokens[at])
            at += 1
        elif kind == 'Refuse':
            return None, at, at < len(tokens) and symbol[1] <= tokens[at] <= symbol[2]
        elif kind == 'Mark':
            items.append(g.marks[symbol[1]])
        elif kind == 'Keep':
            state = symbol[1]
        else:
            rule = symbol[1] + (min(state, 2) if kind == 'Turn' else 0)
            production = g.rows[rule][column(at)]
            if production == 0:
                return None, at, False
            if used is not None:
                used.add(production)
            stack += reversed(g.productions[production][1])
    if at < len(tokens):
        return None, at, False
    return items, at, False


def exact(g, tokens, used=None):
    """The same, with the exact place where the next token's column hides it."""
    items, at, refused = run(g, tokens, used)
    if items is None and at < len(tokens) and tokens[at] in g.seen:
        before = g.seen[tokens[at]][0]
        other = 0 if at + 1 < len(tokens) and tokens[at + 1] == before else before
        _, again, refused_again = run(g, tokens[:at + 1] + ([other] if other else []))
        if again > at:
            return None, at + 1, False
        return None, at, refused_again or refused
    return items, at, refused


def scale_fault(g, tokens, limit):
    """The first scale that is above its precision, before the limit."""
    for k in range(len(tokens) - 4):
        if tokens[k] in (g.number['DECIMAL'], g.number['NUMERIC']) and tokens[k + 1] == g.number['('] and tokens[k + 3] == g.number[',']:
            p, s = tokens[k + 2], tokens[k + 4]
            if k + 4 < limit and g.number['1'] <= p <= g.number['38'] and g.number['0'] <= s <= g.number['38'] and s > p:
                return k + 4
    return None


# Where parentheses stand in parentheses, it's what comes behind them that tells what they hold.
PLACES = ['VALUES ( {} )', 'VALUES ( 1 IN {} )', 'VALUES ( 1 IN {} AND 1 )', 'INSERT INTO identifier {}', 'INSERT INTO identifier ( identifier ) {}',
          'INSERT INTO identifier VALUES {}', '{}', 'SELECT * FROM {} identifier']
HELD = ['1', 'VALUES ( 1 )', 'SELECT * FROM identifier', 'NOT 1', 'EXISTS ( VALUES ( 1 ) )', '- 1', 'identifier', 'VALUES ( 1 ) ORDER BY 1']
BEHIND = ['', '', '* 1', '+ 1', '= 1', 'AND 1', 'OR 1', '+ INTERVAL digit_text DAY', 'UNION VALUES ( 1 )', 'INTERSECT VALUES ( 1 )', 'EXCEPT VALUES ( 1 )',
          'ORDER BY 1', 'LIMIT 1', ', 1']


LEAST_NESTED, MOST_NESTED = 2000, 40000


def nested(rng):
    """Parentheses in parentheses, which may be a sentence or not."""
    text = rng.choice(HELD)
    for _ in range(rng.randint(1, 4)):
        text = f'( {text} ) {rng.choice(BEHIND)}'
    return rng.choice(PLACES).format(text).split()


class Compared:
    """What was found on the token lists so far."""

    def __init__(self, g, literal):
        self.g = g
        self.literal = literal
        self.lists = self.sentences = self.wrong = 0
        self.met = set()

    def compare(self, tokens):
        want = self.literal.fault(tokens)
        scale = scale_fault(self.g, tokens, len(tokens) if want is None else want + 1)
        if scale is not None and (want is None or scale < want):
            want = scale
        used = set()
        items, at, _ = exact(self.g, tokens, used)
        got = None if items is not None else at
        self.lists += 1
        if items is not None:
            self.sentences += 1
            self.met |= used
        if got != want:
            self.wrong += 1
            if self.wrong <= 10:
                print('want', want, 'got', got, ' '.join(self.g.classes[t] for t in tokens))

    def missing(self):
        """The productions of the table that no sentence met, but for those that refuse a word."""
        return [text for p, text in enumerate(self.g.texts) if p and p not in self.met and ' !' not in text]

    def told(self):
        missing = self.missing()
        print(f'{self.lists} token lists, {self.sentences} sentences, {self.wrong} differ; {len(missing)} productions not met')
        for text in missing:
            print('  ' + text)
        return 1 if self.wrong or missing else 0


def main():
    count = int(sys.argv[1]) if len(sys.argv) > 1 else 2000
    rng = random.Random(int(sys.argv[2]) if len(sys.argv) > 2 else 1)
    g = Grammar(open(os.path.join(HERE, 'sql.g')).read())
    g.work_out()
    literal = Literal(open(os.path.join(HERE, 'literal.ebnf')).read(), g.number, len(g.classes))
    common = [g.number[w] for w in ['(', ')', ',', '+', '-', '*', 'SELECT', 'VALUES', 'FROM', 'UNION', 'ORDER', 'BY', 'LIMIT', 'IN', 'NOT',
              'INTERVAL', 'identifier', '1', 'digit_text', 'AND', 'OR', 'DEFAULT', 'EXISTS', 'INTERSECT', '.', '=', 'AS', 'LEVEL']]
    compared = Compared(g, literal)
    ways = literal.ways()
    for rule, alternatives in literal.rules.items():
        for k in range(len(alternatives)):
            for spare in (0, 4, 8, 24):
                compared.compare(literal.sentence_by(ways, rule, k, spare, rng))
    for _ in range(count):
        if rng.random() < 0.5:
            tokens = literal.sentence('start', rng.randint(1, 90), rng)
        else:
            inside = literal.sentence('e', rng.randint(1, 60), rng)
            tokens = [g.number['VALUES'], g.number['(']] + inside + [g.number[')']]
        for _ in range(rng.choice([0, 0, 1, 1, 2])):
            k = rng.randint(0, len(tokens))
            c = rng.choice(common) if rng.random() < 0.7 else rng.randint(1, len(g.classes) - 1)
            how = rng.random()
            if how < 0.4:
                tokens.insert(k, c)
            elif how < 0.7 and k < len(tokens):
                tokens[k] = c
            elif k < len(tokens):
                del tokens[k:k + 1]
        compared.compare(tokens)
    for k in range(MOST_NESTED):
        if k >= LEAST_NESTED and compared.missing() == []:
            break
        compared.compare([g.number[word] for word in nested(rng)])
    return compared.told()


if __name__ == "__main__":
    sys.exit(main())
