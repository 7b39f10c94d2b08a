#!/usr/bin/env python3
"""Makes the literal grammar of `literal.g` and the proof that the table's grammar says the same.

    python3 make_literal.py          writes the files below crates/hs_syntax and crates/hs_parser
    python3 make_literal.py --check  says whether they are what it would write, and ends with 1 if not
"""
import os
import re
import sys

from make_table import CRATES, Grammar, HERE, MARK_KINDS, SYMBOL_NAMES, laid_out
from numbering import PATH

ALONE = 256  # the number of the first rule that the table hasn't
RESERVED = {'where', 'as', 'in', 'data', 'use', 'open', 'do', 'let', 'mod'}
MARK_ALIASES = {'LeafMark': 'leaf', 'ExpressionMark': 'e', 'FunctionMark': 'f', 'QueryMark': 'q', 'ChangeMark': 'c',
                'DefinitionMark': 'd', 'SessionMark': 's'}
AST = os.path.join(HERE, '..', 'crates', 'hs_ast', 'src')


class Literal:
    """Rules by name, each with its productions, in the order of the text; a part is a name or a tuple."""

    def __init__(self, g, text):
        self.g = g
        self.order = []
        self.blocks = []
        lines = text.split('\n')
        rule = None
        for line in lines:
            line = line.strip()
            if line.startswith('##'):
                self.blocks.append(('line', line[3:]))
                continue
            if line.startswith('#-'):
                self.blocks.append(('remark', line[3:]))
                continue
            if line == '' or line.startswith('#'):
                continue
            words = line.split()
            if len(words) > 1 and words[1] == ':':
                rule = words[0]
                self.order.append(rule)
                self.blocks.append(('rule', rule, [[]]))
                words = words[2:]
            alternatives = self.blocks[-1][2]
            for word in words:
                if word == '|':
                    alternatives.append([])
                else:
                    alternatives[-1].append(word)
        self.number = dict(g.rule_number)
        alone = g.numbers.ordered('rules of the literal grammar alone', [name for name in self.order if name not in g.rules])
        self.number.update({name: ALONE + k for k, name in enumerate(alone)})
        self.productions = []
        self.refusals = []
        self.of = {}
        for block in self.blocks:
            if block[0] == 'rule':
                for right in block[2]:
                    if right and right[0].startswith('!') and right[0] not in g.number:
                        assert len(right) == 1
                        self.refusals.append((block[1], *g.ends_of(right[0][1:])))
                        continue
                    parts = tuple(self.part(word) for word in right)
                    self.of.setdefault(block[1], []).append(len(self.productions))
                    self.productions.append((block[1], parts))

    def part(self, word):
        g = self.g
        if word == '<p,s>':
            return ('scaled',)
        if word.startswith('<') and word.endswith('>') and '..' in word:
            low, high = g.ends_of(word[1:-1])
            return ('span', low, high)
        if word in g.number:
            return ('word', g.number[word])
        if word in g.named:
            if word not in g.marks:
                raise SystemExit(f'no production of the table has {word}')
            return ('mark', g.marks.index(word))
        assert word in self.order, word
        return ('rule', word)


def name_of(word):
    if word == ';':
        return 'semicolon_mark'
    if word in SYMBOL_NAMES:
        return re.sub(r'(?<!^)([A-Z])', r'_\1', SYMBOL_NAMES[word]).lower()
    if word.isdigit():
        return 'number_' + word
    return word


def quoted(name):
    return name + '_part' if name in RESERVED else name


def mark_name(word):
    return word[1:] + '_mark' if word[1:] in RESERVED | {'true', 'false'} else word[1:]


def antt_part(part, g):
    if part[0] == 'mark':
        return f'mark m.{mark_name(g.marks[part[1]])}'
    if part[0] == 'word':
        return f'word {quoted(name_of(g.classes[part[1]]))}'
    if part[0] == 'span':
        return f'span {name_of(g.classes[part[1]])} {name_of(g.classes[part[2]])}'
    if part[0] == 'rule':
        return f'rule {quoted(part[1])}'
    return 'scaled'


def antt_parts(parts, g):
    return ' ∷ '.join([antt_part(p, g) for p in parts] + ['[]'])


def names_file(g, literal):
    out = ['-- The classes of tokens and the rules, by their names, made by grammar/make_literal.py.', 'use Rattle.std.specs.Prelude.{ℕ}', '']
    for k, name in enumerate(g.classes):
        if k:
            out.append(f'abbrev pub {quoted(name_of(name))} : ℕ\n{quoted(name_of(name))} = {k}')
    for name in literal.order:
        out.append(f'abbrev pub {quoted(name)} : ℕ\n{quoted(name)} = {literal.number[name]}')
    out.append(f'-- the rule of the table for a scale\nabbrev pub scale : ℕ\nscale = {g.rule_number["scale"]}')
    return '\n'.join(out) + '\n'


def words_file(g, literal):
    words = sorted(c for c in g.classes[1:] if re.fullmatch(r'[A-Z_]+', c))
    signs = [c for c in g.classes[1:] if c in SYMBOL_NAMES]
    may_be = [g.classes[parts[0][1]] for parts in (literal.productions[p][1] for p in literal.of['name'])]
    names = [quoted(name_of(c)) for c in words + signs] + ['identifier']
    out = ['-- The words and the symbols as they are spelled, words in capitals, with their classes, made by grammar/make_literal.py.',
           'use Rattle.std.specs.Prelude.{ℕ, List, [], ◌∷◌, codes}',
           'use Rattle.hs_syntax.specs.Names.{' + ', '.join(names) + '}']
    for name, spelled in (('keywords', words), ('signs', signs)):
        out += ['', f'abbrev pub {name} : List (List ℕ × ℕ)', f'{name} =']
        out += [f'    (codes "{c}", {quoted(name_of(c))}) ∷' for c in spelled] + ['    []']
    out += ['', '-- the classes of the words that may be names, and that of the words that are none of the grammar\'s', 'unfoldable pub name_classes : List ℕ',
            'name_classes = ' + ' ∷ '.join([quoted(name_of(c)) for c in may_be] + ['[]'])]
    return '\n'.join(out) + '\n'


def ast_module(name):
    """The file of hs_ast that has this enum."""
    for file in sorted(os.listdir(AST)):
        if file.endswith('.rt') and re.search(rf'enum {name}\b', open(os.path.join(AST, file)).read()):
            return file[:-3]
    raise SystemExit(f'where is {name}?')


def step_of(text):
    """A step as the code writes it, as a term."""
    name, _, inner = text.partition('(')
    kind, _, variant = name.rpartition('::')
    head = {'': '', **MARK_ALIASES}.get(kind, kind)
    head = f'{head}.{variant}' if head else variant if variant in ('true', 'false') else f'mark.{variant}'
    inside = [step_of(x) for x in re.findall(r'[^,()]+(?:\([^()]*(?:\([^()]*\))?[^()]*\))?', inner[:-1])] if inner else []
    return ' '.join([head] + [f'({x})' if ' ' in x else x for x in inside])


def mark_names_file(g):
    out = ['-- The names of the steps that build trees, as their numbers, made by grammar/make_literal.py.', 'use Rattle.std.specs.Prelude.{ℕ}', '']
    out += [f'abbrev pub {mark_name(word)} : ℕ\n{mark_name(word)} = {k}' for k, word in enumerate(g.marks)]
    return '\n'.join(out) + '\n'


def marks_file(g):
    types = sorted(set(re.findall(r'\b([A-Z][A-Za-z]*)::', ' '.join(g.named[word] for word in g.marks))) - MARK_KINDS)
    out = ['-- The steps that build trees, by their numbers, made by grammar/make_literal.py.',
           'use Rattle.std.specs.Prelude.{true, false, List, [], ◌∷◌}']
    out += [f'use Rattle.hs_ast.specs.declared.{ast_module(name)}.{name}.TheVariants as {name}' for name in types]
    out += ['use Rattle.hs_builder.specs.declared.mark.Mark.{Mark}', 'use Rattle.hs_builder.specs.declared.mark.Mark.TheVariants as mark']
    out += [f'use Rattle.hs_builder.specs.declared.mark.{kind}.TheVariants as {alias}' for kind, alias in MARK_ALIASES.items()] + ['']
    out += ['abbrev pub steps : List Mark', 'steps =']
    out += [f'    {step_of(g.named[word].strip())} ∷  -- {mark_name(word)}' for word in g.marks] + ['    []']
    return '\n'.join(out) + '\n'


def used_names(g, literal):
    used = []
    for name, first, last in literal.refusals:
        for x in (quoted(name), quoted(name_of(g.classes[first])), quoted(name_of(g.classes[last]))):
            used += [x] if x not in used else []
    for name, parts in literal.productions:
        for p in [('rule', name)] + list(parts):
            found = []
            if p[0] == 'word':
                found = [quoted(name_of(g.classes[p[1]]))]
            elif p[0] == 'span':
                found = [name_of(g.classes[p[1]]), name_of(g.classes[p[2]])]
            elif p[0] == 'rule':
                found = [quoted(p[1])]
            elif p[0] == 'scaled':
                found = ['comma', 'number_0', 'number_1', 'number_38']
            else:
                found = []
            used += [x for x in found if x not in used]
    return used


def lines_file(literal):
    out = ['# The grammar of the statements by tokens alone, made by make_literal.py of the lines beside the rules of `literal.g`, whose',
           '# first lines say how to read it. A word in capitals is that word, and other names are rules or classes of tokens.']
    return '\n'.join(out + [block[1] for block in literal.blocks if block[0] == 'line']) + '\n'


def literal_file(g, literal):
    out = ['-- The grammar of the statements as one reads it, with the steps that build their trees, made by grammar/make_literal.py from',
           '-- grammar/literal.g. In the lines above the rules, which say the same by tokens alone, `[ ]` may be left out, `{ }` may be',
           '-- repeated or left out, a symbol stands in quotes, and w(a..b) is a whole number from a to b; what is in brackets has rules of',
           '-- its own, behind the rule that it stands in.',
           'use Rattle.std.specs.Prelude.{◌≡◌, ℕ, ◌<◌, ◌≤◌, List, [], ◌∷◌, ◌++◌, length, slice_index_or}',
           'use Rattle.hs_grammar.specs.declared.types.Item.{Item}',
           'use Rattle.hs_grammar.specs.declared.types.Item.TheVariants as item',
           'use Rattle.hs_grammar.specs.Grammar.{Extent, whole, refused, tokens_of}',
           'use Rattle.hs_syntax.specs.Marks as m',
           'use Rattle.hs_syntax.specs.Names.{' + ', '.join(used_names(g, literal)) + '}', '',
           'pub data Part : Type 0 where',
           '  word : ℕ → Part        -- a token of this class',
           '  span : ℕ → ℕ → Part    -- a token of a class from the first to the second',
           '  scaled : Part          -- a precision, a comma, and a scale that is not above the precision, the two read as numbers',
           '  mark : ℕ → Part        -- no token: this step builds the tree on',
           '  rule : ℕ → Part        -- what this rule writes', '',
           'pub record Production : Type 0 where', '  pub from : ℕ', '  pub parts : List Part', '',
           'abbrev pub to : ℕ → List Part → Production', 'to n s = record { from = n; parts = s }', '',
           'abbrev pub productions : List Production', 'productions =']
    for block in literal.blocks:
        if block[0] != 'rule':
            out.append('    -- ' + block[1])
        else:
            for p in literal.of[block[1]]:
                out.append(f'    to {quoted(block[1])} ({antt_parts(literal.productions[p][1], g)}) ∷')
    out += ['    []', '',
            'abbrev pub production : ℕ → Production', 'production p = slice_index_or productions p (to 0 [])', '',
            '-- a token of a class from the first to the last that stands where this rule does, but is not offered',
            'pub record Refusal : Type 0 where', '  pub of : ℕ', '  pub first : ℕ', '  pub last : ℕ', '',
            'abbrev pub refuse : ℕ → ℕ → ℕ → Refusal', 'refuse n a b = record { of = n; first = a; last = b }', '',
            'abbrev pub refusals : List Refusal', 'refusals =']
    for name, first, last in literal.refusals:
        out.append(f'    refuse {quoted(name)} {quoted(name_of(g.classes[first]))} {quoted(name_of(g.classes[last]))} ∷')
    out += ['    []', '', 'abbrev pub refusal : ℕ → Refusal', 'refusal k = slice_index_or refusals k (refuse 0 1 0)', '',
            '-- what these parts write, tokens and steps, the leftmost first: as a whole, or up to a word that is not offered, that word included',
            'pub data Writes : Extent → List Part → List Item → Type 0 where',
            '  ends : Writes whole [] []',
            '  takes : {e : Extent} {c : ℕ} {s : List Part} {w : List Item} → Writes e s w → Writes e (word c ∷ s) (item.Token c ∷ w)',
            '  takes_one : {e : Extent} {a b c : ℕ} {s : List Part} {w : List Item} → a ≤ c → c ≤ b → Writes e s w → Writes e (span a b ∷ s) (item.Token c ∷ w)',
            '  takes_scaled : {e : Extent} {p d : ℕ} {s : List Part} {w : List Item} → number_1 ≤ p → p ≤ number_38 → number_0 ≤ d → d ≤ p → Writes e s w',
            '      → Writes e (scaled ∷ s) (item.Token p ∷ item.Mark m.number ∷ item.Token comma ∷ item.Token d ∷ item.Mark m.number ∷ w)',
            '  builds : {e : Extent} {k : ℕ} {s : List Part} {w : List Item} → Writes e s w → Writes e (mark k ∷ s) (item.Mark k ∷ w)',
            '  goes_on : {e : Extent} {n : ℕ} {s : List Part} {w : List Item} (p : ℕ) → p < length productions → (production p).from ≡ n',
            '      → Writes e ((production p).parts ++ s) w → Writes e (rule n ∷ s) w',
            '  refuses : {n c : ℕ} {s : List Part} (k : ℕ) → k < length refusals → (refusal k).of ≡ n → (refusal k).first ≤ c → c ≤ (refusal k).last',
            '      → Writes refused (rule n ∷ s) (item.Token c ∷ [])', '',
            '-- these tokens are a statement, and these items are they with the steps that build its tree between them',
            'abbrev pub IsBuiltBy : List ℕ → List Item → Type 0',
            'IsBuiltBy w items = Writes whole (rule start ∷ []) items × (tokens_of items ≡ w)', '',
            '-- these tokens are a statement',
            'abbrev pub IsStatement : List ℕ → Type 0',
            'IsStatement w = (items : List Item) × IsBuiltBy w items', '',
            '-- these tokens are what a statement has up to a word that is not offered, that word included',
            'abbrev pub IsRefused : List ℕ → Type 0',
            'IsRefused w = (items : List Item) × Writes refused (rule start ∷ []) items × (tokens_of items ≡ w)']
    return '\n'.join(out) + '\n'


# ---- the table's rules that the literal grammar hasn't: what stands in front of them, and how the two are read together.
# A reading is a state, None for any, and parts.

CHAIN = 'product_more sum_more compared and_more or_more'
ORDERED = 'body #query ordered'
INNER = [(0, 'e'), (1, 'body'), (2, ORDERED)]
TUPLES = 'tuples_more #insert_tuples'
ROWS = 'rows_of_values_more #tuples_body behind_rows #insert_query'
OTHERS = {
    'close0': ('', [(None, '#bracket')]), 'close1': ('', [(None, '#body_subquery')]), 'close2': ('', [(None, '#subquery')]),
    'inner': ('', INNER),
    'primary_tail': ('', [(None, CHAIN)]),
    'inner_tail': ('body', INNER[1:]),
    'first0': ('( #at e )', INNER[:1]), 'first1': ('( #at body )', INNER), 'first2': (f'( #at {ORDERED} )', INNER[:1]),
    'operation': ('', [(None, 'intervals ' + CHAIN)]),
    'combination': ('', [(None, 'term_more body_more')]),
    'in_e': ('', [(None, 'e')]),
    'in_list': ('e', [(None, 'in')]),
    'in_first0': ('( #at e )', [(None, 'in')]), 'in_first1': ('( #at body )', [(None, 'in')]),
    'in_first2': (f'( #at {ORDERED} )', [(None, 'in')]),
    'columns': ('( #at', [(None, 'source')]),
    'values_or_query': ('', [(None, 'contents')]), 'values_or_select': ('', [(None, 'contents')]),
    'plain_tuple': ('', [(None, 'tuple ' + TUPLES), (None, 'row_of_values ' + ROWS)]),
    'plain_value': ('', [(None, 'tuple_value values_more ) #add_tuple ' + TUPLES), (None, 'e #tuple_value row_of_values_more ) #add_tuple ' + ROWS)]),
    'plain_more': ('', [(None, 'values_more ) #add_tuple ' + TUPLES), (None, 'row_of_values_more ) #add_tuple ' + ROWS)]),
    'plain_tuples': ('', [(None, TUPLES), (None, ROWS)]),
    'mixed_more': ('', [(None, 'values_more ) #add_tuple ' + TUPLES)]),
    'mixed_tuples': ('', [(None, TUPLES)]), 'mixed_value': ('', [(None, 'tuple_value')]),
    'query_tail': ('', [(None, 'term_more body_more #query ordering limiting')]),
    'elements': ('', [(None, '( element elements_more ) #create_statement')]),
    'scale': ('', []),
}


def by_number(literal):
    """The rules in the order of their numbers, each in a list of its own, and lists of None for numbers that no rule has."""
    names = {n: name for name, n in literal.number.items()}
    table = [n for n in names if n < ALONE]
    gap = [None] * (ALONE - len(table))
    rows = [gap[k:k + 20] for k in range(0, len(gap), 20)]
    if len(rows[-1]) == 1:
        rows[-2:] = [rows[-2] + rows[-1]]
    return [[names[n]] for n in sorted(table)] + rows + [[names[n]] for n in sorted(names) if n >= ALONE]


def firsts_file(literal):
    out = ['-- By rule of the literal grammar, the place of its first production, made by grammar/make_literal.py.',
           'use Rattle.std.specs.Prelude.{ℕ, List, [], ◌∷◌}', '', 'abbrev pub firsts : List ℕ', 'firsts =']
    places = [literal.of.get(name, [0])[0] if name else 0 for names in by_number(literal) for name in names]
    out += ['    ' + ''.join(f'{n} ∷ ' for n in places[k:k + 20]) for k in range(0, len(places), 20)]
    return '\n'.join(out + ['    []']) + '\n'


class Search:
    """Looks for scripts that show that what a production derives is written by the literal grammar."""

    def __init__(self, g, literal):
        self.g = g
        self.literal = literal
        self.front = {}
        self.readings = {}
        for name in g.rules:
            front, readings = OTHERS.get(name, ('', [(None, name)]))
            self.front[name] = self.parts(front)
            self.readings[name] = [(state, self.parts(parts)) for state, parts in readings]
        self.names = list(g.rules)

    def parts(self, text):
        return tuple(self.literal.part(word) for word in text.split())

    def steps(self, parts, wanted):
        """Steps from the parts to those that are wanted, as places and alternatives of the rules there."""
        for depth in range(0, 26):
            found = self.search(list(parts), list(wanted), 0, depth)
            if found is not None:
                return found
        return None

    def search(self, parts, wanted, at, depth):
        while at < len(parts) and at < len(wanted) and parts[at] == wanted[at] and parts[at][0] != 'rule':
            at += 1
        if at == len(parts) and at == len(wanted):
            return []
        if at == len(parts) or len(parts) > len(wanted) + 12:
            return None
        if at < len(wanted) and parts[at] == wanted[at]:
            found = self.search(parts, wanted, at + 1, depth)
            if found is not None:
                return found
        if parts[at][0] != 'rule' or depth == 0:
            return None
        for k, p in enumerate(self.literal.of[parts[at][1]]):
            right = list(self.literal.productions[p][1])
            new = parts[:at] + right + parts[at + 1:]
            if right and right[0][0] != 'rule' and (at >= len(wanted) or right[0] != wanted[at]):
                continue
            found = self.search(new, wanted, at, depth - 1)
            if found is not None:
                return [(at, k)] + found
        return None

    def completed(self, parts, front, at, depth):
        """Steps from the parts to the front and something behind it, and that."""
        while at < len(front) and at < len(parts) and parts[at] == front[at] and parts[at][0] != 'rule':
            at += 1
        if at == len(front):
            return [], parts[at:]
        if at == len(parts):
            return None
        if parts[at] == front[at]:
            found = self.completed(parts, front, at + 1, depth)
            if found is not None:
                return found
        if parts[at][0] != 'rule' or depth == 0:
            return None
        for k, p in enumerate(self.literal.of[parts[at][1]]):
            right = list(self.literal.productions[p][1])
            if right and right[0][0] != 'rule' and right[0] != front[at]:
                continue
            found = self.completed(parts[:at] + right + parts[at + 1:], front, at, depth - 1)
            if found is not None:
                return [(at, k)] + found[0], found[1]
        return None

    def completion(self, rule):
        if not self.readings[rule]:
            return [], []
        front = list(self.front[rule])
        for depth in range(26):
            found = self.completed(list(self.readings[rule][0][1]), front, 0, depth)
            if found is not None:
                return found
        raise SystemExit(f'{rule} is never completed')

    def refused_as(self, rule, symbols):
        """The number of the literal refusal that a refusing production is, else 0."""
        if not symbols or symbols[0][0] != 'Refuse':
            return 0
        target = self.readings[rule][0][1]
        for k, (name, first, last) in enumerate(self.literal.refusals):
            if target == (('rule', name),) and first <= symbols[0][1] and symbols[0][2] <= last:
                return k
        raise SystemExit(f'{rule} refuses what the literal grammar does not')

    def script(self, rule, symbols):
        return self.go(self.readings[rule], symbols, self.front[rule], None)

    def go(self, readings, symbols, parts, state):
        if not symbols:
            for k, (leaves, form) in enumerate(readings):
                if leaves is None or leaves == state:
                    steps = self.steps(form, parts)
                    if steps is not None:
                        return ('done', k, steps)
            return None
        symbol, rest = symbols[0], symbols[1:]
        kind = symbol[0]
        if kind == 'Take':
            return self.go(readings, rest, parts + (('word', symbol[1]),), state)
        if kind == 'TakeKeep':
            return self.go(readings, rest, parts + (('span', symbol[1], symbol[2]),), None)
        if kind == 'Refuse':
            return ('no',)
        if kind == 'Mark':
            return self.go(readings, rest, parts + (('mark', symbol[1]),), state)
        if kind == 'Keep':
            return self.go(readings, rest, parts, symbol[1])
        if kind == 'TakeUpTo' or (kind == 'Turn' and state is None):
            return None
        name = self.names[symbol[1] + (min(state, 2) if kind == 'Turn' else 0)]
        if name == 'scale':
            return None
        front, choices = self.front[name], self.readings[name]
        if front == () and len(choices) == 1 and choices[0][0] is None:
            return self.go(readings, rest, parts + choices[0][1], None)
        for cut in range(len(parts), -1, -1):
            kept = parts[:cut]
            steps = self.steps(kept + front, parts)
            if steps is None:
                continue
            branches = []
            for leaves, form in choices:
                branch = self.go(readings, rest, kept + form, leaves)
                if branch is None:
                    break
                branches.append(branch)
            else:
                tree = ('no',)
                for branch in reversed(branches):
                    tree = ('both', branch, tree)
                return ('at', kept, steps, tree)
        return None


def plain_part(part, literal):
    if part[0] == 'rule':
        return f'rule {literal.number[part[1]]}'
    return ' '.join(str(x) for x in part)


def plain_parts(parts, literal):
    return '(' + ' ∷ '.join([plain_part(p, literal) for p in parts] + ['[]']) + ')'


def antt_steps(steps):
    return '(' + ' ∷ '.join([f'step {at} {k}' for at, k in steps] + ['[]']) + ')'


def antt_script(tree, literal):
    if tree[0] == 'done':
        return f'done {tree[1]} {antt_steps(tree[2])}'
    if tree[0] == 'at':
        return f'at {plain_parts(tree[1], literal)} {antt_steps(tree[2])} ({antt_script(tree[3], literal)})'
    if tree[0] == 'both':
        return f'both ({antt_script(tree[1], literal)}) ({antt_script(tree[2], literal)})'
    return 'no'


def written(g, p):
    """A production of the table as it is written in `sql.g`."""
    return '  ' + g.texts[p]


def scripts_file(g, literal):
    search = Search(g, literal)
    by_hand = []
    out = ['-- How each production of the table is read by the literal grammar, made by grammar/make_literal.py.',
           'use Rattle.std.specs.Prelude.{ℕ, List, [], ◌∷◌}',
           'use Rattle.hs_syntax.specs.Literal.{Part, word, mark, rule}',
           'use Rattle.hs_syntax.proofs.Rewriting.{step}',
           'use Rattle.hs_syntax.proofs.Script.{Choice, any, in_state, Script, done, at, both, no}',
           'use Rattle.hs_syntax.proofs.ScriptTo.{Completion, completion_of}', '',
           '-- by rule, what stands in front of it', 'abbrev pub fronts : List (List Part)', 'fronts =']
    out += [f'    {plain_parts(search.front[name], literal)} ∷' for name in g.rules] + ['    []', '']
    out += ['-- by rule, how that and what it derives may be read', 'abbrev pub readings : List (List Choice)', 'readings =']
    for name in g.rules:
        choices = [('any ' if leaves is None else f'in_state {leaves} ') + plain_parts(form, literal) for leaves, form in search.readings[name]]
        out.append('    (' + ' ∷ '.join(choices + ['[]']) + ') ∷')
    out += ['    []', '', '-- by production, how it is read', 'abbrev pub scripts : List Script', 'scripts =', '    no ∷']
    for p, (name, symbols) in enumerate(g.productions):
        if p == 0:
            continue
        tree = search.script(name, symbols)
        if tree is None:
            by_hand.append((p, name, symbols))
            tree = ('no',)
        out.append('    ' + antt_script(tree, literal) + ' ∷')
    out += ['    []', '', '-- by rule, how its first reading goes on behind what stands in front', 'abbrev pub completions : List Completion', 'completions =']
    for name in g.rules:
        steps, rest = search.completion(name)
        out.append(f'    completion_of {plain_parts(rest, literal)} {antt_steps(steps)} ∷')
    refused = [0] + [search.refused_as(name, symbols) for name, symbols in g.productions[1:]]
    out += ['    []', '', '-- by production that refuses a word, which of the literal ones that is', 'abbrev pub refused_as : List ℕ',
            'refused_as = ' + ' ∷ '.join([str(k) for k in refused] + ['[]'])]
    by_hand.sort(key=lambda x: (x[1], all(s[0] == 'Mark' for s in x[2])))
    if [name for _, name, _ in by_hand] != ['decimal', 'scale', 'scale']:
        raise SystemExit('\n'.join(['only decimal and scale may be without a script, but these are:'] + [written(g, p) for p, _, _ in by_hand]))
    out += ['', '-- the productions that are read by hand', 'abbrev pub by_hand : List ℕ',
            'by_hand = ' + ' ∷ '.join([str(p) for p, _, _ in by_hand] + ['[]'])]
    for name, (p, _, _) in zip(['in_parentheses', 'some_scale', 'no_scale'], by_hand):
        out += [f'abbrev pub {name} : ℕ', f'{name} = {p}']
    alone, with_scale, _ = literal.of['decimal']
    out += ['', '-- the literal productions of a precision alone, and of one with a scale', 'abbrev pub alone : ℕ', f'alone = {alone}',
            'abbrev pub with_scale : ℕ', f'with_scale = {with_scale}']
    return '\n'.join(out) + '\n', by_hand


# ---- what the rules of the literal grammar do to the table's stack, where that is more than to put one rule away: from the
# symbols at the left to one of the ways on, each the symbols that are left then, or a state and nothing left. Steps in front, with a
# `>` behind them, are owed: the literal grammar has written them and the table hasn't yet.

def claims_of():
    claims = {}

    def say(rule, entry, *exits):
        claims.setdefault(rule, []).append((entry, list(exits)))

    for entry, first, tail in [('inner', 'first1', '@0'), ('in', 'in_first1', 'in_list')]:
        subquery = '#body_subquery > ' + first
        levels = ['product_more', 'sum_more', 'compared', 'and_more', 'or_more']
        rest = [' '.join(levels[k:] + [tail]) for k in range(6)]
        for rule, k in [('primary', 0), ('unary', 0), ('product', 1), ('sum', 2), ('negation', 3), ('conjunction', 4), ('e', 5)]:
            say(rule, entry, rest[k], subquery)
        for rule, k in [('intervals', 0), ('product_more', 1), ('sum_more', 2), ('compared', 3), ('and_more', 4), ('or_more', 5)]:
            say(rule, subquery, rest[k], subquery)
    for entry, first, tail in [('inner', 'first1', 'inner_tail'), ('in', 'in_first1', '#query ordering limiting ) #in_query')]:
        body = '#bracket_body > ' + first
        say('core', entry, 'term_more body_more ' + tail, body)
        say('term', entry, 'body_more ' + tail, body)
        say('body', entry, tail, body)
        say('term_more', body, 'body_more ' + tail, body)
        say('body_more', body, tail, body)
    say('ordered', '#query > inner_tail', '@2')
    say('ordered', '#bracket_body #query > first1', '@2')
    say('ordered', '#tuples_body #query > plain_tuples', '#insert_query')
    query = '#bracket_body #query > in_first1'
    say('query', 'in', ') #in_query', query)
    say('ordering', query, 'limiting ) #in_query', query)
    say('limiting', query, ') #in_query', query)
    listed = '#body_subquery #first > in_first1'
    say('es', 'in', ') #in_list', listed)
    say('es_more', listed, ') #in_list', listed)
    for entry in ['source', 'values_or_query']:
        say('contents', entry, '')
        say('inserted_query', entry, '#insert_query')
    say('tuples', 'plain_tuple', 'plain_tuples', 'mixed_tuples')
    say('tuple', 'plain_tuple', 'plain_tuples', 'mixed_tuples')
    say('tuple', '( #tuple mixed_value mixed_more', 'mixed_tuples')
    say('tuples_more', 'plain_tuples', 'plain_tuples', 'mixed_tuples')
    say('tuples_more', 'mixed_tuples', 'mixed_tuples')
    say('tuple_value', 'plain_value', 'plain_more', 'mixed_more')
    say('tuple_value', 'mixed_value', '')
    say('values_more', 'plain_more', 'plain_more', 'mixed_more')
    say('values_more', 'mixed_more', 'mixed_more')
    say('rows_of_values', 'plain_tuple', 'plain_tuples')
    say('row_of_values', 'plain_tuple', 'plain_tuples')
    say('rows_of_values_more', 'plain_tuples', 'plain_tuples')
    say('row_of_values_more', 'plain_more', 'plain_more')
    say('behind_rows', '#tuples_body > plain_tuples', '#insert_query')
    say('table_definition', 'name #memory elements', '')
    return claims


# The two spots at which the literal grammar reads some tokens twice, and what they are meant as, as in specs/Meant.antt.
SPOTS = [('#body_subquery ) #bracket', '#bracket_body ) #body_subquery'),
         ('#body_subquery #first ) #in_list', '#bracket_body #query ) #in_query')]


class Runs:
    """Looks for runs that show that the table's grammar derives what a literal production writes, steps included."""

    def __init__(self, g, literal):
        self.g = g
        self.literal = literal
        self.of = {}
        for p, (rule, symbols) in enumerate(g.productions):
            if p:
                self.of.setdefault(g.rule_number[rule], []).append((p, tuple(symbols)))
        self.spots = [tuple(self.symbols(text) for text in spot) for spot in SPOTS]
        self.claims = {}
        for name in literal.order:
            found = []
            if name in g.rules:
                found.append(((), (('Rule', g.rule_number[name]),), [((), (), None)]))
            for entry, exits in claims_of().get(name, []):
                owed, symbols = self.owed(entry)
                found.append((owed, symbols, [self.exit_of(x) for x in exits]))
            self.claims[name] = found

    def symbols(self, text):
        return tuple(self.g.symbol(word) for word in text.split())

    def owed(self, text):
        front, mark, rest = text.rpartition('>')
        return self.symbols(front), self.symbols(rest)

    def exit_of(self, text):
        owed, symbols = self.owed(text)
        if symbols and symbols[0][0] == 'Keep':
            return owed, symbols[1:], symbols[0][1]
        return owed, symbols, None

    def settled(self, owed, stack, state):
        """Where the table has written what it can of what is owed."""
        while stack:
            kind = stack[0][0]
            if kind == 'Keep':
                state = stack[0][1]
                stack = stack[1:]
            elif kind == 'Turn' and state is not None:
                return owed, (('Rule', stack[0][1] + min(state, 2)),) + stack[1:], state
            elif kind in ('Mark', 'Take') and owed and owed[0] == stack[0]:
                owed = owed[1:]
                stack = stack[1:]
            else:
                break
        return owed, stack, state

    def find(self, exits, parts, at):
        for depth in range(0, 12):
            found = self.run(exits, parts, at, depth, depth)
            if found is not None:
                return found
        return None

    def run(self, exits, parts, at, depth, most):
        owed, stack, state = at
        if parts and parts[0][0] in ('word', 'mark'):
            item = ('Take' if parts[0][0] == 'word' else 'Mark', parts[0][1])
            found = self.run(exits, parts[1:], self.settled(owed + (item,), stack, state), most, most)
            return None if found is None else ('take', found)
        if not parts:
            for k, (owes, left, known) in enumerate(exits):
                if (owes, left) == (owed, stack) and (known is None or known == state):
                    return ('finish', k)
        elif parts[0][0] == 'span':
            if not owed and stack and stack[0][0] == 'TakeKeep' and stack[0][1] <= parts[0][1] and parts[0][2] <= stack[0][2]:
                found = self.run(exits, parts[1:], self.settled((), stack[1:], None), most, most)
                return None if found is None else ('take', found)
        elif parts[0][0] == 'scaled':
            return None
        else:
            for k, (owes, entry, ways) in enumerate(self.claims[parts[0][1]]):
                if owes != owed or stack[:len(entry)] != entry:
                    continue
                rest = stack[len(entry):]
                branches = []
                for left_owed, left, known in ways:
                    branch = self.run(exits, parts[1:], self.settled(left_owed, left + rest, known), most, most)
                    if branch is None:
                        break
                    branches.append(branch)
                else:
                    tree = ('no',)
                    for branch in reversed(branches):
                        tree = ('both', branch, tree)
                    return ('claimed', k, tree)
        for k, (read, meant) in enumerate(self.spots):
            if owed == read:
                found = self.run(exits, parts, self.settled(meant, stack, state), depth, most)
                if found is not None:
                    return ('turn', k, found)
        if depth == 0 or not stack or stack[0][0] != 'Rule':
            return None
        for p, right in self.of[stack[0][1]]:
            if owed and owed[0][0] == 'Take' and p not in self.g.rows[stack[0][1]]:
                continue
            new = self.settled(owed, right + stack[1:], state)
            if new[1] and (new[1][0][0] == 'Refuse' or new[0] and new[1][0][0] in ('Take', 'Mark', 'TakeKeep') and new[0] not in [r for r, _ in self.spots]):
                continue
            found = self.run(exits, parts, new, depth - 1, most)
            if found is not None:
                return ('by', p, found)
        return None


def refusing(search, at, first, last, depth):
    """The productions by which a refused word of these classes comes first."""
    owed, stack, state = at
    if stack and not owed and stack[0][0] == 'Refuse':
        return ('finish', 0) if stack[0][1] <= first and last <= stack[0][2] else None
    if depth == 0 or not stack or stack[0][0] != 'Rule':
        return None
    for p, right in search.of[stack[0][1]]:
        found = refusing(search, search.settled(owed, right + stack[1:], state), first, last, depth - 1)
        if found is not None:
            return ('by', p, found)
    return None


def antt_symbols(symbols):
    return '(' + ' ∷ '.join([f'S.{x[0]} ' + ' '.join(str(k) for k in x[1:]) for x in symbols] + ['[]']) + ')'


def antt_marks(owed):
    assert all(x[0] == 'Mark' for x in owed)
    return '(' + ' ∷ '.join([str(x[1]) for x in owed] + ['[]']) + ')'


def antt_exit(way):
    owed, left, known = way
    if known is not None:
        assert not owed and not left
        return f'to_state {known}'
    return f'owing {antt_marks(owed)} {antt_symbols(left)}' if owed else f'to_any {antt_symbols(left)}'


def antt_run(tree):
    if tree[0] == 'finish':
        return f'finish {tree[1]}'
    if tree[0] == 'by':
        return f'by {tree[1]} ({antt_run(tree[2])})'
    if tree[0] == 'take':
        return f'take ({antt_run(tree[1])})'
    if tree[0] in ('claimed', 'turn'):
        return f'{tree[0]} {tree[1]} ({antt_run(tree[2])})'
    if tree[0] == 'both':
        return f'both ({antt_run(tree[1])}) ({antt_run(tree[2])})'
    return 'no'


def written_part(part, g):
    if part[0] == 'rule':
        return part[1]
    if part[0] in ('word', 'mark'):
        return (g.classes if part[0] == 'word' else g.marks)[part[1]]
    return '<p,s>' if part[0] == 'scaled' else f'<{g.classes[part[1]]}..{g.classes[part[2]]}>'


def runs_file(g, literal):
    search = Runs(g, literal)
    left_out = []
    out = ['-- How the table derives what each production of the literal grammar writes, made by grammar/make_literal.py.',
           'use Rattle.std.specs.Prelude.{List, [], ◌∷◌}',
           'use Rattle.hs_grammar.specs.declared.types.Symbol.TheVariants as S',
           'use Rattle.hs_syntax.proofs.Runs.{to_any, owing, to_state, Claim, claim, Run, finish, by, take, turn, claimed, both, no}', '',
           '-- by rule, from which steps that are owed and which symbols of the table it leads where', 'abbrev pub claims : List (List Claim)', 'claims =']
    for names in by_number(literal):
        if len(names) != 1:
            out.append('    ' + '[] ∷ ' * len(names))
            continue
        found = search.claims.get(names[0], [])
        lines = []
        for owed, entry, exits in found:
            ways = [f'claim {antt_marks(owed)} {antt_symbols(entry)} (' + ' ∷ '.join([antt_exit(x) for x in exits] + ['[]']) + ')']
            lines += ways
        out.append('    (' + ' ∷ '.join(lines + ['[]']) + ') ∷')
    out += ['    []', '', '-- by production, a run for each claim of its rule', 'abbrev pub all_runs : List (List Run)', 'all_runs =']
    for p, (name, parts) in enumerate(literal.productions):
        trees = []
        for owed, entry, exits in search.claims[name]:
            tree = search.find(exits, parts, search.settled(owed, entry, None))
            if tree is None:
                left_out.append((p, name, parts, entry))
                tree = ('no',)
            trees.append(antt_run(tree))
        out.append('    (' + ' ∷ '.join(trees + ['[]']) + ') ∷')
    out += ['    []', '', '-- by word that is not offered, how each claim of its rule comes to it', 'abbrev pub refusal_runs : List (List Run)',
            'refusal_runs =']
    for name, first, last in literal.refusals:
        trees = [refusing(search, search.settled(owed, entry, None), first, last, 3) for owed, entry, _ in search.claims[name]]
        assert None not in trees, name
        out.append('    (' + ' ∷ '.join([antt_run(tree) for tree in trees] + ['[]']) + ') ∷')
    out += ['    []']
    return '\n'.join(out) + '\n', left_out


def main():
    g = Grammar(open(os.path.join(HERE, 'sql.g')).read())
    g.work_out()
    literal = Literal(g, open(os.path.join(HERE, 'literal.g')).read())
    scripts, by_hand = scripts_file(g, literal)
    files = {'hs_syntax/specs/Names.antt': names_file(g, literal), 'hs_syntax/specs/Words.antt': words_file(g, literal),
             'hs_syntax/specs/Marks.antt': mark_names_file(g), 'hs_syntax/specs/Literal.antt': literal_file(g, literal),
             'hs_syntax/proofs/Firsts.antt': firsts_file(literal), 'hs_syntax/proofs/Scripts.antt': scripts, PATH: g.numbers.text(), 'hs_parser/specs/Marks.antt': marks_file(g)}
    runs, left_out = runs_file(g, literal)
    files['hs_syntax/proofs/LiteralRuns.antt'] = runs
    files[os.path.join(HERE, 'literal.ebnf')] = lines_file(literal)
    print(f'{len(literal.productions)} literal productions; without a script: {", ".join(name for _, name, _ in by_hand)}; '
          f'without a run: {", ".join(x[1] for x in left_out)}')
    if [(name, ('scaled',) in parts) for _, name, parts, _ in left_out] != [('decimal', True)]:
        raise SystemExit('only decimal may be without a run, but these are:\n' + '\n'.join(
            f'  {name} : {" ".join(written_part(part, g) for part in parts)}' for _, name, parts, _ in left_out))

    stale = []
    for name, text in files.items():
        path = os.path.join(CRATES, name)
        if os.path.exists(path) and laid_out(open(path).read()) == laid_out(text):
            continue
        if '--check' in sys.argv:
            stale.append(name)
        else:
            os.makedirs(os.path.dirname(path), exist_ok=True)
            open(path, 'w').write(text)
    for name in stale:
        print(f'{os.path.relpath(os.path.join(CRATES, name))} is not what the grammars make')
    return 1 if stale else 0


if __name__ == '__main__':
    sys.exit(main())
