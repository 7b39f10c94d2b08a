#!/usr/bin/env python3
"""Makes the proofs that each production of `literal.g` keeps what its rule means by the definition of how a tree is spelled.

    python3 make_spelling.py          writes files of crates/hs_spelling/proofs
    python3 make_spelling.py --check  says whether they are what it would write, and ends with 1 if not

What the rules mean, and the terms that show it of their productions, stand in `spelling.g`, whose first lines say how to read it.
"""
import os
import re
import sys

from make_literal import antt_parts, Literal, mark_name, quoted
from make_table import CRATES, Grammar, HERE
from numbering import PATH

PROOFS = os.path.join(CRATES, 'hs_spelling', 'proofs')
# the steps that compare depths
DEEPER = set('''minus plus not or and equal not_equal less less_or_equal greater greater_or_equal add subtract concatenate multiply divide
    is_null is_not_null between like like_escape in_list in_query exists body_subquery plus_days plus_months minus_days minus_months
    cast end coalesce nullif abs mod upper lower char_length substring substring_for trim trim_character extract
    count sum avg min max except union_all union intersect query ascending descending'''.split())
A_FILE = 60  # productions in a file
USES = '''
use Rattle.std.proofs.Common.{◌≡◌, ℕ, zero, suc, ◌+◌, ◌<◌, Bool, true, false, List, [], ◌∷◌, ◌++◌, length, Option, Some, None, if◌then◌else◌, slice_index_or, refl, sym, subst, max, arith, ◌⊎◌, inl, inr}
use Rattle.std.specs.Prelude.{nat_eq}
use Rattle.hs_ast.specs.declared.change.Assignment.{Assignment}
use Rattle.hs_ast.specs.declared.change.InsertSource.TheVariants as source
use Rattle.hs_ast.specs.declared.change.LockedTable.{LockedTable}
use Rattle.hs_ast.specs.declared.change.NewValue.{NewValue}
use Rattle.hs_ast.specs.declared.definition.ColumnConstraint.{ColumnConstraint}
use Rattle.hs_ast.specs.declared.definition.ColumnDefinition.{ColumnDefinition}
use Rattle.hs_ast.specs.declared.definition.DataType.{DataType}
use Rattle.hs_ast.specs.declared.definition.DefaultValue.{DefaultValue}
use Rattle.hs_ast.specs.declared.definition.ForeignKey.{ForeignKey}
use Rattle.hs_ast.specs.declared.definition.ReferentialAction.{ReferentialAction}
use Rattle.hs_ast.specs.declared.definition.Storage.{Storage}
use Rattle.hs_ast.specs.declared.definition.TableConstraint.{TableConstraint}
use Rattle.hs_ast.specs.declared.definition.TableElement.{TableElement}
use Rattle.hs_ast.specs.declared.expression.CaseArm.{CaseArm}
use Rattle.hs_ast.specs.declared.expression.DateField.{DateField}
use Rattle.hs_ast.specs.declared.expression.Expression.{Expression}
use Rattle.hs_ast.specs.declared.expression.TrimForm.{TrimForm}
use Rattle.hs_ast.specs.declared.query.FromItem.{FromItem, roll-FromItem}
use Rattle.hs_ast.specs.declared.query.Join.{Join}
use Rattle.hs_ast.specs.declared.query.Limit.{Limit}
use Rattle.hs_ast.specs.declared.query.QueryBody.{QueryBody}
use Rattle.hs_ast.specs.declared.query.SelectItem.{SelectItem}
use Rattle.hs_ast.specs.declared.query.SortKey.{SortKey}
use Rattle.hs_ast.specs.declared.query.TableReference.{TableReference}
use Rattle.hs_ast.specs.declared.query.ValuesRow.{ValuesRow}
use Rattle.hs_ast.specs.declared.session.Modes.{Modes}
use Rattle.hs_ast.specs.declared.statement.Stmt.{Stmt}
use Rattle.hs_ast.specs.declared.word.Identifier.{Identifier}
use Rattle.hs_builder.specs.Changes.{expressions_in, rows_in, row_of}
use Rattle.hs_builder.specs.Expressions.{query_of}
use Rattle.hs_builder.specs.Steps.{over}
use Rattle.hs_builder.specs.declared.part.Built.{Built}
use Rattle.hs_builder.specs.declared.part.BuiltBody.{BuiltBody}
use Rattle.hs_builder.specs.declared.part.BuiltFrom.{BuiltFrom}
use Rattle.hs_builder.specs.declared.part.BuiltList.{BuiltList}
use Rattle.hs_builder.specs.declared.part.BuiltOptional.{BuiltOptional}
use Rattle.hs_builder.specs.declared.part.BuiltQuery.{BuiltQuery}
use Rattle.hs_builder.specs.declared.part.BuiltTable.{BuiltTable}
use Rattle.hs_builder.specs.declared.part.Parts.{Parts}
use Rattle.hs_builder.specs.declared.part.PlacedLiteral.{PlacedLiteral}
use Rattle.hs_builder.specs.declared.part.PlacedNumber.{PlacedNumber}
use Rattle.hs_builder.specs.declared.part.PlacedText.{PlacedText}
use Rattle.hs_lexer.specs.declared.token.Token.{Token}
use Rattle.hs_syntax.specs.Literal.{Part, word, span, scaled, mark, rule, to, Production, productions, production}
use Rattle.hs_syntax.specs.Marks as m
use Rattle.hs_syntax.specs.Names as class
use Rattle.hs_syntax.specs.Words.{name_classes}
use Rattle.hs_spelling.specs.Expressions as X
use Rattle.hs_spelling.specs.Literals as L
use Rattle.hs_spelling.specs.Statements as Z
use Rattle.hs_spelling.specs.Tokens as T
use Rattle.hs_spelling.specs.Tokens.{start_of}
use Rattle.hs_spelling.proofs.Meanings.{with_place, with_name, with_names, with_alias, with_flag, with_number, with_text, with_literal, with_type, with_e, with_list, with_case, with_form, with_field, with_count, with_optional, with_select, with_table, with_from, with_rows, with_body, with_query, with_target, with_tuple, with_tuples, with_update, with_delete, with_locks, with_definition, with_column, with_header, with_key, with_action, with_constraint, with_modes, with_statement, ordered_by, selected, first_at, is_name_class, named_at, name_word, numeral, told, whole_number, digits, precision_of, within, scale_of, IsBuilt, made, loose, Inside, IsBody, made_body, loose_body, loosest_body, in_brackets, made_subquery, Ordering, whole_query, whole_source, IsSet, Grew, grew_on, set_no_tuples, no_tuples, begins_otherwise, more_of_tuples, more_of_values, unordered, by_keys}
use Rattle.hs_spelling.proofs.Promises.{Claim, Promise, Keeps, on_depth}
use Rattle.hs_spelling.proofs.Rules.{means, Kept}
'''


class Meaning:
    """What a rule takes and puts: variables with their types, the stacks, and the facts."""

    def __init__(self, name, text):
        self.name = name
        kind, _, rest = text.partition(' ')
        fields = [field.strip() for field in rest.split(' ; ')]
        self.takes = kind == 'takes'
        if self.takes:
            inputs, self.before, self.given, outputs, self.after, self.fact = fields
        else:
            inputs, self.before, self.given = '-', None, '-'
            outputs, self.after, self.fact = fields
        self.inputs, self.outputs = self.variables(inputs), self.variables(outputs)

    @staticmethod
    def variables(text):
        if text == '-':
            return []
        return [(name, typed.split(' : ')[1]) for typed in text.split(', ') for name in typed.split(' : ')[0].split()]

    @property
    def has_given(self):
        return self.given != '-'

    def clause(self):
        def binders(variables, arrow):
            return ''.join(f'({name} : {kind}) {arrow} ' for name, kind in variables)

        put = ' '.join(f'({name} : {kind})' for name, kind in self.outputs)
        then = f'{put + " " if put else ""}(taken : Token) (r : List Token) → {self.arrow(self.fact)} → K taken r ({self.after})'
        if not self.takes:
            return then
        given = f'(from : List Token) × ({self.given}) × ' if self.has_given else ''
        return f'{binders(self.inputs, "×")}(q : Parts) × (p ≡ {self.before}) × {given}({then})'

    @staticmethod
    def arrow(fact):
        return f'({fact})' if '→' in fact or '×' in fact else fact

    # the places of what a proof gets
    def places(self):
        n = len(self.inputs)
        places = {name: f'k.{i}' for i, (name, _) in enumerate(self.inputs)}
        if self.has_given:
            places['pre'] = f'k.{n + 3}'
        return places

    @property
    def equation(self):
        return f'k.{len(self.inputs) + 1}'

    @property
    def goes_on(self):
        return f'k.{len(self.inputs) + (4 if self.has_given else 2)}' if self.takes else 'k'


class Spelling:
    def __init__(self, text):
        self.order, self.meaning, self.terms = [], {}, {}
        names = []
        for line in text.split('\n'):
            if line.startswith('rule '):
                head, _, rest = line[5:].partition(' : ')
                names = head.split(', ')
                for name in names:
                    self.order.append(name)
                    self.meaning[name] = Meaning(name, rest)
            elif line.startswith('  | '):
                parts, terms = re.match(r'  \| (.*?) ?=> (.*)', line).groups()
                for name in names:
                    self.terms[name, parts] = [term.strip() for term in terms.split(' ; ')]


def plain(parts, g, literal):
    """A production as the text has it."""
    def word(part):
        if part[0] == 'word':
            return g.classes[part[1]]
        if part[0] == 'span':
            low, high = g.classes[part[1]], g.classes[part[2]]
            return f'<{low}..{high}>'
        return {'mark': lambda: g.marks[part[1]], 'rule': lambda: part[1], 'scaled': lambda: '<p,s>'}[part[0]]()

    return ' '.join(word(part) for part in parts)


class Proof:
    """The term for a production: what it is given, part by part."""

    def __init__(self, spelling, g, rule, parts, terms):
        self.spelling, self.g = spelling, g
        self.meaning = spelling.meaning[rule]
        self.terms = list(terms)
        self.parts = parts

    def next(self):
        if not self.terms:
            raise SystemExit(f'{self.meaning.name}: a term is missing')
        places = self.meaning.places()
        return re.sub(r'\$(\w+)', lambda m: places[m.group(1)], self.terms.pop(0))

    def walk(self, at):
        if at > len(self.parts):
            outs = ' '.join(['_'] * (len(self.meaning.outputs) + 2))
            return f'{self.meaning.goes_on} {outs} {self.argument(self.next())}'
        kind, *rest = self.parts[at - 1]
        if kind in ('word', 'span', 'scaled'):
            return f'λ r{at} w{at}. {self.walk(at + 1)}'
        if kind == 'mark':
            if self.g.marks[rest[0]][1:] not in DEEPER:
                return self.walk(at + 1)
            return f'on_depth (over {self.depths(self.next())}) _ _ _ _ (λ d{at}. {self.walk(at + 1)})'
        called = self.spelling.meaning[rest[0]]
        outs = ''.join(f'{letter}{at} ' for letter, _ in zip('xyz', called.outputs))
        then = f'λ {outs}l{at} r{at} s{at}. '
        if not called.takes:
            return then + self.walk(at + 1)
        given = f'_, {self.next()}, ' if called.has_given else ''
        return f'({"_, " * len(called.inputs)}_, refl, {given}{then}{self.walk(at + 1)})'

    @staticmethod
    def depths(term):
        return term

    @staticmethod
    def argument(term):
        return term if re.fullmatch(r'[\w.]+|\(.*\)|record \{.*\}', term) and not re.search(r'\) .*\(|\) \w', re.sub(r'\([^()]*\)', '', term)) and not term.startswith('record') else f'({term})'

    def term(self):
        body = self.walk(1)
        if self.terms:
            raise SystemExit(f'{self.meaning.name}: terms are left over: {self.terms}')
        return body


def rule_name(name):
    return f'of_{name}'


def rules_file(spelling):
    out = ['pub data Rule : Type 0 where'] + [f'  {rule_name(name)} : Rule' for name in spelling.order] + ['  of_none : Rule', '']
    out += ['abbrev pub Means : List ℕ → Rule → Token → List Token → Parts → Claim → Type 0']
    out += [f'Means text {rule_name(name)} last rest p K = {spelling.meaning[name].clause()}' for name in spelling.order]
    out += ['Means text of_none last rest p K = Unit {0}', '']
    out += ['abbrev pub rules : List (ℕ × Rule)', 'rules =']
    out += [f'    (class.{quoted(name)}, {rule_name(name)}) ∷' for name in spelling.order] + ['    []', '']
    out += ['abbrev pub look : List (ℕ × Rule) → ℕ → Rule', 'look [] n = of_none', 'look (r ∷ rs) n = if nat_eq r.0 n then r.1 else look rs n', '',
            'abbrev pub means : List ℕ → ℕ → Token → List Token → Parts → Claim → Type 0', 'means text n = Means text (look rules n)', '',
            'abbrev pub Kept : List ℕ → Production → Type 1', 'Kept text x = Keeps text (means text) x']
    return headed('What the rules of the literal grammar mean by the definition of how a tree is spelled', '\n'.join(out), 'proofs.Rules')


def qualified(parts, g):
    return re.sub(r'\b(word|rule|span) (\w+)(?: (\w+))?', lambda x: f'{x.group(1)} class.{x.group(2)}' + (f' class.{x.group(3)}' if x.group(3) else ''), antt_parts(parts, g))


def productions(spelling, g, literal):
    facts = []
    for number, (rule, parts) in enumerate(literal.productions):
        key = plain(parts, g, literal)
        if rule not in spelling.meaning:
            raise SystemExit(f'spelling.g: no rule {rule}')
        if (rule, key) not in spelling.terms:
            raise SystemExit(f'spelling.g: rule {rule} has no production {key}')
        meaning = spelling.meaning[rule]
        list_of = qualified(parts, g)
        name = f'production_{number}'
        proof = Proof(spelling, g, rule, parts, spelling.terms.pop((rule, key)))
        body = proof.term()
        if meaning.takes:
            body = f'subst (λ z. Promise text (means text) ({list_of}) last rest z K) (sym {meaning.equation}) ({body})'
        fact = [f'  pub {name} : Kept text (to class.{quoted(rule)} ({list_of}))']
        if rule == 'name':
            fact.append('  unfolding name_classes')
        facts.append(fact + [f'  {name} last rest p K k = {body}', ''])
    if spelling.terms:
        raise SystemExit('spelling.g: productions that literal.g hasn\'t: ' + '; '.join(f'{rule} : {parts}' for rule, parts in spelling.terms))
    return facts


def production_file(facts):
    return headed('Productions of the literal grammar keep what their rules mean', '\n'.join(['module _ (text : List ℕ) where'] + sum(facts, [])).rstrip())


def every_file(count, files):
    """All of them, as one fact."""
    imported = []
    for k, first in enumerate(range(0, count, A_FILE)):
        names = ', '.join(f'production_{n}' for n in range(first, min(first + A_FILE, count)))
        imported.append(f'use Rattle.hs_spelling.proofs.Productions{k + 1}.{{{names}}}')
    text = ['abbrev pub Every : List ℕ → List Production → Type 1', 'Every text [] = Unit {1}', 'Every text (x ∷ xs) = Kept text x × Every text xs', '',
            'module _ (text : List ℕ) where', '  pub every : Every text productions', '  every = (', '    production_0 text,']
    for n in range(1, count):
        text += [' ' * (2 * n + 2) + '(', ' ' * (2 * n + 4) + f'production_{n} text,']
    text.append(' ' * (2 * count + 2) + 'tt,')
    text += [' ' * (2 * n + 2) + ('),' if n else ')') for n in reversed(range(count))]
    made = headed('Every production of the literal grammar keeps what its rule means', '\n'.join(text))
    return made.replace('\n\n', '\n' + '\n'.join(imported) + '\n\n', 1)


def headed(what, text, but='nothing'):
    uses = [line for line in uses_of(text) if but not in line]
    return '\n'.join([f'-- {what}, made by grammar/make_spelling.py.'] + uses + ['', text]) + '\n'


def uses_of(text):
    """The lines of USES that the text needs, each with the names that it needs."""
    words = set(re.findall(r'◌[^\s\w(){}]+◌|if◌then◌else◌|[\w-]+', text)) | {f'◌{sign}◌' for sign in re.findall(r'(?<=\s)([^\s\w(){}.,;:=]+)(?=\s)', text)}
    if re.search(r'\bif ', text):
        words.add('if◌then◌else◌')
    if '[]' in text:
        words.add('[]')
    kept = []
    for line in USES.strip().split('\n'):
        if ' as ' in line and '{' not in line:
            if re.search(r'(?<![\w.])' + line.rsplit(' ', 1)[1] + r'\.', text):
                kept.append(line)
            continue
        module, names = re.match(r'use (.*)\.\{(.*)\}', line).groups()
        names = [name for name in names.split(', ') if name in words]
        if names:
            kept.append(f'use {module}.{{{", ".join(names)}}}')
    return kept


def main():
    numbers = None
    sql = open(os.path.join(HERE, 'sql.g'), encoding='utf-8').read()
    g = Grammar(sql)
    literal = Literal(g, open(os.path.join(HERE, 'literal.g'), encoding='utf-8').read())
    spelling = Spelling(open(os.path.join(HERE, 'spelling.g'), encoding='utf-8').read())
    made = {}
    facts = productions(spelling, g, literal)
    made['Rules'] = rules_file(spelling)
    files = [facts[k:k + A_FILE] for k in range(0, len(facts), A_FILE)]
    for k, part in enumerate(files):
        made[f'Productions{k + 1}'] = production_file(part)
    made['Every'] = every_file(len(facts), files)
    wrong = []
    for name, text in made.items():
        path = os.path.join(PROOFS, name + '.antt')
        if '--check' in sys.argv:
            kept = open(path, encoding='utf-8').read() if os.path.exists(path) else ''
            if re.sub(r'\s+', ' ', kept) != re.sub(r'\s+', ' ', text):
                wrong.append(path)
        else:
            open(path, 'w', encoding='utf-8').write(text)
    for path in wrong:
        print(f'{os.path.normpath(path)} is not what make_spelling.py makes')
    sys.exit(1 if wrong else 0)


if __name__ == '__main__':
    main()
