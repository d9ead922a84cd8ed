"""Pattern texts over a sample class, in match arms over its declarations in Rust."""
import re
from collections import Counter
from pathlib import Path

from fits import Fit
from images import (
    ADT, ARRAY, BOOL, CHAR, ENUM, INTEGER, NAMES_CONSTANT, NAMES_VARIANT, OR, PATH, RANGE, REFERENCE, SLICE_TYPE, STR, TUPLE_TYPE, UNION, decode,
)
from name_tables import CONSTANT_ROW, FIELD_ROW, VARIANT_ROW, name_of, rows
from reading import reader_of
from reading_corners import class_tables, corners, image_fits
from text_chance import chance_texts

SAMPLES = Path(__file__).resolve().parent.parent / 'samples'
SORTS = ('struct', 'enum', 'union')


class Declarations:
    """A class's types and names as Rust has them."""

    def __init__(self, name):
        self.source = (SAMPLES / f'{name}.class').read_text()
        self.sheet, self.names = class_tables(name)
        self.m = decode(self.sheet)
        self.fields, self.variants, self.constants = {}, {}, {}
        declared = dict(re.findall(r'^const ([\w:]+): (\w+)', self.source, re.M))
        for row in rows(self.names):
            if row[0] == CONSTANT_ROW:
                self.constants[row[1]] = declared[name_of(self.names, row).decode()]
            if row[0] == VARIANT_ROW:
                self.variants.setdefault(row[1], name_of(self.names, row).decode())
            if row[0] == FIELD_ROW:
                self.fields[row[2], row[1]] = name_of(self.names, row).decode()

    def type_text(self, t, life='', m=None):
        """a type of these tables, or of the sheet's own, references with this lifetime"""
        m = m or self.m
        kind, a, b, _, flag = m.types[t]
        if kind == INTEGER:
            return f"{'i' if b == 1 else 'u'}{8 * a}"
        if kind == TUPLE_TYPE:
            return '(' + ''.join(self.type_text(f, life, m) + ', ' for f in m.list[a:a + b]) + ')'
        if kind == ADT:
            return self.variants[a].split('::')[0]
        if kind == REFERENCE:
            return f"&{life} {'' if flag else 'mut '}{self.type_text(a, life, m)}"
        if kind == ARRAY:
            return f'[{self.type_text(a, life, m)}; {b}]'
        return f'[{self.type_text(a, life, m)}]' if kind == SLICE_TYPE else {BOOL: 'bool', CHAR: 'char', STR: 'str'}[kind]

    def variant(self, v):
        """a variant's fields as declared"""
        first, count, _ = self.m.variants[v]
        types = [self.type_text(t, "'static") for t in self.m.list[first:first + count]]
        if count and self.fields[v, 0] == '0':
            return '(' + ', '.join(types) + ')'
        return ' { ' + ', '.join(f'{self.fields[v, i]}: {t}' for i, t in enumerate(types)) + ' }' if count else ''

    def declared(self, t):
        """a struct, an enum or a union"""
        _, first, count, sort, flag = self.m.types[t]
        head = ('#[derive(Clone, Copy)] ' if flag else '') + f'{SORTS[sort]} {self.type_text(t)}'
        if sort == ENUM:
            return head + ' { ' + ', '.join(self.variants[v].split('::')[1] + self.variant(v) for v in range(first, first + count)) + ' }\n'
        return head + self.variant(first) + (';' if not self.variant(first).endswith('}') else '') + '\n'

    def rust(self):
        """all declarations, on one line each"""
        found = [self.declared(t) for t in range(len(self.m.types)) if self.m.types[t][0] == ADT]
        for path, own, type_, value in re.findall(r'^const ((?:\w+::)*)(\w+): (\w+) = (.+)$', self.source, re.M):
            line = f'pub const {own}: {type_} = {value};'
            for module in reversed(path.split('::')[:-1]):
                line = f'mod {module} {{ {line} }}'
            found.append(line + '\n')
        return ''.join(found + [f'use {path};\n' for path in re.findall(r'^use (.+)$', self.source, re.M)])

    def arm(self, number, text, expected, bound):
        """a function with the text as a match arm; what its bindings' types must be stands on the line behind it"""
        sized = self.m.types[expected][0] not in (SLICE_TYPE, STR)
        place = self.type_text(expected, "'static")
        head = f"unsafe fn f{number}(mut place: {place}) {{ match place {{" if sized else f"unsafe fn f{number}(place: &'static mut {place}) {{ match *place {{"
        checks = ''.join(f'let _: *const {t} = std::ptr::addr_of!(r#{name}); ' for name, t in bound)
        return f'{head}\n{text.decode()}\n=> {{\n{checks}\n}} _ => {{}} }} }}\n'


class Case:
    """A text with its expected type, and how it is read."""

    def __init__(self, declarations, text, expected):
        self.declarations, self.text, self.expected = declarations, text, expected
        self.bound, self.said, self.code = [], '', ''
        answer = reader_of(text, declarations.sheet, declarations.names, expected)
        self.refusal = answer if isinstance(answer, tuple) else None
        self.fits = self.refusal is None and image_fits(answer.m.encode(), expected)
        self.m = None if self.refusal else answer.m
        if self.fits:
            self.bound = [(name.decode(), declarations.type_text(self.m.bindings[b][0], '', self.m)) for name, b in answer.bound.items()]

    def has_odd_constant(self):
        """a constant stands on a reference, or where another type is due than its own"""
        types = self.declarations.constants
        for kind, type_, derefs, a, b, _, _ in self.m.patterns:
            words = [b] if kind == PATH and a == NAMES_CONSTANT else [a, b] if kind == RANGE else []
            due = self.declarations.type_text(type_, '', self.m)
            if any(types.get(word, due) != due for word in words) or words and kind == PATH and derefs:
                return True
        return False

    def has_bare_variant(self):
        """a variant with fields stands as a path"""
        return any(row[0] == PATH and row[3] == NAMES_VARIANT and self.m.variants[row[4]][1] for row in self.m.patterns)

    def has_unreached(self):
        """an alternative stands behind one that cannot fail: nothing that is refused is reached there"""
        fit = Fit(self.m, ())
        return any(not fit.can_fail(q) for row in self.m.patterns if row[0] == OR for q in self.m.list[row[3]:row[3] + row[4] - 1])

    def has_union(self):
        return any(self.m.types[row[1]][0] == ADT and self.m.types[row[1]][3] == UNION for row in self.m.patterns)


MOVES = {'E0382', 'E0499', 'E0502', 'E0503', 'E0505', 'E0506', 'E0507', 'E0508', 'E0509', 'E0594', 'E0596', 'E0597', 'E0716'}
# What rustc asks of a pattern beside the fit, by its code or message; an image keeps no `..` of a record, no type of a constant and no form of a variant.
PARTED = (
    ('moves and borrows', lambda c: c.code in MOVES or re.match('cannot (borrow|move)|borrow of moved', c.said)),
    ('a record that leaves fields out without `..`', lambda c: c.code in ('E0027', 'E0769')),
    ('`x @ a..` as a slice item, which is unstable', lambda c: c.code == 'E0658' and 'in slices' in c.said),
    ('an empty range', lambda c: c.code in ('E0030', 'E0579')),
    ('a binding by value at a type without a size', lambda c: c.code == 'E0277' and 'size' in c.said),
    ('a constant on a reference, or of another type of its size', lambda c: c.code in ('E0308', 'E0029') and c.has_odd_constant()),
    ('a variant in another form than it is declared in', lambda c: c.code in ('E0532', 'E0164')),
    ('what stands behind an alternative that always matches, which is not reached', lambda c: c.has_unreached()),
)


def judged(judge, declarations, cases):
    """each case has rustc's first word on it; what is right is asked again until nothing is wrong, since rustc stops early"""
    left = cases
    while True:
        source, owner = arms(declarations, left)
        found = [(code, message, owner[line]) for code, message, lines in judge.errors(source) for line in lines]
        if not found:
            return
        for code, message, (case, checks) in found:
            if not case.said:
                case.said, case.code = message, 'bound' if checks else code
        left = [case for case in left if not case.said]


def arms(declarations, cases):
    """a file of match arms, and for each of their lines the case, and whether the bindings' types stand there"""
    source = '#![allow(warnings)] ' + declarations.rust()
    line, owner, parts = 1 + source.count('\n'), {}, [source]
    for number, case in enumerate(cases):
        parts.append(declarations.arm(number, case.text, case.expected, case.bound))
        last = line + parts[-1].count('\n')
        for at in range(line, last):
            owner[at] = case, at == last - 2
        line = last
    return ''.join(parts), owner


def sort_of(case):
    """how a case compares, or None for a difference"""
    if case.refusal:
        return f'refused with {case.refusal[0]}, and by rustc' if case.said else None
    if case.has_bare_variant():
        return 'a variant with fields as a path, which rustc refuses or takes for a binding'
    if case.fits == (not case.said):
        return 'fits, and accepted by rustc with these bindings' if case.fits else 'does not fit, and refused by rustc'
    if case.fits:
        return next((f'fits, and refused by rustc: {name}' for name, holds in PARTED if holds(case)), None)
    return 'does not fit, and accepted by rustc: a union' if case.has_union() else None


def otherwise(program, declarations, cases):
    """the texts that the program answers otherwise than samples/reading.py"""
    answers = program.answers([(case.text, declarations.sheet, declarations.names, case.expected) for case in cases])
    for case, answer in zip(cases, answers):
        if answer != (case.refusal or case.m.encode()):
            yield case.text.decode(errors='replace'), 't%d' % case.expected, 'the program and samples/reading.py differ', answer, case.refusal


def typed(judge, program, name, seed, count):
    """how many texts of each sort, and the differences"""
    declarations = Declarations(name)
    found = list(chance_texts(seed, declarations.m, declarations.names, count))
    if name == 'text':
        found += [(text, expected) for text, expected, _ in corners()]
    cases = [Case(declarations, text, expected) for text, expected in found]
    differences = list(otherwise(program, declarations, cases))
    cases = [case for case in cases if case.refusal is None or case.refusal[0] == 20]
    judged(judge, declarations, cases)
    tally = Counter()
    for case in cases:
        sort = sort_of(case)
        tally[sort or 'differ'] += 1
        if sort is None:
            differences.append((case.text.decode(), 't%d' % case.expected, case.refusal or ('fits' if case.fits else 'does not fit'), case.code, case.said))
    return tally, differences
