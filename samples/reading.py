#!/usr/bin/env python3
"""reading.py --corners: how many corners of text_corners.txt come out as they stand there.
reading.py SHEET NAMES TYPE TEXT..: what each text adds to the sheet, or its refusal.
reading.py --program: stands in for the program that reads a text, on standard input and output.

`read` reads a pattern's text into an image, or refuses it with 19, 20, 1 or 2. Written from request S-14 and the
Reference alone (edition 2021), so that the definitions have something to differ from. Tokens and grammar are those
of tokens.py and grammar.py; here stand names, types, derefs, modes, the image, and the order of the refusals."""
import re
import sys
from pathlib import Path

sys.dont_write_bytecode = True

from grammar import Failed, Parser
from images import (
    ABSENT, ADT, ARRAY, BIND, BOOLEAN, CHARACTER, INT, LIT, NAMES_CONSTANT, NAMES_VARIANT, OR, PATH, RANGE, RECORD,
    REF, REFERENCE, REST, SLICE, SLICE_TYPE, TUPLE, TUPLE_STRUCT, TUPLE_TYPE, UINT, WILD, broken, decode,
)
from name_tables import CONSTANT_ROW, VARIANT_ROW, breaks_a_rule, field_number, first_number
from tokens import token

VALUE, BY_REF, BY_REF_MUT = 0, 1, 2
UNANNOTATED, MUTABLE, OTHER = 0, 1, 2
LONGEST_TEXT, MOST_DEREFS = 16384, 16
# The most rows of the tables that grow: types, patterns, bindings, list words and data bytes.
LIMITS = (('types', 256), ('patterns', 512), ('bindings', 256), ('list', 2048), ('data', 16384))
WORD = re.compile(rb'[A-Za-z_][A-Za-z0-9_]*')


def is_set(flag):
    """a flag is set by 1, and not set by any other word"""
    return flag == 1


def start(t):
    """the first byte of a pattern, a leading `|`, parentheses and `ref` counted"""
    if t[0] == 'pattern':
        return start(t[2][0]) if t[1] is None else t[1]
    if t[0] in ('ident', 'at', 'to', 'short'):
        return t[-1]
    if t[0] in ('range', 'from'):
        return t[1][1]
    return t[2] if t[0] == 'ref' else t[1]


def rest_of(item):
    """a list's item that is a rest: the rest, or the name that it is bound to"""
    first = item[2][0]
    return first if first[0] == 'rest' or first[0] == 'at' and first[3][0] == 'rest' else None


class Reader:
    """Writes a tree's patterns behind a sheet's tables as they close; `failed` has the places that number 20 is given for."""

    def __init__(self, text, m, names):
        self.text, self.m, self.names = text, m, names
        self.bound, self.failed = {}, []

    def fail(self, at):
        """what is not found or has no part stands here; the image is given up"""
        self.failed.append(at)
        return 0

    def add(self, kind, type_, derefs, a=0, b=0, c=0, d=0):
        self.m.patterns.append([kind, type_, derefs, a, b, c, d])
        return len(self.m.patterns) - 1

    def words(self, words):
        """where a list starts, 0 if it is empty"""
        return self.m.add_words(*words) if words else 0

    # names
    def path_name(self, at):
        """the names of the path that begins here, joined by `::`"""
        found = token(self.text, at)
        names, behind = [self.text[found[3]:found[2]]], token(self.text, found[2])
        while behind[0] == 'path-sep':
            found = token(self.text, behind[2])
            names.append(self.text[found[3]:found[2]])
            behind = token(self.text, found[2])
        return b'::'.join(names)

    def name_at(self, own):
        return WORD.match(self.text, own).group()

    def token_at(self, own):
        """the first byte of the name's token, whose `r#` is no part of the name"""
        return own - 2 if self.text[max(own - 2, 0):own] == b'r#' else own

    # types
    def fields(self, type_, v):
        """the field types of a variant that the type has, or none"""
        kind, first, count = self.m.types[type_][:3]
        if kind != ADT or not first <= v < first + count:
            return []
        at, many, _ = self.m.variants[v]
        return self.m.list[at:at + many]

    def crossed(self, type_, mode):
        """the type behind all references, how many were crossed, and the default mode then"""
        derefs = 0
        while self.m.types[type_][0] == REFERENCE and derefs <= len(self.m.types):
            mode = BY_REF if is_set(self.m.types[type_][4]) or mode == BY_REF else BY_REF_MUT
            type_, derefs = self.m.types[type_][1], derefs + 1
        return type_, max(derefs, MOST_DEREFS + 1) if self.m.types[type_][0] == REFERENCE else derefs, mode

    def alike(self, kind, a, b, flag):
        """the first type alike, which is added if there is none"""
        for number, row in enumerate(self.m.types):
            if row[:2] == [kind, a] and (kind == REFERENCE or row[2] == b) and is_set(row[4]) == is_set(flag):
                return number
        return self.m.add_type(kind, a, b, 0, flag)

    # a subpattern at its part, or the place where it has none
    def part(self, t, type_, mode):
        return self.fail(start(t)) if type_ is None else self.pattern(t, type_, mode)

    def pattern(self, t, type_, mode):
        if t[0] == 'pattern':
            numbers = [self.pattern(a, type_, mode) for a in t[2]]
            return numbers[0] if len(numbers) == 1 else self.add(OR, type_, 0, self.words(numbers), len(numbers))
        return getattr(self, 'read_' + t[0])(t, type_, mode)

    def read_group(self, t, type_, mode):
        return self.pattern(t[2][0], type_, mode)

    def read_wild(self, t, type_, mode):
        return self.add(WILD, type_, 0)

    def operand(self, t):
        """the operand of a literal: where it starts in the list"""
        first = token(self.text, t[1])
        own = token(self.text, first[2]) if first[0] == 'minus' else first
        if own[0] == 'char':
            return self.m.add_operand(CHARACTER, own[3].to_bytes(4, 'little'))
        if own[0] in ('true', 'false'):
            return self.m.add_operand(BOOLEAN, bytes([own[0] == 'true']))
        value = int(self.text[own[1]:own[2]].replace(b'_', b''))
        return self.m.add_integer(-value, INT) if first[0] == 'minus' else self.m.add_integer(value, UINT)

    def read_literal(self, t, type_, mode):
        type_, derefs, _ = self.crossed(type_, mode)
        return self.add(LIT, type_, derefs, self.operand(t))

    def bound_of(self, t):
        """the operand of a range's bound"""
        if t[0] == 'literal':
            return self.operand(t)
        found = first_number(self.names, self.path_name(t[1]), CONSTANT_ROW)
        return self.fail(t[1]) if found is None else found[1]

    def ends(self, low, high, half_open, type_, mode):
        type_, derefs, _ = self.crossed(type_, mode)
        low = ABSENT if low is None else self.bound_of(low)
        high = ABSENT if high is None else self.bound_of(high)
        return self.add(RANGE, type_, derefs, low, high, half_open)

    def read_range(self, t, type_, mode):
        return self.ends(t[1], t[3], int(not t[2]), type_, mode)

    def read_to(self, t, type_, mode):
        return self.ends(None, t[2], int(not t[1]), type_, mode)

    def read_from(self, t, type_, mode):
        return self.ends(t[1], None, 1, type_, mode)

    def read_path(self, t, type_, mode):
        found = first_number(self.names, self.path_name(t[1]), VARIANT_ROW, CONSTANT_ROW)
        return self.fail(t[1]) if found is None else self.named(found, type_, mode)

    def named(self, found, type_, mode):
        """a path to a variant or a constant"""
        type_, derefs, _ = self.crossed(type_, mode)
        return self.add(PATH, type_, derefs, NAMES_VARIANT if found[0] == VARIANT_ROW else NAMES_CONSTANT, found[1])

    # bindings
    def read_ident(self, t, type_, mode):
        return self.name(t[1], t[2], type_, mode, None)

    def read_at(self, t, type_, mode):
        return self.name(t[1], t[2], type_, mode, t[3])

    def name(self, flags, own, type_, mode, sub):
        """a name alone, or with `ref`, `mut` or `@`"""
        found = first_number(self.names, self.name_at(own), VARIANT_ROW, CONSTANT_ROW)
        if found is not None:
            return self.fail(self.token_at(own)) if flags or sub else self.named(found, type_, mode)
        below = ABSENT if sub is None else self.pattern(sub, type_, mode)
        return self.bind(flags, own, type_, lambda: type_, mode, below)

    def bind(self, flags, own, type_, bound_at, mode, below):
        """a Bind, its binding's row being made if it is the first; `bound_at` answers what it is bound at"""
        mode, annotation = ((mode, UNANNOTATED), (BY_REF, OTHER), (VALUE, MUTABLE), (BY_REF_MUT, OTHER))[flags]
        name = self.name_at(own)
        if name not in self.bound:
            target = bound_at()
            if mode != VALUE:
                target = self.alike(REFERENCE, target, 0, int(mode == BY_REF))
            self.bound[name] = self.m.add_binding(target)
        return self.add(BIND, type_, 0, self.bound[name], below, mode, annotation)

    # lists
    def read_ref(self, t, type_, mode):
        _, double, at, mutable, sub = t
        if not double:
            return self.one_ref(mutable, sub, type_)
        target = self.target(type_, False)
        if target is None:
            return self.fail(at + 1)
        return self.add(REF, type_, 0, self.one_ref(mutable, sub, target))

    def one_ref(self, mutable, sub, type_):
        return self.add(REF, type_, 0, self.part(sub, self.target(type_, mutable), VALUE))

    def target(self, type_, mutable):
        kind, target, _, _, flag = self.m.types[type_]
        return target if kind == REFERENCE and is_set(flag) != mutable else None

    def arguments(self, items, fields, mode):
        """the patterns of the items, and how many stand before a rest; behind it fields count from the end"""
        rests = [number for number, item in enumerate(items) if rest_of(item)]
        ellipsis, numbers = rests[0] if rests else ABSENT, []
        for number, item in enumerate(items):
            if number != ellipsis:
                field = number if number < ellipsis else len(fields) - len(items) + number
                numbers.append(self.part(item, fields[field] if 0 <= field < len(fields) else None, mode))
        return self.words(numbers), len(numbers), ellipsis

    def read_tuple(self, t, type_, mode):
        type_, derefs, mode = self.crossed(type_, mode)
        kind, first, count = self.m.types[type_][:3]
        fields = self.m.list[first:first + count] if kind == TUPLE_TYPE else []
        return self.add(TUPLE, type_, derefs, *self.arguments(t[2], fields, mode))

    def read_struct(self, t, type_, mode):
        found = first_number(self.names, self.path_name(t[1]), VARIANT_ROW)
        if found is None:
            return self.fail(t[1])
        type_, derefs, mode = self.crossed(type_, mode)
        return self.add(TUPLE_STRUCT, type_, derefs, *self.arguments(t[2], self.fields(type_, found[1]), mode), found[1])

    def read_record(self, t, type_, mode):
        found = first_number(self.names, self.path_name(t[1]), VARIANT_ROW)
        if found is None:
            return self.fail(t[1])
        type_, derefs, mode = self.crossed(type_, mode)
        pairs = [word for f in t[3] for word in self.field(f, found[1], self.fields(type_, found[1]), mode)]
        return self.add(RECORD, type_, derefs, self.words(pairs), len(t[3]), found[1])

    def field(self, t, v, fields, mode):
        """a field's number and its pattern"""
        if t[0] == 'keyed':
            key = token(self.text, t[1])
            name, at = self.text[key[-1] if key[0] == 'name' else key[1]:key[2]], t[1]
        else:
            name, at = self.name_at(t[2]), self.token_at(t[2])
        number = field_number(self.names, name, v)
        if number is None:
            return 0, self.fail(at)
        if number >= len(fields):
            return 0, self.fail(start(t[2] if t[0] == 'keyed' else t))
        if t[0] == 'keyed':
            return number, self.pattern(t[2], fields[number], mode)
        return number, self.name(t[1], t[2], fields[number], mode, None)

    def read_slice(self, t, type_, mode):
        type_, derefs, mode = self.crossed(type_, mode)
        kind, element, length = self.m.types[type_][:3]
        if kind not in (ARRAY, SLICE_TYPE):
            element = None
        numbers, before, rest = [], None, ABSENT
        for item in t[2]:
            if rest_of(item):
                before, rest = len(numbers), self.rest_item(rest_of(item), type_, mode, len(t[2]) - 1)
            else:
                numbers.append(self.part(item, element, mode))
        before = len(numbers) if before is None else before
        return self.add(SLICE, type_, derefs, self.words(numbers), before, len(numbers) - before, rest)

    def rest_item(self, t, type_, mode, others):
        """a slice's rest among so many other items"""
        kind, element, length, _, _ = self.m.types[type_]
        if t[0] == 'rest':
            return self.add(REST, type_, 0)
        if kind not in (ARRAY, SLICE_TYPE) or kind == ARRAY and length < others:
            return self.fail(start(t))
        if first_number(self.names, self.name_at(t[2]), VARIANT_ROW, CONSTANT_ROW) is not None:
            return self.fail(self.token_at(t[2]))
        below = self.add(REST, type_, 0)

        def left():
            return self.alike(ARRAY, element, length - others, int(is_set(self.m.types[element][4]))) if kind == ARRAY else type_
        return self.bind(t[1], t[2], type_, left, mode, below)


def past_a_limit(m):
    """a table has more rows than document 01 allows, or a pattern more derefs"""
    return any(len(getattr(m, table)) > most for table, most in LIMITS) or any(row[2] > MOST_DEREFS for row in m.patterns)


def is_sheet(sheet):
    """an image in which the counts of patterns and bindings may be 0"""
    faults = broken(sheet)
    return not faults or faults == ['patternsWithinLimit'] and not decode(sheet).patterns


def reader_of(text, sheet, names, expected):
    """the reader of a text that is taken, or the three numbers of a refusal"""
    if len(text) > LONGEST_TEXT:
        return 19, LONGEST_TEXT, 0
    try:
        tree = Parser(text).whole()
    except Failed as failed:
        return 19, failed.args[0], 0
    if not is_sheet(sheet):
        return 1, ABSENT, 0
    reader = Reader(text, decode(sheet), names)
    if expected >= len(reader.m.types) or breaks_a_rule(names, reader.m):
        return 2, ABSENT, 0
    reader.pattern(tree, expected, VALUE)
    if reader.failed:
        return 20, min(reader.failed), 0
    return (1, ABSENT, 0) if past_a_limit(reader.m) else reader


def read(text, sheet, names, expected):
    """the image's bytes, or the three numbers of a refusal"""
    answer = reader_of(text, sheet, names, expected)
    if isinstance(answer, tuple):
        return answer
    image = answer.m.encode()
    assert not broken(image), (text, broken(image))
    return image


def part(given, before):
    """the bytes whose length the first four tell, those four among them where `before` is 4; and what follows them"""
    end = 4 + int.from_bytes(given[:4], 'big')
    return given[4 - before:end], given[end:]


def program(given):
    """what the program writes for its standard input: the sheet, the name table, the expected type as a word, and the text behind its length"""
    sheet, rest = part(given, 4)
    names, rest = part(rest, 4)
    text, _ = part(rest[2:], 0)
    answer = read(text, sheet, names, int.from_bytes(rest[:2], 'big'))
    return answer if isinstance(answer, bytes) else b'refused %d %d %d\n' % answer


def main(arguments):
    if arguments == ['--program']:
        sys.stdout.buffer.write(program(sys.stdin.buffer.read()))
        return 0
    from reading_corners import agree, told
    if arguments == ['--corners']:
        return agree()
    if len(arguments) < 4:
        print(__doc__)
        return 2
    sheet, names = Path(arguments[0]).read_bytes(), Path(arguments[1]).read_bytes()
    for text in arguments[3:]:
        print(told(text.encode('utf-8', 'surrogateescape'), sheet, names, int(arguments[2])))
    return 0


if __name__ == '__main__':
    sys.exit(main(sys.argv[1:]))
