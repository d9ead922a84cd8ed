"""Judges whether a pattern fits a place, by document 01's paragraph "A pattern fits when" alone.

`fits(m, p, type_, root, locals_)`: the pattern p of the tables m, on a place of a type whose
root is the local `root`, where the bindings have these locals, ABSENT for none.
"""

from images import (
    ABSENT, ADT, ARRAY, BIND, BOOL, BOOLEAN, BOX, CHAR, CHARACTER, CONSTANT, DEREF, ENUM, EXPR,
    INT, INTEGER, LIT, MISSING, NAMES_CONSTANT, NAMES_VARIANT, NOT_NULL, OR, PATH, RANGE, RECORD,
    REF, REFERENCE, REST, SLICE, SLICE_TYPE, STR, STRING, TUPLE, TUPLE_STRUCT, TUPLE_TYPE, UINT,
    UNION, WILD,
)

REFUSED = (MISSING, REST, NOT_NULL, EXPR, BOX, DEREF)


class Misfit(Exception):
    """A condition does not hold."""


def hold(condition):
    """A condition of the paragraph."""
    if not condition:
        raise Misfit


class Fit:
    """The conditions down the tree of a pattern."""

    def __init__(self, m, locals_):
        self.m, self.locals = m, locals_

    def words(self, start, count):
        return self.m.list[start:start + count]

    def operand(self, start):
        """Kind and bytes."""
        kind, offset, count = self.words(start, 3)
        return kind, bytes(self.m.data[offset:offset + count])

    def adt_variants(self, type_):
        """The variants of an ADT; other types have none."""
        kind, first, count, _, _ = self.m.types[type_]
        return range(first, first + count) if kind == ADT else range(0)

    def is_enum(self, type_):
        return self.m.types[type_][0] == ADT and self.m.types[type_][3] == ENUM

    def discriminant(self, v):
        offset = self.m.variants[v][2]
        return bytes(self.m.data[offset:offset + 16])

    def variant_fields(self, type_, v):
        """The field types of a variant, none where the type has it not; "discriminants differ"."""
        variants = self.adt_variants(type_)
        if self.is_enum(type_):
            hold(len({self.discriminant(w) for w in variants}) == len(variants))
        if v not in variants:
            return []
        first, count, _ = self.m.variants[v]
        return self.words(first, count)

    def in_range(self, type_, value):
        """A value of an integer type."""
        _, size, signed, _, _ = self.m.types[type_]
        least, greatest = (-(1 << 8 * size - 1), (1 << 8 * size - 1) - 1) if signed == 1 else (0, (1 << 8 * size) - 1)
        return least <= value <= greatest

    def literal(self, type_, kind, content):
        """"a literal .. has its type's kind and holds a value in its range"."""
        sort, target = self.m.types[type_][:2]
        if kind in (INT, UINT):
            hold(sort == INTEGER and self.in_range(type_, int.from_bytes(content, "little", signed=kind == INT)))
        elif kind == CHARACTER:
            hold(sort == CHAR)
        elif kind == BOOLEAN:
            hold(sort == BOOL)
        else:
            hold(kind == STRING and sort == REFERENCE and self.m.types[target][0] == STR)

    def constant(self, type_, content, sorts):
        """"a constant in exactly its size"."""
        sort, size = self.m.types[type_][:2]
        hold(sort in sorts)
        number = int.from_bytes(content, "little")
        if sort == INTEGER:
            hold(len(content) == size)
        elif sort == BOOL:
            hold(len(content) == 1 and number < 2)
        else:
            hold(len(content) == 4 and number < 0x110000 and not 0xD800 <= number < 0xE000)

    def range_end(self, type_, start):
        kind, content = self.operand(start)
        hold(kind in (INT, UINT, CHARACTER, CONSTANT))
        if kind == CONSTANT:
            self.constant(type_, content, (INTEGER, CHAR))
        else:
            self.literal(type_, kind, content)

    def row(self, args, fields, ellipsis):
        """Arguments with the types of their fields; "arguments equal fields, or do not exceed them with an ellipsis"."""
        if ellipsis == ABSENT:
            hold(len(args) == len(fields))
            return list(zip(args, fields))
        hold(len(args) <= len(fields))
        behind = max(0, len(args) - ellipsis)
        return list(zip(args[:ellipsis], fields)) + list(zip(args[ellipsis:], fields[len(fields) - behind:]))

    def below(self, p):
        """The subpatterns directly below, each with the type of its place, but rests; the conditions on p itself hold.

        A subpattern whose place has no type, as a field that is not there, does not fit.
        """
        kind, type_, _, a, b, c, d = self.m.patterns[p]
        sort, first, count = self.m.types[type_][:3]
        if kind == TUPLE:
            return self.row(self.words(a, b), self.words(first, count) if sort == TUPLE_TYPE else [], c)
        if kind == OR:
            hold(b > 0)
            return [(q, type_) for q in self.words(a, b)]
        if kind == RECORD:
            pairs = self.words(a, 2 * b)
            numbers, fields = pairs[::2], self.variant_fields(type_, c)
            hold(len(set(numbers)) == len(numbers) and all(i < len(fields) for i in numbers))
            return [(q, fields[i]) for i, q in zip(numbers, pairs[1::2])]
        if kind == TUPLE_STRUCT:
            return self.row(self.words(a, b), self.variant_fields(type_, d), c)
        if kind == REF:
            hold(sort == REFERENCE)
            return [(a, first)]
        if kind == BIND:
            return [] if b == ABSENT else [(b, type_)]
        if kind == SLICE:
            hold(sort in (ARRAY, SLICE_TYPE) or b + c == 0)
            if sort == ARRAY:
                hold(b + c == count if d == ABSENT else b + c <= count)
            if d != ABSENT:
                self.rest(d)
            return [(q, first) for q in self.words(a, b + c)]
        self.leaf(kind, type_, a, b)
        return []

    def rest(self, r):
        """"a rest is Rest, Wild or Bind over Rest, its type and derefs not looked at"."""
        kind, _, _, _, below, _, _ = self.m.patterns[r]
        hold(kind in (REST, WILD) or kind == BIND and below != ABSENT and self.m.patterns[below][0] == REST)

    def leaf(self, kind, type_, a, b):
        """What has no subpattern."""
        if kind == RANGE:
            hold((a, b) != (ABSENT, ABSENT))
            for end in (a, b):
                if end != ABSENT:
                    self.range_end(type_, end)
        elif kind == LIT:
            self.literal(type_, *self.operand(a))
        elif kind == PATH and a == NAMES_VARIANT:
            self.variant_fields(type_, b)
        elif kind == PATH and a == NAMES_CONSTANT:
            self.constant(type_, self.operand(b)[1], (INTEGER, CHAR, BOOL))

    def types(self, p, place):
        """"its type is, by number, the place's after its derefs"; "derefs cross references"."""
        for _ in range(self.m.patterns[p][2]):
            kind, target = self.m.types[place][:2]
            hold(kind == REFERENCE)
            place = target
        hold(self.m.patterns[p][1] == place)
        for q, type_ in self.below(p):
            self.types(q, type_)

    def bound(self, p):
        """Each binding of a pattern with its type; one "stands twice only in different alternatives of one Or"."""
        kind, type_, _, a, b, c, d = self.m.patterns[p]
        parts = [self.bound(q) for q, _ in self.below(p)]
        if kind == OR:
            hold(all(part == parts[0] for part in parts))
            return parts[0]
        if kind == BIND:
            parts.append({a: type_})
        if kind == SLICE and d != ABSENT and self.m.patterns[d][0] == BIND:
            sort, element, length = self.m.types[type_][:3]
            parts.append({self.m.patterns[d][3]: type_ if sort == SLICE_TYPE else ("array", element, length - b - c)})
        together = {}
        for part in parts:
            hold(not together.keys() & part.keys())
            together.update(part)
        return together

    def can_fail(self, p):
        """"An Or can fail if all alternatives can, others if they have a test or, directly below, a reached pattern that can."."""
        kind, type_, _, a, b, _, _ = self.m.patterns[p]
        below = [self.can_fail(q) for q, _ in self.below(p)]
        if kind == OR:
            return all(below)
        test = kind in (LIT, RANGE) or kind == SLICE and self.m.types[type_][0] == SLICE_TYPE
        test = test or kind == PATH and a == NAMES_CONSTANT
        test = test or (kind in (RECORD, TUPLE_STRUCT) or kind == PATH and a == NAMES_VARIANT) and self.is_enum(type_)
        return test or any(below)

    def reached(self, p):
        """"nothing refused as 3 to 10 or 13 is reached"; what the conditions above shut out is not asked again."""
        kind, type_, _, a, b, c, d = self.m.patterns[p]
        hold(kind not in REFUSED)
        hold(kind != PATH or a in (NAMES_VARIANT, NAMES_CONSTANT))
        hold(kind != TUPLE or self.m.types[type_][0] == TUPLE_TYPE)
        hold(kind != SLICE or self.m.types[type_][0] in (ARRAY, SLICE_TYPE))
        hold(kind not in (TUPLE, TUPLE_STRUCT) or c == ABSENT or c <= b)
        if kind in (RECORD, TUPLE_STRUCT) or kind == PATH and a == NAMES_VARIANT:
            v = {RECORD: c, TUPLE_STRUCT: d, PATH: b}[kind]
            hold(v in self.adt_variants(type_) and self.m.types[type_][3] != UNION)
        hold(kind != BIND or self.locals[a] != ABSENT)
        if kind == SLICE and d != ABSENT and self.m.patterns[d][0] == BIND:
            hold(self.locals[self.m.patterns[d][3]] != ABSENT)
        for q, _ in self.below(p):
            self.reached(q)
            if kind == OR and not self.can_fail(q):
                break


def fits(m, p, type_, root, locals_):
    """Whether all conditions hold."""
    fit = Fit(m, locals_)
    there = [local for local in (root, *locals_) if local != ABSENT]
    try:
        fit.types(p, type_)
        fit.bound(p)
        fit.reached(p)
    except Misfit:
        return False
    return len(set(there)) == len(there)
