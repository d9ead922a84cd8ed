"""Builds a body as lower.rs and mir.rs do: blocks, statements, temporaries, constants.

A place is a local and a tuple of elements. Elements, statements, values and terminators
are tuples whose first part is their word in the listing; a constant is `const`, its
bytes, its type and, for a string, offset and count of its bytes in the image's data.
"""

from images import (
    ABSENT, ADT, ARRAY, BYTE_STRING, CONSTANT, C_STRING, ENUM, FLOAT, INT, INTEGER, OTHER,
    REFERENCE, SLICE_TYPE, STRING, TUPLE_TYPE, UINT,
)

MOST_BLOCKS, MOST_STATEMENTS, MOST_LOCALS, MOST_ENTRIES = 512, 1024, 512, 1024
MOST_ELEMENTS = 16


class Refused(Exception):
    """A refusal: number, pattern, reason."""

    def __init__(self, number, pattern=ABSENT, reason=0):
        super().__init__(number, pattern, reason)
        self.numbers = (number, pattern, reason)


class Body:
    """What a lowering starts with and adds to.

    `statements` has a list for each block, `created` all in the order they were made,
    each with its block; `locals` has type numbers or words; `scopes` has a list of
    locals for each open scope; `visited` has the patterns in the order of their visits.
    `then` and `other` are the start and the supplied else, later the blocks returned.
    """

    def __init__(self, m, place_type, binding_locals=None, scopes=1, supplied=False):
        self.locals = [place_type] + [type_ for type_, _ in m.bindings]
        self.binding_locals = (list(range(1, len(self.locals)))
                               if binding_locals is None else binding_locals)
        self.scopes = [[] for _ in range(scopes)]
        self.then, self.other, self.refusal = 0, 1 if supplied else None, None
        self.terminators, self.created = [None] * (1 + supplied), []
        self.statements = [[] for _ in self.terminators]
        self.visits, self.visited = [0] * len(m.patterns), []

    def entries(self):
        """How many locals stand in all scopes together."""
        return sum(len(scope) for scope in self.scopes)

    def holds(self, local):
        """An open scope holds the local."""
        return any(local in scope for scope in self.scopes)


def type_behind(m, type_, element, variant):
    """The type behind one element and the variant that a Downcast leaves, or None.

    A part of an array is `part` and the type of its elements.
    """
    word = element[0]
    if isinstance(type_, str):
        return None
    if isinstance(type_, tuple):
        return {"i": (type_[1], None), "e": (type_[1], None), "s": (type_, None)}.get(word)
    kind, a, b, c, _ = m.types[type_]
    if word == "v":
        return (type_, element[1]) if variant is None and kind == ADT and c == ENUM \
            and a <= element[1] < a + b else None
    if word == "f":
        if kind == ADT and (c == ENUM) == (variant is not None):
            a, b, _ = m.variants[a if variant is None else variant]
        elif kind != TUPLE_TYPE:
            return None
        return (m.list[a + element[1]], None) if element[1] < b else None
    if variant is not None:
        return None
    if word == "deref":
        return (a, None) if kind == REFERENCE else None
    if kind not in (ARRAY, SLICE_TYPE):
        return None
    if word == "s":
        return (type_, None) if kind == SLICE_TYPE else (("part", a), None)
    return a, None


class Builder:
    """MirLowerCtx below the patterns. `p` is the pattern being visited."""

    def __init__(self, m, body):
        self.m, self.body = m, body

    def new_block(self, p):
        if len(self.body.terminators) == MOST_BLOCKS:
            raise Refused(11, p)
        self.body.terminators.append(None)
        self.body.statements.append([])
        return len(self.body.terminators) - 1

    def new_unless(self, other, p):
        """The else there is, or a new one."""
        return self.new_block(p) if other is None else other

    def end(self, block, *terminator):
        assert self.body.terminators[block] is None, "the Rust overwrites a terminator"
        self.body.terminators[block] = terminator

    def push(self, block, statement, p):
        if len(self.body.created) == MOST_STATEMENTS:
            raise Refused(11, p)
        self.body.statements[block].append(statement)
        self.body.created.append((block, statement))

    def set(self, block, local, value, p):
        self.push(block, ("set", local, value), p)

    def live(self, local, block, p):
        """push_storage_live_for_local, as document 02 has it: no second entry of a local."""
        if not self.body.scopes:
            raise Refused(14, p)
        if not self.body.holds(local):
            if self.body.entries() == MOST_ENTRIES:
                raise Refused(11, p)
            self.body.scopes[-1].append(local)
        self.push(block, ("live", local), p)

    def temp(self, type_, block, p):
        if isinstance(type_, int) and self.m.types[type_][0] == SLICE_TYPE:
            raise Refused(8, p)
        if len(self.body.locals) == MOST_LOCALS:
            raise Refused(11, p)
        self.body.locals.append(type_)
        local = len(self.body.locals) - 1
        self.live(local, block, p)
        return local

    def discr_temp(self, block, p):
        """discr_temp_place, as document 02 has it: a local of its own for each test."""
        return self.temp("i128", block, p)

    def binding_local(self, binding, asker):
        local = self.body.binding_locals[binding]
        if local is None:
            raise Refused(9, asker)
        return local

    def project(self, place, p, *elements):
        local, before = place
        if len(before) + len(elements) > MOST_ELEMENTS:
            raise Refused(11, p)
        return local, before + elements

    def place_row(self, place, p):
        """The row of a place's type, of zeros where that has no number; 12 where an element does not apply."""
        state = self.body.locals[place[0]], None
        for element in place[1]:
            state = type_behind(self.m, state[0], element, state[1])
            if state is None:
                raise Refused(12, p)
        return self.m.types[state[0]] if isinstance(state[0], int) else [0] * 5

    def literal(self, p, start):
        """lower_literal_to_operand"""
        kind, offset, count = self.m.list[start:start + 3]
        type_ = self.m.patterns[p][1]
        if kind in (STRING, C_STRING, BYTE_STRING):
            length = count + (kind == C_STRING)
            return "const", bytes(8) + length.to_bytes(8, "little"), type_, (offset, count)
        if kind == FLOAT:
            raise Refused(6, p)
        if kind in (INT, UINT):
            if self.m.types[type_][0] != INTEGER:
                raise Refused(6, p)
            count = self.m.types[type_][1]
        return "const", bytes(self.m.data[offset:offset + count]), type_, None

    def constant(self, p, start):
        """lower_const_to_operand"""
        _, offset, count = self.m.list[start:start + 3]
        return ("const", bytes(self.m.data[offset:offset + count]),
                self.m.patterns[p][1], None)

    def literal_or_const(self, p, start):
        kind = self.m.list[start]
        if kind == OTHER:
            raise Refused(6, p)
        return self.constant(p, start) if kind == CONSTANT else self.literal(p, start)
