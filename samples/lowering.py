"""Judges listings: lowers a pattern as the Rust does, and prints what document 01 says.

Written from pattern_matching.rs and from the documents alone, so that the project's own
definitions have something to differ from. The end of a half-open range, the offsets of
suffix items, one entry for each local and a discriminant local for each test are document
02's. `listing` takes the bytes of an image, `lower` and `assign` a decoded image and a
pattern.

`python3 samples/lowering.py FILE` prints the listing of an image file, or of standard
input if no file is named.
"""

import sys
from pathlib import Path

sys.dont_write_bytecode = True

from builder import Body, Builder, Refused
from images import (
    ABSENT, ADT, ARRAY, BIND, CONSTANT, ENUM, NAMES_BINDING, NAMES_CONSTANT, NAMES_VARIANT,
    OTHER, REFERENCE, SLICE_TYPE, TUPLE_TYPE, UNION, UNRESOLVED, broken, decode,
)

CHECK, BIND_MODE, ASSIGN = "check", "bind", "assign"
# The word c of a range that leaves out its end; with any other it is closed.
HALF_OPEN = 1
VALUE_WORDS = ("copy", "ref", "mut")
# A pattern may lie 512 deep, and each level takes up to four calls.
sys.setrecursionlimit(20_000)


class Walk(Builder):
    """The methods of pattern_matching.rs. `other` is the Rust's current_else."""

    def match(self, place, p):
        """pattern_match"""
        current, other = self.inner(self.body.then, self.body.other, place, p, CHECK)
        return self.inner(current, other, place, p, BIND_MODE)

    def assign(self, place, p):
        """pattern_match_assignment; the else is left out"""
        return self.inner(self.body.then, None, place, p, ASSIGN)[0], None

    def self_param(self, binding, local):
        """match_self_param"""
        self.fill(binding, ABSENT, "copy", (local, ()), self.body.then, ABSENT)
        return self.body.then, None

    def inner(self, current, other, place, p, mode):
        """pattern_match_inner"""
        self.body.visits[p] += 1
        self.body.visited.append(p)
        kind, _, derefs = self.m.patterns[p][:3]
        place = self.project(place, p, *[("deref",)] * derefs)
        return KINDS[kind](self, current, other, place, p, mode)

    def incomplete(self, current, other, place, p, mode):
        raise Refused(3, p)

    def wild(self, current, other, place, p, mode):
        return current, other

    def not_supported(self, current, other, place, p, mode):
        raise Refused(6, p)

    def expr(self, current, other, place, p, mode):
        raise Refused(10, p)

    def tuple(self, current, other, place, p, mode):
        _, _, _, a, b, c, _ = self.m.patterns[p]
        kind, _, fields, _, _ = self.place_row(place, p)
        if kind != TUPLE_TYPE:
            raise Refused(4, p, 1)
        pairs = tuple_like(p, self.m.list[a:a + b], c, fields)
        return self.adt(current, other, pairs, place, p, mode)

    def or_(self, current, other, place, p, mode):
        _, _, _, a, b, _, _ = self.m.patterns[p]
        then = self.new_block(p)
        for item in self.m.list[a:a + b]:
            following, item_else = self.inner(current, None, place, item, CHECK)
            if mode != CHECK:
                following, _ = self.inner(following, None, place, item, mode)
            self.end(following, "goto", then)
            if item_else is None:
                return then, other
            current = item_else
        if mode == CHECK:
            other = self.new_unless(other, p)
            self.end(current, "goto", other)
        else:
            self.end(current, "unreachable")
        return then, other

    def record(self, current, other, place, p, mode):
        _, _, _, a, b, v, _ = self.m.patterns[p]

        def pairs(fields):
            words = self.m.list[a:a + 2 * b]
            if any(field >= fields for field in words[::2]):
                raise Refused(5, p)
            return list(zip(words[::2], words[1::2]))
        return self.variant(current, other, place, p, mode, v, pairs)

    def tuple_struct(self, current, other, place, p, mode):
        _, _, _, a, b, c, v = self.m.patterns[p]

        def pairs(fields):
            return tuple_like(p, self.m.list[a:a + b], c, fields)
        return self.variant(current, other, place, p, mode, v, pairs)

    def compare(self, word, left, place, block, p):
        """A new bool that holds the comparison of an operand with a place."""
        local = self.temp("bool", block, p)
        self.set(block, local, (word, left, ("copy", place)), p)
        return local

    def range(self, current, other, place, p, mode):
        _, _, _, a, b, c, _ = self.m.patterns[p]
        end = "gt" if c == HALF_OPEN else "ge"
        for start, word in ((a, "le"), (b, end)) if mode == CHECK else ():
            if start == ABSENT:
                continue
            constant = self.literal_or_const(p, start)
            other = self.new_unless(other, p)
            following = self.new_block(p)
            local = self.compare(word, constant, place, current, p)
            self.end(current, "switch", local, 1, following, other)
            current = following
        return current, other

    def slice(self, current, other, place, p, mode):
        _, type_, _, a, b, c, d = self.m.patterns[p]
        kind = self.m.types[type_][0]
        if kind not in (ARRAY, SLICE_TYPE):
            raise Refused(4, p, 2)
        if mode == CHECK and kind == SLICE_TYPE:
            current, other = self.length_test(current, other, place, p)
        for number, item in enumerate(self.m.list[a:a + b]):
            at = self.project(place, p, ("i", number))
            current, other = self.inner(current, other, at, item, mode)
        if d != ABSENT and mode != CHECK and self.m.patterns[d][0] == BIND:
            at = self.project(place, p, ("s", b, c))
            self.binding(d, at, current, p)
        for number, item in enumerate(self.m.list[a + b:a + b + c]):
            at = self.project(place, p, ("e", c - 1 - number))
            current, other = self.inner(current, other, at, item, mode)
        return current, other

    def length_test(self, current, other, place, p):
        """The run-time check of a slice's length."""
        _, _, _, _, b, c, d = self.m.patterns[p]
        length = self.temp("usize", current, p)
        self.set(current, length, ("len", place), p)
        other = self.new_unless(other, p)
        following = self.new_block(p)
        if d == ABSENT:
            self.end(current, "switch", length, b + c, following, other)
        else:
            constant = "const", (b + c).to_bytes(8, "little"), "usize", None
            local = self.compare("le", constant, (length, ()), current, p)
            self.end(current, "switch", local, 1, following, other)
        return following, other

    def path(self, current, other, place, p, mode):
        _, _, _, a, b, _, _ = self.m.patterns[p]
        if a == NAMES_VARIANT:
            return self.variant(current, other, place, p, mode, b, lambda fields: [])
        if a == UNRESOLVED:
            raise Refused(13, p)
        if a == NAMES_BINDING and mode == ASSIGN:
            self.set(current, self.binding_local(b, p), ("copy", place), p)
            return current, other
        if mode != CHECK:
            return current, other
        if a != NAMES_CONSTANT:
            raise Refused(6, p)
        local = self.temp(self.m.patterns[p][1], current, p)
        self.set(current, local, self.constant(p, b), p)
        answer = self.compare("eq", ("copy", (local, ())), place, current, p)
        return self.branch(current, other, answer, 1, p)

    def branch(self, current, other, local, value, p):
        """A switch to a new block or else to the else, which is asked for second."""
        following = self.new_block(p)
        other = self.new_unless(other, p)
        self.end(current, "switch", local, value, following, other)
        return following, other

    def lit(self, current, other, place, p, mode):
        start = self.m.patterns[p][3]
        if self.m.list[start] in (CONSTANT, OTHER):
            raise Refused(6, p)
        if mode != CHECK:
            return current, other
        constant = self.literal(p, start)
        then = self.new_block(p)
        other = self.new_unless(other, p)
        local = self.compare("eq", constant, place, current, p)
        self.end(current, "switch", local, 1, then, other)
        return then, other

    def bind(self, current, other, place, p, mode):
        subpattern = self.m.patterns[p][4]
        if subpattern != ABSENT:
            current, other = self.inner(current, other, place, subpattern, mode)
        if mode != CHECK:
            self.binding(p, place, current, p)
        return current, other

    def binding(self, asker, place, current, p):
        """pattern_match_binding, for the Bind `asker`: the visited pattern or its rest."""
        _, _, _, a, _, c, _ = self.m.patterns[asker]
        self.fill(a, asker, VALUE_WORDS[c], place, current, p)

    def fill(self, binding, asker, word, place, current, p):
        """A binding's local is live, and is set to what the word makes of a place."""
        local = self.binding_local(binding, asker)
        self.live(local, current, p)
        self.set(current, local, (word, place), p)

    def ref(self, current, other, place, p, mode):
        if self.place_row(place, p)[0] != REFERENCE:
            raise Refused(4, p, 3)
        at = self.project(place, p, ("deref",))
        return self.inner(current, other, at, self.m.patterns[p][3], mode)

    def variant(self, current, other, place, p, mode, v, pairs):
        """pattern_matching_variant; `pairs` makes field and pattern from a field count."""
        if v == ABSENT:
            raise Refused(6, p)
        kind, a, b, c, _ = self.place_row(place, p)
        if kind != ADT:
            raise Refused(4, p, 4)
        if not a <= v < a + b:
            raise Refused(4, p, 5)
        if c == UNION:
            raise Refused(4, p, 6)
        _, fields, offset = self.m.variants[v]
        if c == ENUM:
            if mode == CHECK:
                local = self.discr_temp(current, p)
                self.set(current, local, ("discr", place), p)
                value = int.from_bytes(self.m.data[offset:offset + 16], "little")
                current, other = self.branch(current, other, local, value, p)
            place = self.project(place, p, ("v", v))
        return self.adt(current, other, pairs(fields), place, p, mode)

    def adt(self, current, other, pairs, place, p, mode):
        """pattern_match_adt"""
        for field, item in pairs:
            at = self.project(place, p, ("f", field))
            current, other = self.inner(current, other, at, item, mode)
        return current, other


def tuple_like(p, args, ellipsis, fields):
    """pattern_match_tuple_like: fields and patterns in the order of their visits."""
    split = len(args) if ellipsis == ABSENT else ellipsis
    if split > len(args):
        raise Refused(7, p)
    front = zip(range(fields), args[:split])
    back = zip(reversed(range(fields)), reversed(args[split:]))
    return [*front, *back]


# By the kind's number.
KINDS = (Walk.incomplete, Walk.incomplete, Walk.incomplete, Walk.wild, Walk.tuple, Walk.or_,
         Walk.record, Walk.range, Walk.slice, Walk.path, Walk.lit, Walk.bind,
         Walk.tuple_struct, Walk.ref, Walk.expr, Walk.not_supported, Walk.not_supported)


def root_type(m, p):
    """The lowest-numbered type that a pattern's derefs bring to its type, or None."""
    _, wanted, derefs = m.patterns[p][:3]
    for first in range(len(m.types)):
        type_ = first
        for _ in range(derefs):
            kind, a = m.types[type_][:2] if type_ is not None else (0, 0)
            type_ = a if kind == REFERENCE else None
        if type_ == wanted:
            return first
    return None


def run(m, p, call, place_type, handed):
    """The body after a call; its `refusal` has the three numbers if it was refused."""
    place_type = root_type(m, p) if place_type is None else place_type
    body = Body(m, place_type, **handed)
    if place_type is None:
        body.refusal = (2, ABSENT, 0)
        return body
    try:
        body.then, body.other = call(Walk(m, body))
    except Refused as refused:
        body.refusal = refused.numbers
    return body


def lower(m, p, place_type=None, **handed):
    """pattern_match from block 0 with local 0 as the place, no else, one scope open.

    Without a place type it is the listing program's. `handed` may give binding_locals,
    None for a binding without a local; the number of open scopes; supplied=True, block 1
    as the else.
    """
    return run(m, p, lambda walk: walk.match((0, ()), p), place_type, handed)


def assign(m, p, place_type=None, **handed):
    """pattern_match_assignment, from the same start."""
    return run(m, p, lambda walk: walk.assign((0, ()), p), place_type, handed)


def place_text(place):
    """A place as the listing has it."""
    local, elements = place
    return str(local) + "".join(
        "." + element[0] + "-".join(str(number) for number in element[1:])
        for element in elements)


def value_text(value):
    """What is set, or an operand of it."""
    if value[0] == "const":
        return value[1].hex()
    if value[0] in ("eq", "le", "ge", "gt"):
        return " ".join((value[0], value_text(value[1]), value_text(value[2])))
    return f"{value[0]} {place_text(value[1])}"


def statement_text(statement):
    """A statement as the listing has it."""
    if statement[0] == "set":
        return f"set {statement[1]} {value_text(statement[2])}"
    return f"{statement[0]} {statement[1]}"


def terminator_text(terminator):
    """A terminator as the listing has it; of a switch the value is hexadecimal."""
    if terminator is None:
        return "open"
    if terminator[0] == "switch":
        _, local, value, then, other = terminator
        return f"switch {local} {value:x} {then} {other}"
    return " ".join(str(part) for part in terminator)


def body_lines(body):
    """The lines of the listing of a body or of its refusal."""
    if body.refusal:
        yield "refused {} {} {}".format(*body.refusal)
        return
    yield f"then {body.then} else {'-' if body.other is None else body.other}"
    for number, type_ in enumerate(body.locals):
        yield f"local {number} " + (f"t{type_}" if isinstance(type_, int) else type_)
    for number, terminator in enumerate(body.terminators):
        yield f"bb {number}"
        yield from map(statement_text, body.statements[number])
        yield terminator_text(terminator)


def listing(image):
    """What the listing program prints for the bytes of an image."""
    if broken(image):
        return "refused 1 65535 0\n"
    m = decode(image)
    return "".join(line + "\n" for line in body_lines(lower(m, len(m.patterns) - 1)))


def main():
    """Prints the listing of a file or of standard input."""
    if len(sys.argv) > 1:
        image = Path(sys.argv[1]).read_bytes()
    else:
        image = sys.stdin.buffer.read()
    print(listing(image), end="")


if __name__ == "__main__":
    main()
