"""Images in a short notation: a place's type, the bindings' types, and a pattern.

A type is `u8`, `i8`, `u16`, `bool`, `char` or `str`, or a tuple that begins with `tuple`,
`struct`, `union`, `enum`, `ref`, `array` or `slice`. A struct or a union has its fields; an
enum has a pair for each variant, its discriminant and its fields. A pattern is made by one of
the functions below; a type's equal notations are one type of the image.
"""

from images import (
    ABSENT, ARRAY, BIND, BOOL, BOOLEAN, CHAR, CHARACTER, CONSTANT, ENUM, INT, INTEGER, LIT,
    NAMES_CONSTANT, NAMES_VARIANT, OR, PATH, RANGE, RECORD, REF, REFERENCE, REST, SLICE,
    SLICE_TYPE, STR, STRING, STRUCT, TUPLE, TUPLE_STRUCT, UNION, WILD, Image,
)

SCALARS = {"u8": (INTEGER, 1), "i8": (INTEGER, 1, 1), "u16": (INTEGER, 2), "bool": (BOOL,),
           "char": (CHAR,), "str": (STR,)}
ADTS = {"struct": STRUCT, "union": UNION, "enum": ENUM}


class Sketch(Image):
    """An image under way: `numbers` has the number of each type written so far."""

    def __init__(self):
        super().__init__()
        self.numbers = {}

    def type(self, written):
        """The number of a type, which is added where it is new."""
        if written not in self.numbers:
            self.numbers[written] = self.new_type(written)
        return self.numbers[written]

    def new_type(self, written):
        if isinstance(written, str):
            return self.add_type(*SCALARS[written], copy=0 if written == "str" else 1)
        word, *parts = written
        if word == "tuple":
            return self.add_tuple_type(*map(self.type, parts))
        if word in ADTS:
            variants = parts if word == "enum" else [(0, *parts)]
            fields = [list(map(self.type, variant[1:])) for variant in variants]
            first = [self.add_variant(of, variant[0]) for of, variant in zip(fields, variants)][0]
            return self.add_adt(ADTS[word], first, len(variants))
        if word == "array":
            return self.add_type(ARRAY, self.type(parts[0]), parts[1])
        kind = REFERENCE if word == "ref" else SLICE_TYPE
        return self.add_type(kind, self.type(parts[0]), copy=1 if word == "ref" else 0)

    def variant(self, written, number):
        """The number in the table of a type's variant."""
        return self.types[self.type(written)][1] + number

    def operand(self, value):
        """Where an operand stands: an integer, bool, char or string, or a kind and bytes."""
        if value is None:
            return ABSENT
        if isinstance(value, bool):
            return self.add_operand(BOOLEAN, bytes([value]))
        if isinstance(value, int):
            return self.add_integer(value, INT)
        if isinstance(value, str):
            return self.add_operand(CHARACTER, ord(value).to_bytes(4, "little"))
        if isinstance(value, bytes):
            return self.add_operand(STRING, value)
        return self.add_operand(*value)


def const(*content):
    """An evaluated constant's bytes."""
    return CONSTANT, bytes(content)


def leaf(kind, type_, derefs=0):
    """A pattern without parts."""
    return lambda m: m.add_pattern(kind, m.type(type_), derefs=derefs)


def wild(type_, derefs=0):
    """`_`"""
    return leaf(WILD, type_, derefs)


def rest(type_, derefs=0):
    """`..`"""
    return leaf(REST, type_, derefs)


def lit(type_, value, derefs=0):
    """A literal."""
    return lambda m: m.add_pattern(LIT, m.type(type_), m.operand(value), derefs=derefs)


def span(type_, start, end, half_open=False):
    """A range; an end may be absent."""
    return lambda m: m.add_pattern(RANGE, m.type(type_), m.operand(start), m.operand(end),
                                   int(half_open))


def constant(type_, *content):
    """A path to a constant."""
    return lambda m: m.add_pattern(PATH, m.type(type_), NAMES_CONSTANT, m.operand(const(*content)))


def unit(type_, variant):
    """A path to a variant."""
    return lambda m: m.add_pattern(PATH, m.type(type_), NAMES_VARIANT, m.variant(type_, variant))


def path(type_, kind, names=0):
    """A path of a kind that names nothing here, or a number of the table."""
    return lambda m: m.add_pattern(PATH, m.type(type_), kind, names)


def bind(type_, binding, over=None, mode=0):
    """A binding, over a pattern or none; modes as in the image."""
    return lambda m: m.add_pattern(BIND, m.type(type_), binding,
                                   ABSENT if over is None else over(m), mode)


def refer(type_, inner, derefs=0):
    """`&inner`"""
    return lambda m: m.add_pattern(REF, m.type(type_), inner(m), derefs=derefs)


def row(type_, *args, dots=None, derefs=0):
    """A tuple pattern; `dots` is where its ellipsis stands."""
    def add(m):
        parts = [arg(m) for arg in args]
        return m.add_pattern(TUPLE, m.type(type_), m.add_words(*parts), len(parts),
                             ABSENT if dots is None else dots, derefs=derefs)
    return add


def either(type_, *alternatives):
    """An Or."""
    def add(m):
        parts = [alternative(m) for alternative in alternatives]
        return m.add_pattern(OR, m.type(type_), m.add_words(*parts), len(parts))
    return add


def fields(type_, variant, *pairs):
    """A record pattern: fields by their numbers."""
    def add(m):
        words = []
        for field, arg in pairs:
            words += [ABSENT if field is None else field, arg(m)]
        return m.add_pattern(RECORD, m.type(type_), m.add_words(*words), len(pairs),
                             m.variant(type_, variant))
    return add


def fields_of(type_, variant, *args, dots=None):
    """A tuple struct pattern."""
    def add(m):
        parts = [arg(m) for arg in args]
        return m.add_pattern(TUPLE_STRUCT, m.type(type_), m.add_words(*parts), len(parts),
                             ABSENT if dots is None else dots, m.variant(type_, variant))
    return add


def items(type_, *front, dots=None, back=()):
    """A slice pattern: items in front, a rest or none, items at the end."""
    def add(m):
        words = [item(m) for item in (*front, *back)]
        middle = ABSENT if dots is None else dots(m)
        return m.add_pattern(SLICE, m.type(type_), m.add_words(*words), len(front), len(back),
                             middle)
    return add


def sketch(place, bindings, pattern):
    """The image, with the place's type 0."""
    m = Sketch()
    m.place = m.type(place)
    for type_ in bindings:
        m.add_binding(m.type(type_))
    pattern(m)
    return m
