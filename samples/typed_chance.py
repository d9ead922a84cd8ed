"""Random images whose patterns mostly follow their types, so that most are accepted."""

from images import (
    ABSENT, ADT, ARRAY, BIND, BOOL, BOOLEAN, CHAR, CHARACTER, CONSTANT, ENUM, INTEGER, LIT,
    NAMES_CONSTANT, NAMES_VARIANT, OR, PATH, RANGE, RECORD, REF, REFERENCE, REST, SLICE,
    SLICE_TYPE, STR, STRING, STRUCT, TUPLE, TUPLE_STRUCT, TUPLE_TYPE, WILD, Image,
)

# Of so many patterns one has a type that is not looked at for fitting.
MISFITS = 25


def typed_types(m, rng, total):
    """Types that name lower ones only."""
    def some(most):
        return [rng.randrange(len(m.types)) for _ in range(rng.randint(0, most))]
    for kind in (INTEGER, BOOL, CHAR, STR):
        m.add_type(kind, rng.choice((1, 2, 4, 8, 16)), rng.randint(0, 1))
    for _ in range(total):
        kind = rng.choice((TUPLE_TYPE, ADT, ADT, ADT, REFERENCE, ARRAY, SLICE_TYPE))
        if kind == TUPLE_TYPE:
            m.add_tuple_type(*some(4))
        elif kind == ADT:
            c = rng.choice((STRUCT, ENUM, ENUM))
            numbers = [m.add_variant(some(3), number - 1)
                       for number in range(rng.randint(1, 3) if c == ENUM else 1)]
            m.add_adt(c, numbers[0], len(numbers))
        else:
            m.add_type(kind, rng.randrange(len(m.types)), rng.randint(0, 4))


class Maker:
    """Makes patterns for types, subpatterns first."""

    def __init__(self, m, rng):
        self.m, self.rng = m, rng

    def pattern(self, type_, depth):
        """The number of a new pattern for a place of a type."""
        rng = self.rng
        if rng.randrange(MISFITS) == 0:
            type_ = rng.randrange(len(self.m.types))
        derefs = 0
        while self.m.types[type_][0] == REFERENCE and rng.random() < 0.5:
            type_, derefs = self.m.types[type_][1], derefs + 1
        choice = rng.random()
        if depth == 0 or choice < 0.05:
            return self.m.add_pattern(WILD, type_, derefs=derefs)
        if choice < 0.3:
            count = rng.choice((0, 1, 2, 2, 2, 3))
            items = [self.pattern(type_, depth - 1) for _ in range(count)]
            row = OR, self.m.add_words(*items), len(items)
        elif choice < 0.45:
            inner = ABSENT if rng.random() < 0.3 else self.pattern(type_, depth - 1)
            binding = rng.randrange(len(self.m.bindings))
            row = BIND, binding, inner, rng.randint(0, 2), rng.randint(0, 1)
        else:
            row = self.shape(type_, depth - 1)
        return self.m.add_pattern(row[0], type_, *row[1:], derefs=derefs)

    def shape(self, type_, depth):
        """Kind and words of a pattern that looks into a type."""
        kind, a, b, c, _ = self.m.types[type_]
        if kind == TUPLE_TYPE:
            return TUPLE, *self.arguments(self.m.list[a:a + b], depth)
        if kind == ADT:
            return self.variant(self.rng.randrange(a, a + b), depth)
        if kind == REFERENCE and self.m.types[a][0] == STR:
            return LIT, self.m.add_operand(STRING, b"DNF")
        if kind == REFERENCE:
            return REF, self.pattern(a, depth)
        if kind in (ARRAY, SLICE_TYPE):
            return self.slice(type_, a, depth)
        if kind == STR:
            return WILD, 0
        return self.scalar(type_)

    def scalar(self, type_):
        """A literal, a range or a constant."""
        m, rng = self.m, self.rng
        kind, size = m.types[type_][:2]
        if kind == BOOL:
            return LIT, m.add_operand(BOOLEAN, bytes([rng.randint(0, 1)]))

        def operand():
            if kind == CHAR:
                return m.add_operand(CHARACTER, rng.randint(65, 90).to_bytes(4, "little"))
            return m.add_integer(rng.randint(0, 9))
        choice = rng.randrange(3)
        if choice == 0:
            return LIT, operand()
        if choice == 1:
            ends = rng.choice(((1, 1), (1, 0), (0, 1)))
            half_open = rng.randint(0, 1)
            return RANGE, *[operand() if end else ABSENT for end in ends], half_open
        size = 4 if kind == CHAR else size
        return PATH, NAMES_CONSTANT, m.add_operand(CONSTANT, bytes(size))

    def arguments(self, fields, depth):
        """List, count and ellipsis of arguments; some times there is one too many."""
        rng = self.rng
        count, ellipsis = len(fields), ABSENT
        if rng.random() < 0.4:
            count = rng.randint(0, len(fields))
            ellipsis = rng.randint(0, count)
        if rng.random() < 0.1:
            count += 1
        types = [fields[i % len(fields)] if fields else 0 for i in range(count)]
        if ellipsis != ABSENT and count <= len(fields):
            types = fields[:ellipsis] + fields[len(fields) - count + ellipsis:]
        items = [self.pattern(type_, depth) for type_ in types]
        return self.m.add_words(*items), count, ellipsis

    def variant(self, v, depth):
        """A path, a record or a tuple struct."""
        first, count, _ = self.m.variants[v]
        fields = self.m.list[first:first + count]
        choice = self.rng.randrange(3)
        if choice == 0:
            return PATH, NAMES_VARIANT, v
        if choice == 1:
            return TUPLE_STRUCT, *self.arguments(fields, depth), v
        named = [i for i in range(count) if self.rng.random() < 0.7]
        pairs = [(i, self.pattern(fields[i], depth)) for i in named]
        return RECORD, self.m.add_words(*[w for pair in pairs for w in pair]), len(pairs), v

    def slice(self, type_, element, depth):
        """A slice, half of them with a rest."""
        rng, rest = self.rng, ABSENT
        if rng.random() < 0.5:
            rest = self.m.add_pattern(REST, type_)
            if rng.random() < 0.5:
                binding = rng.randrange(len(self.m.bindings))
                rest = self.m.add_pattern(BIND, type_, binding, rest, rng.randint(0, 2))
        items = [self.pattern(element, depth) for _ in range(rng.randint(0, 3))]
        prefix = rng.randint(0, len(items))
        return SLICE, self.m.add_words(*items), prefix, len(items) - prefix, rest


def typed_image(rng):
    """An image of one tree within the limits, its root last."""
    while True:
        m = Image()
        typed_types(m, rng, rng.randint(4, 12))
        for _ in range(rng.randint(1, 4)):
            m.add_binding(rng.randrange(len(m.types)))
        Maker(m, rng).pattern(len(m.types) - 1, rng.randint(1, 6))
        if len(m.patterns) <= 512 and len(m.list) <= 2048 and len(m.data) <= 16384:
            return m
