"""The samples for reading. Each function's first line tells what its image holds."""

from images import (
    ABSENT, ARRAY, BIND, BOOL, CHAR, CHARACTER, CONSTANT, ENUM, INTEGER, LIT,
    NAMES_CONSTANT, NAMES_VARIANT, OR, PATH, RANGE, RECORD, REF, REFERENCE, REST, SLICE,
    SLICE_TYPE, STR, STRING, STRUCT, TUPLE, TUPLE_STRUCT, UINT, WILD, Image,
)

VALUE, BY_REF = 0, 1


def literal7():
    """`7` on u8."""
    m = Image()
    u8 = m.add_type(INTEGER, 1)
    m.add_pattern(LIT, u8, m.add_integer(7))
    return m


def or_1_2():
    """`1 | 2` on u8."""
    m = Image()
    u8 = m.add_type(INTEGER, 1)
    one = m.add_pattern(LIT, u8, m.add_integer(1))
    two = m.add_pattern(LIT, u8, m.add_integer(2))
    m.add_pattern(OR, u8, m.add_words(one, two), 2)
    return m


def range_():
    """`1u8..=3u8` on u8."""
    m = Image()
    u8 = m.add_type(INTEGER, 1)
    m.add_pattern(RANGE, u8, m.add_integer(1, UINT), m.add_integer(3, UINT))
    return m


def half_open():
    """`1..` on u8: a range without an end, its half-open flag set."""
    m = Image()
    u8 = m.add_type(INTEGER, 1)
    m.add_pattern(RANGE, u8, m.add_integer(1), ABSENT, 1)
    return m


def first_three():
    """`1..4` on u8: places one to three."""
    m = Image()
    u8 = m.add_type(INTEGER, 1)
    m.add_pattern(RANGE, u8, m.add_integer(1), m.add_integer(4), 1)
    return m


def char_range():
    """`'a'..='z'` on char."""
    m = Image()
    char = m.add_type(CHAR)
    start = m.add_operand(CHARACTER, ord("a").to_bytes(4, "little"))
    end = m.add_operand(CHARACTER, ord("z").to_bytes(4, "little"))
    m.add_pattern(RANGE, char, start, end)
    return m


def negative():
    """`-1` on i8: an Int of 16 bytes, all 255."""
    m = Image()
    i8 = m.add_type(INTEGER, 1, 1)
    m.add_pattern(LIT, i8, m.add_integer(-1))
    return m


def string():
    """`"RET"` on &str."""
    m = Image()
    str_ = m.add_type(STR, copy=0)
    reference = m.add_type(REFERENCE, str_)
    m.add_pattern(LIT, reference, m.add_operand(STRING, b"RET"))
    return m


def constant():
    """A path to the constant 5 on u8."""
    m = Image()
    u8 = m.add_type(INTEGER, 1)
    m.add_pattern(PATH, u8, NAMES_CONSTANT, m.add_operand(CONSTANT, bytes([5])))
    return m


def tuple_ellipsis():
    """`(a, .., b, c)` on a tuple of four u8."""
    m = Image()
    u8 = m.add_type(INTEGER, 1)
    boat = m.add_tuple_type(u8, u8, u8, u8)
    bindings = [m.add_binding(u8) for _ in "abc"]
    items = [m.add_pattern(BIND, u8, binding, ABSENT) for binding in bindings]
    m.add_pattern(TUPLE, boat, m.add_words(*items), 3, 1)
    return m


def slice_rest():
    """`[a, rest @ .., b]` on &[u8]: one deref, and three bindings by reference."""
    m = Image()
    u8 = m.add_type(INTEGER, 1)
    legs = m.add_type(SLICE_TYPE, u8, copy=0)
    reference = m.add_type(REFERENCE, u8)
    all_legs = m.add_type(REFERENCE, legs)
    a, rest, b = [m.add_binding(t) for t in (reference, all_legs, reference)]
    first = m.add_pattern(BIND, u8, a, ABSENT, BY_REF)
    dots = m.add_pattern(REST, legs)
    middle = m.add_pattern(BIND, legs, rest, dots, BY_REF)
    last = m.add_pattern(BIND, u8, b, ABSENT, BY_REF)
    m.add_pattern(SLICE, legs, m.add_words(first, last), 1, 1, middle, derefs=1)
    return m


def last_two():
    """`[.., a, b]` on [u8]: the last two races, b the last."""
    m = Image()
    u8 = m.add_type(INTEGER, 1)
    races = m.add_type(SLICE_TYPE, u8, copy=0)
    items = [m.add_pattern(BIND, u8, m.add_binding(u8), ABSENT) for _ in "ab"]
    dots = m.add_pattern(REST, races)
    m.add_pattern(SLICE, races, m.add_words(*items), 0, 2, dots)
    return m


def array():
    """`[a, _]` on [u8; 2]."""
    m = Image()
    u8 = m.add_type(INTEGER, 1)
    pair = m.add_type(ARRAY, u8, 2)
    first = m.add_pattern(BIND, u8, m.add_binding(u8), ABSENT)
    second = m.add_pattern(WILD, u8)
    m.add_pattern(SLICE, pair, m.add_words(first, second), 2, 0, ABSENT)
    return m


def finish_types(m):
    """u8, u16, u32 and the enum Finish; its variants are numbered from 0."""
    u8, u16, u32 = (m.add_type(INTEGER, size) for size in (1, 2, 4))
    finished = m.add_variant([u16, u32], 0)
    m.add_variant([], 1)
    m.add_variant([u8], 2)
    return u8, u16, u32, m.add_adt(ENUM, finished, 3)


FINISHED, RETIRED, DISQUALIFIED = range(3)


def enum_fields():
    """`Finished { place: 1, time: _ } | Disqualified(_)` on an enum of three variants."""
    m = Image()
    u8, u16, u32, finish = finish_types(m)
    place = m.add_pattern(LIT, u16, m.add_integer(1))
    time = m.add_pattern(WILD, u32)
    fields = m.add_words(0, place, 1, time)
    record = m.add_pattern(RECORD, finish, fields, 2, FINISHED)
    rule = m.add_pattern(WILD, u8)
    out = m.add_pattern(TUPLE_STRUCT, finish, m.add_words(rule), 1, ABSENT, DISQUALIFIED)
    m.add_pattern(OR, finish, m.add_words(record, out), 2)
    return m


def enum_unit():
    """A path to the variant without fields, `Retired`, on the same enum."""
    m = Image()
    _, _, _, finish = finish_types(m)
    m.add_pattern(PATH, finish, NAMES_VARIANT, RETIRED)
    return m


def struct_fields():
    """`Boat { sail: s, .. }` on a struct of two fields."""
    m = Image()
    u16 = m.add_type(INTEGER, 2)
    flag = m.add_type(BOOL)
    boat = m.add_adt(STRUCT, m.add_variant([u16, flag]), 1)
    sail = m.add_pattern(BIND, u16, m.add_binding(u16), ABSENT)
    m.add_pattern(RECORD, boat, m.add_words(0, sail), 1, 0)
    return m


def reference():
    """`&x` on &u8."""
    m = Image()
    u8 = m.add_type(INTEGER, 1)
    pointer = m.add_type(REFERENCE, u8)
    x = m.add_pattern(BIND, u8, m.add_binding(u8), ABSENT)
    m.add_pattern(REF, pointer, x)
    return m


def binding_sub():
    """`x @ 1..=3` on u8."""
    m = Image()
    u8 = m.add_type(INTEGER, 1)
    inner = m.add_pattern(RANGE, u8, m.add_integer(1), m.add_integer(3))
    m.add_pattern(BIND, u8, m.add_binding(u8), inner, VALUE)
    return m


def name_list():
    """`Entered(names) | Withdrawn(names)` on an enum of two variants: both bind a name list, which is not copy."""
    m = Image()
    u8 = m.add_type(INTEGER, 1)
    names = m.add_adt(STRUCT, m.add_variant([u8, u8]), 1, name="names")
    entered, withdrawn = m.add_variant([names], 0), m.add_variant([names], 1)
    crew = m.add_adt(ENUM, entered, 2, name="crew")
    bound = m.add_binding(names)

    def either(variant):
        item = m.add_pattern(BIND, names, bound, ABSENT)
        return m.add_pattern(TUPLE_STRUCT, crew, m.add_words(item), 1, ABSENT, variant)
    m.add_pattern(OR, crew, m.add_words(either(entered), either(withdrawn)), 2, name="either")
    return m


def damaged():
    """The first 60 bytes of enum_fields.img."""
    return enum_fields().encode()[:60]


def used_twice():
    """`(_, _)` on a tuple of two u8, with one pattern in both places."""
    m = Image()
    u8 = m.add_type(INTEGER, 1)
    pair = m.add_tuple_type(u8, u8)
    wild = m.add_pattern(WILD, u8)
    m.add_pattern(TUPLE, pair, m.add_words(wild, wild), 2, ABSENT)
    return m


SAMPLES = (literal7, or_1_2, range_, half_open, first_three, char_range, negative, string,
           constant, tuple_ellipsis, slice_rest, last_two, array, enum_fields, enum_unit,
           struct_fields, reference, binding_sub, name_list, damaged, used_twice)


def sample_files():
    """Name, what it holds and bytes of every sample."""
    for make in SAMPLES:
        made = make()
        image = made if isinstance(made, bytes) else made.encode()
        yield make.__name__.rstrip("_"), make.__doc__, image
