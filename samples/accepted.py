"""The corners of document 01 that are lowered, document 02's, and more of their kind.

Each function's first line tells what its image holds. `FIRST_LINES` has each with the
first line of its listing.
"""

from images import (
    ABSENT, ARRAY, BIND, CHAR, CHARACTER, CONSTANT, C_STRING, ENUM, INTEGER, LIT,
    NAMES_CONSTANT, NAMES_VARIANT, OR, PATH, RANGE, RECORD, REF, REFERENCE, REST, SLICE,
    SLICE_TYPE, STR, STRUCT, TUPLE, TUPLE_STRUCT, TUPLE_TYPE, WILD, Image,
)
from readable import (
    array, constant, first_three, half_open, last_two, literal7, or_1_2, range_, reference,
    string, tuple_ellipsis,
)
from refusals import SEVEN, many, option, with_tests, with_u8

VALUE, BY_REF, BY_MUT = range(3)


def wild():
    """`_` on u8."""
    m, u8 = with_u8()
    m.add_pattern(WILD, u8)
    return m


def wild_or_2():
    """`_ | 2` on u8."""
    m, u8 = with_u8()
    items = m.add_pattern(WILD, u8), m.add_pattern(LIT, u8, m.add_integer(2))
    m.add_pattern(OR, u8, m.add_words(*items), 2)
    return m


def or_none():
    """An Or of no alternatives on u8."""
    m, u8 = with_u8()
    m.add_pattern(OR, u8, 0, 0)
    return m


def slice_two():
    """`[a, _]` on [u8]."""
    m, u8 = with_u8()
    legs = m.add_type(SLICE_TYPE, u8, copy=0)
    items = m.add_pattern(BIND, u8, m.add_binding(u8), ABSENT), m.add_pattern(WILD, u8)
    m.add_pattern(SLICE, legs, m.add_words(*items), 2, 0, ABSENT)
    return m


def slice_any():
    """`[..]` on [u8]."""
    m, u8 = with_u8()
    legs = m.add_type(SLICE_TYPE, u8, copy=0)
    m.add_pattern(SLICE, legs, 0, 0, 0, m.add_pattern(REST, legs))
    return m


def ellipsis_2():
    """`(_, _, ..)` on a tuple of four u8: the ellipsis stands behind both arguments."""
    m, u8 = with_u8()
    boat = m.add_tuple_type(u8, u8, u8, u8)
    items = m.add_pattern(WILD, u8), m.add_pattern(WILD, u8)
    m.add_pattern(TUPLE, boat, m.add_words(*items), 2, 2)
    return m


def surplus():
    """`(_, 1, 2)` on a tuple of two u8: the last argument is dropped."""
    m, u8 = with_u8()
    pair = m.add_tuple_type(u8, u8)
    items = [m.add_pattern(WILD, u8)]
    items += [m.add_pattern(LIT, u8, m.add_integer(value)) for value in (1, 2)]
    m.add_pattern(TUPLE, pair, m.add_words(*items), 3, ABSENT)
    return m


def enum_twice():
    """`Some(_) | None`: two tests of discriminants, each with a local of its own."""
    m, u8, maybe, some, none = option()
    inner = m.add_pattern(WILD, u8)
    first = m.add_pattern(TUPLE_STRUCT, maybe, m.add_words(inner), 1, ABSENT, some)
    second = m.add_pattern(PATH, maybe, NAMES_VARIANT, none)
    m.add_pattern(OR, maybe, m.add_words(first, second), 2)
    return m


def bind_some():
    """`x @ Some(_)`."""
    m, u8, maybe, some, _ = option()
    inner = m.add_pattern(WILD, u8)
    item = m.add_pattern(TUPLE_STRUCT, maybe, m.add_words(inner), 1, ABSENT, some)
    m.add_pattern(BIND, maybe, m.add_binding(maybe), item, VALUE)
    return m


def nested_or():
    """`x @ (1 | (2 | 3))` on u8."""
    m, u8 = with_u8()
    one, two, three = [m.add_pattern(LIT, u8, m.add_integer(i)) for i in (1, 2, 3)]
    inner = m.add_pattern(OR, u8, m.add_words(two, three), 2)
    outer = m.add_pattern(OR, u8, m.add_words(one, inner), 2)
    m.add_pattern(BIND, u8, m.add_binding(u8), outer, VALUE)
    return m


def or_of_binds():
    """`(x, 1) | (2, x)`: one binding in both alternatives, once in its scope."""
    m, u8 = with_u8()
    pair, x = m.add_tuple_type(u8, u8), m.add_binding(u8)
    items = []
    for value in (1, 2):
        parts = [m.add_pattern(BIND, u8, x, ABSENT),
                 m.add_pattern(LIT, u8, m.add_integer(value))]
        parts = parts if value == 1 else parts[::-1]
        items.append(m.add_pattern(TUPLE, pair, m.add_words(*parts), 2, ABSENT))
    m.add_pattern(OR, pair, m.add_words(*items), 2)
    return m


def record():
    """`Boat { sail: 7, crew: ref mut c }`, the fields written last first."""
    m, u8 = with_u8()
    boat = m.add_adt(STRUCT, m.add_variant([u8, u8]), 1)
    crew = m.add_pattern(BIND, u8, m.add_binding(u8), ABSENT, BY_MUT)
    sail = m.add_pattern(LIT, u8, m.add_integer(7))
    m.add_pattern(RECORD, boat, m.add_words(1, crew, 0, sail), 2, 0)
    return m


def struct_ellipsis():
    """`Finished(1, .., t)` on an enum's variant of three fields, discriminant -1."""
    m, u8 = with_u8()
    finish = m.add_adt(ENUM, m.add_variant([u8, u8, u8], -1), 1)
    items = [m.add_pattern(LIT, u8, m.add_integer(1)),
             m.add_pattern(BIND, u8, m.add_binding(u8), ABSENT, BY_REF)]
    m.add_pattern(TUPLE_STRUCT, finish, m.add_words(*items), 2, 1, 0)
    return m


def c_string():
    """A CString of two bytes on a reference: its length counts the closing zero."""
    m = Image()
    pointer = m.add_type(REFERENCE, m.add_type(STR, copy=0))
    m.add_pattern(LIT, pointer, m.add_operand(C_STRING, b"OK"))
    return m


def half_open_end():
    """`1..3` on u8, its end a constant: the end is left out."""
    m, u8 = with_u8()
    end = m.add_operand(CONSTANT, bytes([3]))
    m.add_pattern(RANGE, u8, m.add_integer(1), end, 1)
    return m


def half_open_to():
    """`..-1` on i8: a half-open range without a start."""
    m = Image()
    i8 = m.add_type(INTEGER, 1, 1)
    m.add_pattern(RANGE, i8, ABSENT, m.add_integer(-1), 1)
    return m


def half_open_char():
    """`'a'..'d'` on char."""
    m = Image()
    char = m.add_type(CHAR)
    ends = [m.add_operand(CHARACTER, ord(end).to_bytes(4, "little")) for end in "ad"]
    m.add_pattern(RANGE, char, *ends, 1)
    return m


def half_open_nothing():
    """`3..3` on u8: a range that nothing is in."""
    m, u8 = with_u8()
    three = m.add_integer(3)
    m.add_pattern(RANGE, u8, three, three, 1)
    return m


def flag_2():
    """A range from 1 to 3 on u8 whose flag is 2: it is closed."""
    m, u8 = with_u8()
    m.add_pattern(RANGE, u8, m.add_integer(1), m.add_integer(3), 2)
    return m


def range_no_ends():
    """A range without ends has no test."""
    m, u8 = with_u8()
    m.add_pattern(RANGE, u8, ABSENT, ABSENT)
    return m


def rest_binding(kind, length=0):
    """`[_, rest @ .., a, b]` on a slice or an array of u8."""
    m, u8 = with_u8()
    legs = m.add_type(kind, u8, length, copy=0)
    rest, a, b = [m.add_binding(type_) for type_ in (legs, u8, u8)]
    dots = m.add_pattern(REST, legs)
    middle = m.add_pattern(BIND, legs, rest, dots, BY_REF)
    items = [m.add_pattern(WILD, u8)]
    items += [m.add_pattern(BIND, u8, binding, ABSENT) for binding in (a, b)]
    m.add_pattern(SLICE, legs, m.add_words(*items), 1, 2, middle)
    return m


def slice_rest_binding():
    """`[_, rest @ .., a, b]` on [u8]: suffix items in the order of the text."""
    return rest_binding(SLICE_TYPE)


def array_rest_binding():
    """The same on [u8; 5], without a test."""
    return rest_binding(ARRAY, 5)


def suffix_three():
    """`[1, .., 2, x, 3..5]` on [u8]: the last three items, tested and bound."""
    m, u8 = with_u8()
    legs = m.add_type(SLICE_TYPE, u8, copy=0)
    items = [m.add_pattern(LIT, u8, m.add_integer(1)), m.add_pattern(LIT, u8, m.add_integer(2)),
             m.add_pattern(BIND, u8, m.add_binding(u8), ABSENT),
             m.add_pattern(RANGE, u8, m.add_integer(3), m.add_integer(5), 1)]
    dots = m.add_pattern(REST, legs)
    m.add_pattern(SLICE, legs, m.add_words(*items), 1, 3, dots)
    return m


def suffix_in_suffix():
    """`[.., [.., a, 7, b], _]` on [[u8; 4]; 3]: last items of the last but one."""
    m, u8 = with_u8()
    four = m.add_type(ARRAY, u8, 4)
    three = m.add_type(ARRAY, four, 3)
    items = [m.add_pattern(BIND, u8, m.add_binding(u8), ABSENT),
             m.add_pattern(LIT, u8, m.add_integer(7)),
             m.add_pattern(BIND, u8, m.add_binding(u8), ABSENT)]
    inner = m.add_pattern(SLICE, four, m.add_words(*items), 0, 3, m.add_pattern(REST, four))
    last = m.add_pattern(WILD, four)
    m.add_pattern(SLICE, three, m.add_words(inner, last), 0, 2, m.add_pattern(REST, three))
    return m


def deref_1():
    """`1` with one deref, on &u8: local 0 is the reference."""
    m, u8 = with_u8()
    m.add_type(REFERENCE, u8)
    m.add_pattern(LIT, u8, m.add_integer(1), derefs=1)
    return m


def deref_lowest():
    """`_` with two derefs: of two types that lead to u8 the lower is local 0's."""
    m, u8 = with_u8()
    one = m.add_type(REFERENCE, u8)
    m.add_type(REFERENCE, one)
    m.add_type(REFERENCE, one)
    m.add_pattern(WILD, u8, derefs=2)
    return m


def derefs_16():
    """`&_` with 15 derefs: a place of 16 elements."""
    m, type_ = with_u8()
    types = [type_]
    for _ in range(16):
        types.append(m.add_type(REFERENCE, types[-1]))
    item = m.add_pattern(WILD, types[0])
    m.add_pattern(REF, types[1], item, derefs=15)
    return m


def blocks_512():
    """510 literals in a tuple: 512 blocks, all that there are."""
    m, u8 = with_u8()
    lits = 510
    fields = m.add_words(*[u8] * lits)
    whole = m.add_type(TUPLE_TYPE, fields, lits)
    seven = m.add_integer(7)
    first = m.add_words(*[m.add_pattern(LIT, u8, seven) for _ in range(lits)])
    m.add_pattern(TUPLE, whole, first, lits, ABSENT)
    return m


def locals_512():
    """255 constant paths and one binding: 512 locals, all that there are."""
    m = many(PATH, 255, NAMES_CONSTANT, SEVEN)
    m.add_binding(0)
    return m


def statements_1024():
    """512 Binds, each over the one before: 1,024 statements, all that there are."""
    m, u8 = with_u8()
    x, item = m.add_binding(u8), ABSENT
    for _ in range(512):
        item = m.add_pattern(BIND, u8, x, item)
    return m


def test_locals_512():
    """255 tests of a variant with 256 bindings: 512 locals, all that there are."""
    return with_tests(0, 255, 0, bindings=256)


def test_statements_1024():
    """4 statements of a constant, 500 of tests, and 260 Binds: 1,024 statements, all that there are."""
    return with_tests(1, 250, 260)


# The first line of each accepted corner's listing.
FIRST_LINES = {
    wild: "then 0 else -", literal7: "then 1 else 2", range_: "then 3 else 1",
    or_1_2: "then 7 else 6", wild_or_2: "then 2 else -", or_none: "then 3 else 2",
    slice_two: "then 2 else 1", array: "then 0 else -", slice_any: "then 2 else 1",
    tuple_ellipsis: "then 0 else -", ellipsis_2: "then 0 else -",
    surplus: "then 1 else 2", enum_twice: "then 7 else 6", bind_some: "then 1 else 2",
    nested_or: "then 11 else 10", or_of_binds: "then 7 else 6", record: "then 1 else 2",
    struct_ellipsis: "then 3 else 2", string: "then 1 else 2", c_string: "then 1 else 2",
    constant: "then 1 else 2", half_open: "then 2 else 1", half_open_end: "then 3 else 1",
    first_three: "then 3 else 1", half_open_to: "then 2 else 1", half_open_char: "then 3 else 1",
    half_open_nothing: "then 3 else 1", flag_2: "then 3 else 1",
    range_no_ends: "then 0 else -", slice_rest_binding: "then 2 else 1",
    array_rest_binding: "then 0 else -", last_two: "then 2 else 1",
    suffix_three: "then 6 else 1", suffix_in_suffix: "then 1 else 2", reference: "then 0 else -",
    deref_1: "then 1 else 2", deref_lowest: "then 0 else -", derefs_16: "then 0 else -",
    blocks_512: "then 511 else 2", locals_512: "then 256 else 2",
    statements_1024: "then 0 else -", test_locals_512: "then 256 else 2",
    test_statements_1024: "then 252 else 2",
}
