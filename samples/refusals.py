"""Images that the lowering refuses, by each cause that document 01 names.

9 and 14 are not among them: an image's bindings all have locals, and a scope is open.

`REFUSALS` has each function with the line that is printed for its image.
"""

from images import (
    ABSENT, BIND, BOOL, BOX, CHAR, CONSTANT, DEREF, ENUM, EXPR, FLOAT, INTEGER, LIT, MISSING,
    NAMES_BINDING, NAMES_CONSTANT, NAMES_OTHER, NAMES_VARIANT, NOT_NULL, OR, OTHER, PATH,
    RANGE, RECORD, REF, REFERENCE, REST, SLICE, SLICE_TYPE, STRUCT, TUPLE, TUPLE_STRUCT,
    TUPLE_TYPE, UNION, UNRESOLVED, WILD, Image,
)


def with_u8():
    """An image with the type u8, and its number."""
    m = Image()
    return m, m.add_type(INTEGER, 1)


def option():
    """u8, an enum of `Some(u8)` and `None`, and the numbers of its variants."""
    m, u8 = with_u8()
    some, none = m.add_variant([u8], 1), m.add_variant([], 0)
    return m, u8, m.add_adt(ENUM, some, 2), some, none


def lone(kind, a=0, b=0, c=0, d=0):
    """One pattern on u8 in a tuple of one: pattern 0 is refused, pattern 1 is the root."""
    m, u8 = with_u8()
    whole, binding = m.add_tuple_type(u8), m.add_binding(u8)
    assert binding == 0
    m.add_pattern(TUPLE, whole, m.add_words(m.add_pattern(kind, u8, a, b, c, d)), 1, ABSENT)
    return m


def invalid():
    """An image without a pattern."""
    return with_u8()[0]


def no_place_type():
    """`_` with a deref, where no type leads to u8."""
    m, u8 = with_u8()
    m.add_pattern(WILD, u8, derefs=1)
    return m


def missing():
    """Missing reached."""
    return lone(MISSING)


def rest():
    """Rest reached, as a tuple's argument."""
    return lone(REST)


def not_null():
    """NotNull reached."""
    return lone(NOT_NULL)


def no_tuple():
    """A tuple pattern on u8."""
    return lone(TUPLE, 0, 0, ABSENT)


def no_slice():
    """A slice pattern whose own type is u8."""
    return lone(SLICE, 0, 0, 0, ABSENT)


def no_reference():
    """`&_` on u8."""
    m, u8 = with_u8()
    m.add_pattern(REF, u8, m.add_pattern(WILD, u8))
    return m


def no_adt():
    """A struct's path on u8."""
    m, u8 = with_u8()
    m.add_adt(STRUCT, m.add_variant([]), 1)
    m.add_pattern(PATH, u8, NAMES_VARIANT, 0)
    return m


def another_adt():
    """A path to another enum's variant, of the same shape."""
    m, _, maybe, _, _ = option()
    m.add_adt(ENUM, m.add_variant([], 0), 1)
    m.add_pattern(PATH, maybe, NAMES_VARIANT, 2)
    return m


def no_adts_variant():
    """A tuple struct of a variant that no ADT has."""
    m, _, maybe, _, _ = option()
    alone = m.add_variant([])
    m.add_pattern(TUPLE_STRUCT, maybe, 0, 0, ABSENT, alone)
    return m


def union():
    """A record pattern on a union, with a field that is past its fields too."""
    m, u8 = with_u8()
    both = m.add_adt(UNION, m.add_variant([u8]), 1)
    fields = m.add_words(9, m.add_pattern(WILD, u8))
    m.add_pattern(RECORD, both, fields, 1, 0)
    return m


def record_field(field):
    """`Some { .. }` with a field number, behind a field that would be refused as 3."""
    m, u8, maybe, some, _ = option()
    first, second = m.add_pattern(MISSING, u8), m.add_pattern(WILD, u8)
    m.add_pattern(RECORD, maybe, m.add_words(0, first, field, second), 2, some)
    return m


def field_absent():
    """A record field that is absent."""
    return record_field(ABSENT)


def field_past():
    """A record field past its variant's fields."""
    return record_field(1)


def record_variant_absent():
    """A record without a variant on u8: 6 before 4."""
    return lone(RECORD, 0, 0, ABSENT)


def struct_variant_absent():
    """A tuple struct without a variant on u8."""
    return lone(TUPLE_STRUCT, 0, 0, 9, ABSENT)


def path_binding():
    """A path to a local binding."""
    return lone(PATH, NAMES_BINDING, 0)


def path_other():
    """A path to something else."""
    return lone(PATH, NAMES_OTHER)


def box():
    """A box pattern."""
    return lone(BOX)


def deref():
    """A deref pattern."""
    return lone(DEREF)


def lit_of(kind, content):
    """A literal of an operand kind on u8."""
    m, u8 = with_u8()
    m.add_pattern(LIT, u8, m.add_operand(kind, content))
    return m


def lit_constant():
    """A literal that is an evaluated constant."""
    return lit_of(CONSTANT, b"\7")


def lit_other():
    """A literal that is something else."""
    return lit_of(OTHER, b"")


def lit_float():
    """A float."""
    return lit_of(FLOAT, b"\0\0\0\0")


def lit_on_bool():
    """An integer literal on bool."""
    m = Image()
    m.add_pattern(LIT, m.add_type(BOOL, 1), m.add_integer(1))
    return m


def end_of(kind, content):
    """A range on u8 whose start is 1 and whose end has an operand kind."""
    m, u8 = with_u8()
    m.add_pattern(RANGE, u8, m.add_integer(1), m.add_operand(kind, content))
    return m


def end_other():
    """A range end that is something else."""
    return end_of(OTHER, b"")


def end_float():
    """A range end that is a float."""
    return end_of(FLOAT, b"\0\0\0\0")


def end_on_char():
    """An integer as the start of a range on char."""
    m = Image()
    m.add_pattern(RANGE, m.add_type(CHAR, 4), m.add_integer(65), ABSENT)
    return m


def ellipsis_3():
    """Ellipsis 3 with 2 arguments, on a tuple of four u8."""
    m, u8 = with_u8()
    whole = m.add_tuple_type(u8, u8, u8, u8)
    items = m.add_pattern(WILD, u8), m.add_pattern(MISSING, u8)
    m.add_pattern(TUPLE, whole, m.add_words(*items), 2, 3)
    return m


def struct_ellipsis_1():
    """Ellipsis 1 with no arguments, in `None(..)`."""
    m, _, maybe, _, none = option()
    m.add_pattern(TUPLE_STRUCT, maybe, 0, 0, 1, none)
    return m


def slice_constant():
    """A constant path of slice type."""
    m, u8 = with_u8()
    legs = m.add_type(SLICE_TYPE, u8, copy=0)
    m.add_pattern(PATH, legs, NAMES_CONSTANT, m.add_operand(CONSTANT, b"\7"))
    return m


def expr():
    """Expr reached."""
    return lone(EXPR)


def place_17():
    """A Bind with 16 derefs over a `_` with one more: pattern 0 passes the limit."""
    m, u8 = with_u8()
    types = [u8]
    for _ in range(17):
        types.append(m.add_type(REFERENCE, types[-1]))
    item = m.add_pattern(WILD, u8, derefs=1)
    m.add_pattern(BIND, types[1], m.add_binding(u8), item, derefs=16)
    return m


def unit_17():
    """`None` with 16 derefs: the Downcast passes the limit, though nothing follows it."""
    m, _, maybe, _, none = option()
    last = maybe
    for _ in range(16):
        last = m.add_type(REFERENCE, last)
    m.add_pattern(PATH, maybe, NAMES_VARIANT, none, derefs=16)
    return m


def missing_17():
    """Missing with one deref in a Ref with 15: 11 before 3."""
    m, u8 = with_u8()
    types = [u8]
    for _ in range(17):
        types.append(m.add_type(REFERENCE, types[-1]))
    m.add_pattern(REF, types[2], m.add_pattern(MISSING, u8, derefs=1), derefs=15)
    return m


def many(kind, count, *words):
    """A tuple of so many patterns of one kind on u8."""
    m, u8 = with_u8()
    whole = m.add_type(TUPLE_TYPE, m.add_words(*[u8] * count), count)
    a = [m.add_operand(*word) if isinstance(word, tuple) else word for word in words]
    first = m.add_words(*[m.add_pattern(kind, u8, *a) for _ in range(count)])
    m.add_pattern(TUPLE, whole, first, count, ABSENT)
    return m


SEVEN = (CONSTANT, b"\7")


def blocks_513():
    """511 constants as starts of ranges: the last one's next block passes the limit."""
    return many(RANGE, 511, SEVEN, ABSENT)


def locals_513():
    """256 constant paths: the last one's second temporary passes the limit."""
    return many(PATH, 256, NAMES_CONSTANT, SEVEN)


def statements_1025():
    """An Or over 171 times `x @ 7`: the last Bind's live mark passes the limit."""
    m, u8 = with_u8()
    whole = m.add_type(TUPLE_TYPE, m.add_words(*[u8] * 171), 171)
    x, seven = m.add_binding(u8), m.add_integer(7)
    items = [m.add_pattern(BIND, u8, x, m.add_pattern(LIT, u8, seven)) for _ in range(171)]
    inner = m.add_pattern(TUPLE, whole, m.add_words(*items), 171, ABSENT)
    m.add_pattern(OR, whole, m.add_words(inner), 1)
    return m


def with_tests(constants, tests, binds, bindings=1):
    """A tuple of so many constant paths, paths to `None` and Binds of one binding."""
    m, u8, maybe, _, none = option()
    for _ in range(bindings):
        m.add_binding(u8)
    seven = m.add_operand(*SEVEN)
    items = [m.add_pattern(PATH, u8, NAMES_CONSTANT, seven) for _ in range(constants)]
    items += [m.add_pattern(PATH, maybe, NAMES_VARIANT, none) for _ in range(tests)]
    items += [m.add_pattern(BIND, u8, 0, ABSENT) for _ in range(binds)]
    fields = [m.patterns[p][1] for p in items]
    whole = m.add_type(TUPLE_TYPE, m.add_words(*fields), len(fields))
    m.add_pattern(TUPLE, whole, m.add_words(*items), len(items), ABSENT)
    return m


def test_locals_513():
    """256 tests of a variant with 256 bindings: the last one's local passes the limit."""
    return with_tests(0, 256, 0, bindings=256)


def test_statements_1025():
    """8 statements of constants, 500 of tests, and 259 Binds: the last one's live mark passes the limit."""
    return with_tests(2, 250, 259)


def deref_of_u8(kind, *words):
    """A pattern with a deref on the u8 of a tuple."""
    m = lone(kind, *words)
    m.patterns[0][2] = 1
    return m


def tuple_no_place():
    """A tuple pattern whose place's type does not exist."""
    return deref_of_u8(TUPLE, 0, 0, ABSENT)


def adt_no_place():
    """A path to a variant, its place's type likewise."""
    m = deref_of_u8(PATH, NAMES_VARIANT, 0)
    m.add_adt(STRUCT, m.add_variant([]), 1)
    return m


def ref_no_place():
    """`&_`, its place's type likewise."""
    m, u8 = with_u8()
    whole = m.add_tuple_type(u8)
    item = m.add_pattern(REF, u8, m.add_pattern(WILD, u8), derefs=1)
    m.add_pattern(TUPLE, whole, m.add_words(item), 1, ABSENT)
    return m


def unresolved():
    """A path that is unresolved."""
    return lone(PATH, UNRESOLVED)


NUMBERS = {
    invalid: (1, 65535, 0), no_place_type: (2, 65535, 0),
    missing: (3, 0, 0), rest: (3, 0, 0), not_null: (3, 0, 0),
    no_tuple: (4, 0, 1), no_slice: (4, 0, 2), no_reference: (4, 1, 3), no_adt: (4, 0, 4),
    another_adt: (4, 0, 5), no_adts_variant: (4, 0, 5), union: (4, 1, 6),
    field_absent: (5, 2, 0), field_past: (5, 2, 0),
    record_variant_absent: (6, 0, 0), struct_variant_absent: (6, 0, 0),
    path_binding: (6, 0, 0), path_other: (6, 0, 0), box: (6, 0, 0), deref: (6, 0, 0),
    lit_constant: (6, 0, 0), lit_other: (6, 0, 0), lit_float: (6, 0, 0),
    lit_on_bool: (6, 0, 0), end_other: (6, 0, 0), end_float: (6, 0, 0),
    end_on_char: (6, 0, 0), ellipsis_3: (7, 2, 0), struct_ellipsis_1: (7, 0, 0),
    slice_constant: (8, 0, 0), expr: (10, 0, 0), place_17: (11, 0, 0), unit_17: (11, 0, 0),
    missing_17: (11, 0, 0), blocks_513: (11, 510, 0), locals_513: (11, 255, 0),
    statements_1025: (11, 341, 0), test_locals_513: (11, 255, 0),
    test_statements_1025: (11, 510, 0), tuple_no_place: (12, 0, 0), adt_no_place: (12, 0, 0),
    ref_no_place: (12, 1, 0), unresolved: (13, 0, 0),
}
REFUSALS = {make: "refused {} {} {}".format(*numbers) for make, numbers in NUMBERS.items()}
