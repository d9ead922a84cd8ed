"""Patterns with whether they fit, what they match and bind, and where a run comes.

Written by hand from the Reference's chapter "Patterns" and document 01's paragraph "A pattern
fits when": document 01's corners that are marked [P], every kind of pattern, and each clause.
Values: an integer, a bool, a char, bytes for a reference to a str, and tuples that begin with
`tuple`, `ref`, `array`, `slice`, or with `of` and a variant's number in the table. What is bound
is a value, or `by ref` or `by mut` with the elements of the place that is referred to.
"""

from corners import CORNERS
from images import (
    BYTE_STRING, EXPR, NAMES_VARIANT,
)
from lowering import root_type
from sketch import (
    bind, const, constant, either, fields, fields_of, items, leaf, lit, path, refer, rest, row,
    sketch, span, unit, wild,
)

PROVED = ["wild", "literal7", "range", "or_1_2", "wild_or_2", "or_none", "slice_two", "array",
          "slice_any", "tuple_ellipsis", "ellipsis_2", "ellipsis_3"]

REF, MUT = 1, 2
U8, I8, U16 = "u8", "i8", "u16"
PAIR, BOAT = ("tuple", U8, U8), ("struct", U8, U8)
MIXED = ("tuple", U8, U16)
MAYBE = ("enum", (1, U8), (0,))
TWINS = ("enum", (3, U8), (3,))
LEGS, THREE = ("slice", U8), ("array", U8, 3)
TEXT = ("ref", "str")


class Row:
    """An image, the type of local 0, the bindings' locals, the fit, the values."""

    def __init__(self, name, image, place, fit, tried, locals_=None):
        self.name, self.image, self.place, self.fit, self.tried = name, image, place, fit, tried
        self.locals = list(range(1, len(image.bindings) + 1)) if locals_ is None else locals_


def yes(value, *bound):
    """A value that matches, and what it binds in order."""
    return "matched", value, bound


def no(value):
    """A value that does not match."""
    return "unmatched", value, ()


def stranger(value):
    """A value that is not of the place's type."""
    return "stranger", value, ()


def corner(name, fit, *tried):
    """A corner of document 01."""
    image = dict(CORNERS)[name]
    return Row(name, image, root_type(image, len(image.patterns) - 1), fit, tried)


def on(name, place, pattern, *tried, bindings=(), **others):
    """A pattern that fits, and values on it."""
    m = sketch(place, bindings, pattern)
    return Row(name, m, m.place, True, tried, **others)


def unfit(name, place, pattern, bindings=(), **others):
    """A pattern that does not fit."""
    m = sketch(place, bindings, pattern)
    return Row(name, m, m.place, False, (), **others)


def by_ref(*elems):
    return "by ref", elems


def by_mut(*elems):
    return "by mut", elems


# The corners that are marked [P].
MARKED = [
    corner("wild", True, yes(0), yes(255), stranger(256), stranger(-1), stranger(True)),
    corner("literal7", True, yes(7), no(8), no(0)),
    corner("range", True, no(0), yes(1), yes(3), no(4)),
    corner("or_1_2", True, yes(1), yes(2), no(3)),
    corner("wild_or_2", True, yes(2), yes(5)),
    corner("or_none", False),
    corner("slice_two", True, yes(("slice", 5, 6), (0, 5)), no(("slice", 5)),
           no(("slice", 5, 6, 7)), stranger(("array", 5, 6))),
    corner("array", True, yes(("array", 5, 6), (0, 5)), stranger(("array", 5)),
           stranger(("slice", 5, 6))),
    corner("slice_any", True, yes(("slice",)), yes(("slice", 1, 2))),
    corner("tuple_ellipsis", True, yes(("tuple", 1, 2, 3, 4), (0, 1), (1, 3), (2, 4)),
           stranger(("tuple", 1, 2, 3))),
    corner("ellipsis_2", True, yes(("tuple", 1, 2, 3, 4))),
    corner("ellipsis_3", False),
]

# Every kind of pattern, and every kind of operand and binding.
KINDS = [
    corner("surplus", False),
    corner("enum_twice", True, yes(("of", 0, 9)), yes(("of", 1)), stranger(("of", 0)),
           stranger(("of", 2))),
    corner("bind_some", True, yes(("of", 0, 3), (0, ("of", 0, 3))), no(("of", 1))),
    corner("nested_or", True, yes(2, (0, 2)), yes(3, (0, 3)), no(4)),
    corner("or_of_binds", True, yes(("tuple", 5, 1), (0, 5)), yes(("tuple", 2, 7), (0, 7)),
           yes(("tuple", 2, 1), (0, 2)), no(("tuple", 3, 3))),
    corner("record", True, yes(("of", 0, 7, 4), (0, by_mut(("f", 1)))), no(("of", 0, 8, 4))),
    corner("struct_ellipsis", True, yes(("of", 0, 1, 9, 4), (0, by_ref(("v", 0), ("f", 2)))),
           no(("of", 0, 2, 9, 4))),
    corner("string", True, yes(b"RET"), no(b"RED"), no(b"RE"), no(b""), no(b"RETS"),
           stranger(("ref", 7))),
    corner("c_string", False),
    corner("constant", True, yes(5), no(6)),
    corner("half_open", True, no(0), yes(1), yes(255)),
    corner("half_open_end", True, no(0), yes(1), yes(2), no(3), no(4)),
    corner("first_three", True, no(0), yes(1), yes(2), yes(3), no(4), no(255)),
    corner("half_open_to", True, yes(-128), yes(-2), no(-1), no(0), no(127)),
    corner("half_open_char", True, no("`"), yes("a"), yes("c"), no("d"), no("e")),
    corner("half_open_nothing", True, no(2), no(3), no(4)),
    corner("flag_2", True, no(0), yes(1), yes(3), no(4)),
    corner("slice_rest_binding", True,
           yes(("slice", 1, 2, 3, 4), (0, by_ref(("s", 1, 2))), (1, 3), (2, 4)),
           yes(("slice", 1, 3, 4), (0, by_ref(("s", 1, 2))), (1, 3), (2, 4)), no(("slice", 1, 2))),
    corner("array_rest_binding", True,
           yes(("array", 1, 2, 3, 4, 5), (0, by_ref(("s", 1, 2))), (1, 4), (2, 5))),
    corner("last_two", True, yes(("slice", 1, 2, 3), (0, 2), (1, 3)), yes(("slice", 1, 2), (0, 1), (1, 2)),
           no(("slice", 1))),
    corner("suffix_three", True, yes(("slice", 1, 2, 9, 3), (0, 9)), yes(("slice", 1, 0, 2, 9, 4), (0, 9)),
           no(("slice", 1, 2, 9, 5)), no(("slice", 1, 3, 9, 2)), no(("slice", 2, 9, 3))),
    corner("suffix_in_suffix", True,
           yes(("array", ("array", 0, 0, 0, 0), ("array", 1, 2, 7, 4), ("array", 0, 0, 0, 0)),
               (0, 2), (1, 4)),
           no(("array", ("array", 0, 0, 0, 0), ("array", 1, 7, 2, 4), ("array", 1, 2, 7, 4)))),
    corner("range_no_ends", False),
    corner("reference", True, yes(("ref", 5), (0, 5))),
    corner("deref_1", True, yes(("ref", 1)), no(("ref", 2)), stranger(1)),
    corner("missing", False),
    corner("rest", False),
    corner("not_null", False),
    corner("expr", False),
    corner("box", False),
    corner("deref", False),
    corner("unresolved", False),
    corner("path_other", False),
    corner("path_binding", False),
    corner("lit_float", False),
    corner("lit_other", False),
    on("bind_value", U8, bind(U8, 0), yes(9, (0, 9)), bindings=[U8]),
    on("bind_ref", U8, bind(U8, 0, mode=REF), yes(9, (0, by_ref())), bindings=[U8]),
    on("bind_over", U8, bind(U8, 0, span(U8, 1, 3)), yes(2, (0, 2)), no(4), bindings=[U8]),
    on("literal_true", "bool", lit("bool", True), yes(True), no(False), stranger(1)),
    on("literal_false", "bool", lit("bool", False), yes(False), no(True)),
    on("literal_char", "char", lit("char", "a"), yes("a"), no("b"), stranger("\ud800"),
       stranger(97)),
    on("literal_negative", I8, lit(I8, -1), yes(-1), no(1), no(0), stranger(255)),
    on("empty_string", TEXT, lit(TEXT, b""), yes(b""), no(b"a")),
    on("negative_range", I8, span(I8, -3, -1), no(-4), yes(-3), yes(-1), no(0), no(3)),
    on("range_over_zero", I8, span(I8, -1, 1), no(-2), yes(-1), yes(0), yes(1), no(2)),
    on("char_range", "char", span("char", "b", "d"), no("a"), yes("b"), yes("d"), no("e")),
    on("range_to", U8, span(U8, None, 3), yes(0), yes(3), no(4)),
    on("range_below_least", I8, span(I8, None, -128, half_open=True), no(-128), no(127)),
    on("half_open_over_zero", I8, span(I8, -1, 1, half_open=True), no(-2), yes(-1), yes(0), no(1)),
    on("range_turned_round", U8, span(U8, 4, 2, half_open=True), no(2), no(3), no(4)),
    on("range_of_constants", U8, span(U8, const(2), const(4)), no(1), yes(2), yes(4), no(5)),
    on("constant_true", "bool", constant("bool", 1), yes(True), no(False)),
    on("constant_char", "char", constant("char", 97, 0, 0, 0), yes("a"), no("b")),
    on("constant_negative", I8, constant(I8, 255), yes(-1), no(1), no(127)),
    on("constant_two_bytes", U16, constant(U16, 1, 2), yes(513), no(258)),
    on("unit_variant", MAYBE, unit(MAYBE, 1), yes(("of", 1)), no(("of", 0, 1))),
    on("tuple_struct", MAYBE, fields_of(MAYBE, 0, bind(U8, 0)), yes(("of", 0, 8), (0, 8)),
       no(("of", 1)), bindings=[U8]),
    on("record_of_enum", MAYBE, fields(MAYBE, 0, (0, bind(U8, 0, mode=REF))),
       yes(("of", 0, 8), (0, by_ref(("v", 0), ("f", 0)))), no(("of", 1)), bindings=[U8]),
    on("record_in_part", BOAT, fields(BOAT, 0, (1, lit(U8, 4))), yes(("of", 0, 9, 4)),
       no(("of", 0, 4, 9))),
    on("tuple_of_tests", PAIR, row(PAIR, lit(U8, 1), lit(U8, 2)), yes(("tuple", 1, 2)),
       no(("tuple", 1, 1)), no(("tuple", 2, 2)), stranger(("tuple", 1))),
    on("through_a_reference", ("ref", PAIR), row(PAIR, lit(U8, 1), bind(U8, 0), derefs=1),
       yes(("ref", ("tuple", 1, 6)), (0, 6)), no(("ref", ("tuple", 2, 6))), bindings=[U8]),
    on("reference_bound", ("ref", U8), refer(("ref", U8), bind(U8, 0, mode=REF)),
       yes(("ref", 5), (0, by_ref(("deref",)))), bindings=[U8]),
    on("first_and_last", LEGS, items(LEGS, lit(U8, 1), dots=rest(LEGS), back=[lit(U8, 2)]),
       yes(("slice", 1, 2)), yes(("slice", 1, 9, 2)), no(("slice", 1)), no(("slice", 1, 2, 3))),
    on("last_two_of_array", THREE,
       items(THREE, dots=rest(THREE), back=[bind(U8, 0), bind(U8, 1, mode=REF)]),
       yes(("array", 1, 2, 3), (0, 2), (1, by_ref(("e", 0)))), bindings=[U8, U8]),
    on("no_rest_before_the_end", THREE, items(THREE, lit(U8, 1), back=[lit(U8, 2), bind(U8, 0)]),
       yes(("array", 1, 2, 3), (0, 3)), no(("array", 1, 3, 2)), bindings=[U8]),
    on("rest_of_array", THREE,
       items(THREE, wild(U8), dots=bind(THREE, 0, rest(THREE)), back=[wild(U8)]),
       yes(("array", 1, 2, 3), (0, ("array", 2))), bindings=[THREE]),
    on("rest_of_slice", LEGS, items(LEGS, wild(U8), dots=bind(LEGS, 0, rest(LEGS))),
       yes(("slice", 1, 2, 3), (0, ("slice", 2, 3))), no(("slice",)), bindings=[LEGS]),
]

# Document 01's clauses, each from both sides.
CLAUSES = [
    # "its type is, by number, the place's after its derefs", "derefs cross references"
    unfit("other_type", U8, wild(U16)),
    unfit("fields_swapped", MIXED, row(MIXED, wild(U16), wild(U8))),
    on("fields_in_order", MIXED, row(MIXED, wild(U8), wild(U16)), yes(("tuple", 1, 300))),
    on("wild_behind", ("ref", U8), wild(U8, derefs=1), yes(("ref", 1))),
    unfit("behind_no_reference", U8, wild(U8, derefs=1)),
    on("wild_of_a_slice", LEGS, wild(LEGS), yes(("slice", 1))),
    on("wild_of_a_union", ("union", U8), wild(("union", U8)), stranger(("of", 0, 1))),
    # "arguments equal fields, or do not exceed them with an ellipsis"
    unfit("too_few", PAIR, row(PAIR, wild(U8))),
    on("few_with_dots", PAIR, row(PAIR, wild(U8), dots=1), yes(("tuple", 1, 2))),
    unfit("too_many_with_dots", PAIR, row(PAIR, wild(U8), wild(U8), wild(U8), dots=1)),
    unfit("variant_too_few", MAYBE, fields_of(MAYBE, 0)),
    on("variant_dots", MAYBE, fields_of(MAYBE, 0, dots=0), yes(("of", 0, 1)), no(("of", 1))),
    # "record fields differ"
    unfit("field_twice", BOAT, fields(BOAT, 0, (0, wild(U8)), (0, wild(U8)))),
    on("fields_differ", BOAT, fields(BOAT, 0, (1, wild(U8)), (0, wild(U8))), yes(("of", 0, 1, 2))),
    # "discriminants differ"
    unfit("twins", TWINS, unit(TWINS, 1)),
    unfit("twins_fields", TWINS, fields_of(TWINS, 0, wild(U8))),
    on("twins_wild", TWINS, wild(TWINS), yes(("of", 1))),
    # "an array's prefix and suffix equal its length, or do not exceed it with a rest"
    unfit("array_two_of_three", THREE, items(THREE, wild(U8), wild(U8))),
    unfit("array_four_of_three", THREE,
          items(THREE, wild(U8), wild(U8), dots=rest(THREE), back=[wild(U8), wild(U8)])),
    on("array_all", THREE, items(THREE, wild(U8), wild(U8), dots=rest(THREE), back=[wild(U8)]),
       yes(("array", 1, 2, 3))),
    # "a rest is Rest, Wild or Bind over Rest, its type and derefs not looked at"
    on("rest_wild", LEGS, items(LEGS, dots=wild(LEGS)), yes(("slice", 1))),
    on("rest_untyped", LEGS, items(LEGS, dots=rest(U16, derefs=2)), yes(("slice", 1))),
    unfit("rest_literal", LEGS, items(LEGS, dots=lit(U8, 1))),
    unfit("rest_bare_bind", LEGS, items(LEGS, dots=bind(LEGS, 0)), bindings=[LEGS]),
    unfit("rest_bind_over_wild", LEGS, items(LEGS, dots=bind(LEGS, 0, wild(LEGS))),
          bindings=[LEGS]),
    # "literals are integer, bool, char or String on a reference to str", of "its type's kind"
    unfit("string_on_integer", U8, lit(U8, b"a")),
    unfit("string_on_other", ("ref", U8), lit(("ref", U8), b"a")),
    unfit("byte_string", TEXT, lit(TEXT, (BYTE_STRING, b"a"))),
    unfit("char_on_integer", U8, lit(U8, "a")),
    unfit("bool_on_integer", U8, lit(U8, True)),
    unfit("integer_on_bool", "bool", lit("bool", 1)),
    # "constants and range ends are integer, char or (constants) bool", "a constant in exactly its
    # size"
    unfit("range_of_bools", "bool", span("bool", False, True)),
    unfit("range_of_bool_constants", "bool", span("bool", const(0), const(1))),
    unfit("range_of_strings", TEXT, span(TEXT, b"a", b"b")),
    unfit("constant_too_long", U8, constant(U8, 1, 0)),
    unfit("constant_too_short", U16, constant(U16, 1)),
    unfit("constant_no_bool", "bool", constant("bool", 2)),
    unfit("constant_no_char", "char", constant("char", 0, 216, 0, 0)),
    unfit("constant_reference", TEXT, constant(TEXT, 1)),
    # "holds a value in its range"
    on("greatest", U8, lit(U8, 255), yes(255), no(0)),
    unfit("past_greatest", U8, lit(U8, 256)),
    unfit("below_least", U8, lit(U8, -1)),
    on("least", I8, lit(I8, -128), yes(-128), no(0)),
    unfit("past_least", I8, lit(I8, -129)),
    unfit("past_signed", I8, lit(I8, 128)),
    unfit("end_past_greatest", U8, span(U8, 1, 256)),
    # "a binding stands twice only in different alternatives of one Or, and these, one or more, bind
    # the same bindings at the same types"
    unfit("bound_twice", PAIR, row(PAIR, bind(U8, 0), bind(U8, 0)), bindings=[U8]),
    unfit("bound_over_itself", U8, bind(U8, 0, bind(U8, 0)), bindings=[U8]),
    on("bound_in_both", U8, either(U8, bind(U8, 0), bind(U8, 0)), yes(3, (0, 3)), bindings=[U8]),
    unfit("bound_in_one", U8, either(U8, bind(U8, 0, lit(U8, 1)), wild(U8)), bindings=[U8]),
    unfit("bound_in_last", U8, either(U8, lit(U8, 1), bind(U8, 0)), bindings=[U8]),
    unfit("bound_at_two_types", MIXED,
          either(MIXED, row(MIXED, bind(U8, 0), lit(U16, 1)), row(MIXED, wild(U8), bind(U16, 0))),
          bindings=[U8]),
    on("rests_of_one_length", THREE,
       either(THREE, items(THREE, lit(U8, 1), dots=bind(THREE, 0, rest(THREE))),
              items(THREE, dots=bind(THREE, 0, rest(THREE)), back=[wild(U8)])),
       yes(("array", 1, 2, 3), (0, ("array", 2, 3))), yes(("array", 4, 2, 3), (0, ("array", 4, 2))),
       bindings=[THREE]),
    unfit("rests_of_two_lengths", THREE,
          either(THREE, items(THREE, lit(U8, 1), dots=bind(THREE, 0, rest(THREE))),
                 items(THREE, wild(U8), wild(U8), dots=bind(THREE, 0, rest(THREE)))),
          bindings=[THREE]),
    # "nothing refused as 3 to 10 or 13 is reached"
    unfit("expr_reached", PAIR, row(PAIR, wild(U8), leaf(EXPR, U8))),
    on("expr_behind_wild", U8, either(U8, wild(U8), leaf(EXPR, U8)), yes(1)),
    unfit("expr_behind_test", U8, either(U8, lit(U8, 1), leaf(EXPR, U8))),
    unfit("field_past", BOAT, fields(BOAT, 0, (2, wild(U8)))),
    unfit("field_absent", BOAT, fields(BOAT, 0, (None, wild(U8)))),
    unfit("variant_of_union", ("union", U8), fields(("union", U8), 0, (0, wild(U8)))),
    unfit("tuple_on_struct", BOAT, row(BOAT, dots=0)),
    unfit("slice_on_tuple", PAIR, items(PAIR, dots=rest(PAIR))),
    unfit("reference_on_integer", U8, refer(U8, wild(U8))),
    unfit("variant_on_integer", U8, path(U8, NAMES_VARIANT, 0), bindings=[BOAT]),
    unfit("variant_of_another", MAYBE, path(MAYBE, NAMES_VARIANT, 2), bindings=[BOAT]),
    # the locals
    unfit("no_local", U8, bind(U8, 0), bindings=[U8], locals_=[65535]),
    on("no_local_needed", U8, wild(U8), yes(1), bindings=[U8], locals_=[65535]),
    unfit("local_is_the_root", U8, bind(U8, 0), bindings=[U8], locals_=[0]),
    unfit("one_local_for_two", PAIR, row(PAIR, bind(U8, 0), bind(U8, 1)), bindings=[U8, U8],
          locals_=[1, 1]),
]
