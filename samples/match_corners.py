"""Scripts of calls on patterns: a supplied else, places with a projection, several scopes, limits,
restoration, and each rule of number 2.

Each has a name, what it shows, its commands in the notation of `call_notation.py`, and the
answers to its calls; `..` in front of these leaves out the first ones.
"""

from images import (
    ABSENT, ARRAY, BIND, ENUM, INTEGER, LIT, NAMES_BINDING, NAMES_VARIANT, OR, PATH, REF,
    REFERENCE, REST, SLICE, SLICE_TYPE, STRUCT, TUPLE, TUPLE_STRUCT, WILD, Image,
)


def harbour():
    """Two bindings, patterns of the types that a place may lead to, and types around them."""
    m = Image()
    u8 = m.add_type(INTEGER, 1, name="u8")
    pair = m.add_tuple_type(u8, u8, name="pair")
    m.add_type(REFERENCE, u8, name="ref")
    calm, gust = m.add_variant([], 1), m.add_variant([u8], 2)
    wind = m.add_adt(ENUM, calm, 2, name="wind")
    legs = m.add_type(SLICE_TYPE, u8, copy=0, name="legs")
    m.add_type(ARRAY, u8, 4, name="four")
    m.add_adt(STRUCT, m.add_variant([u8, pair, wind, legs], 0), 1, name="boat")
    m.add_type(REFERENCE, m.names["boat"][1], name="boatRef")
    m.add_type(SLICE_TYPE, m.names["boat"][1], copy=0, name="boats")
    for name in ("x", "y"):
        m.add_binding(u8, name=name)
    m.add_pattern(WILD, u8, name="any")
    m.add_pattern(LIT, u8, m.add_integer(7), name="seven")
    m.add_pattern(LIT, u8, m.add_integer(7), derefs=1, name="sevenBehind")
    m.add_pattern(BIND, u8, 0, ABSENT, name="bind")
    one, second = m.add_pattern(LIT, u8, m.add_integer(1)), m.add_pattern(BIND, u8, 1, ABSENT, 1)
    m.add_pattern(TUPLE, pair, m.add_words(one, second), 2, ABSENT, name="row")
    m.add_pattern(PATH, wind, NAMES_VARIANT, calm, name="calm")
    inner = m.add_pattern(BIND, u8, 0, ABSENT)
    m.add_pattern(TUPLE_STRUCT, wind, m.add_words(inner), 1, ABSENT, gust, name="gust")
    rest = m.add_pattern(REST, legs)
    m.add_pattern(SLICE, legs, 0, 0, 0, m.add_pattern(BIND, legs, 0, rest, 1), name="rest")
    two = [m.add_pattern(LIT, u8, m.add_integer(n)) for n in (1, 2)]
    m.add_pattern(OR, u8, m.add_words(*two), 2, name="oneOrTwo")
    m.add_pattern(REF, m.names["ref"][1], m.add_pattern(BIND, u8, 1, ABSENT), name="referred")
    paths = [m.add_pattern(PATH, u8, NAMES_BINDING, n) for n in (0, 1)]
    m.add_pattern(TUPLE, pair, m.add_words(*paths), 2, ABSENT, name="assigned")
    winds = [m.add_pattern(PATH, wind, NAMES_VARIANT, calm)]
    winds.append(m.add_pattern(TUPLE_STRUCT, wind, m.add_words(m.add_pattern(WILD, u8)), 1, ABSENT, gust))
    m.add_pattern(OR, wind, m.add_words(*winds), 2, name="calmOrGust")
    return m


HARBOUR = harbour()
# Two blocks; local 0 a boat, 1 and 2 the bindings', 3 a pair, 4 a reference to a boat, 5 boats, 6 of u8, 7 four, 8 legs.
HANDED = ("blocks=2; locals=9; local 0: boat u8 u8 pair boatRef boats u8 four legs; "
          "binding 0: 1 2; bound=2; place 6")
BEGUN = f"{HANDED}; push"

ACCEPTED = [
    ("match_else", "The else that is supplied is taken, where a test needs one and where none does.",
     f"{BEGUN}; match seven 0 1; match any 2 1; match bind 2 1; match oneOrTwo 2 1",
     "now, then 2 else 1, then 2 else 1, then 2 else 1, then 8 else 1"),
    ("match_no_else", "Without one a test makes it, behind or before the block where it goes on.",
     f"{BEGUN}; match seven 0 -; match any 2 -; match row 2 -",
     "now, then 2 else 3, then 2 else -, refused 4 6 1"),
    ("match_field", "A field of a struct, and a field of that.",
     f"{BEGUN}; place 0 f0; match seven 0 1; place 0 f1; match row 2 1; place 0 f1 f1; match bind 3 1",
     "now, then 2 else 1, then 3 else 1, then 3 else 1"),
    ("match_deref", "Behind a reference, by the place's element and by a deref of the pattern.",
     f"{BEGUN}; place 4 deref f0; match seven 0 -; local 3: ref; place 3; match sevenBehind 2 -; "
     "match referred 4 -; place 3 deref; match bind 4 -",
     "now, then 2 else 3, then 4 else 5, then 4 else -, then 4 else -"),
    ("match_index", "An element from the front and from the end, of an array and of a slice.",
     f"{BEGUN}; place 7 i3; match seven 0 1; place 7 e0; match bind 2 1; place 5 i1 f1; match row 2 1; "
     "place 5 e2 f2; match gust 3 1",
     "now, then 2 else 1, then 2 else 1, then 3 else 1, then 4 else 1"),
    ("match_subslice", "A part of a slice is a slice; one of an array has elements.",
     f"{BEGUN}; place 8 s1-1; match rest 0 1; place 7 s1-1 i0; match seven 2 1; place 7 s1-1 s0-1 e0; match bind 3 1; "
     "place 5 s2-0 i0 f1; match row 3 1",
     "now, then 2 else 1, then 3 else 1, then 3 else 1, then 4 else 1"),
    ("match_downcast", "A variant's field; the enum itself is tested behind its own Downcast.",
     f"{BEGUN}; place 0 f2 v1 f0; match seven 0 1; place 0 f2 v1; match gust 2 1; place 0 f2; match calm 3 1",
     "now, then 2 else 1, then 3 else 1, then 4 else 1"),
    ("match_discr", "Each test of an enum makes its own local, in one call and in the next.",
     f"{BEGUN}; place 0 f2; match calm 0 1; match calmOrGust 2 1; match gust 8 1",
     "now, then 2 else 1, then 8 else 1, then 13 else 1"),
    ("match_scopes", "What a pattern makes live enters the last scope, and leaves with it.",
     f"{BEGUN}; push; push; match seven 0 1; place 3; match row 2 1; pop 3; until 1 3; assume; match row 3 1; until 0 4; pop 4",
     "now, now, now, then 2 else 1, then 3 else 1, block 3, block 3, now, then 4 else 1, "
     "block 4, block 4"),
    ("match_sixteen", "A place of 16 elements is taken: a part of a part, and so on.",
     f"{BEGUN}; place 7 {'s0-0 ' * 15}i0; match seven 0 1; match bind 2 1",
     "now, then 2 else 1, then 2 else 1"),
    ("match_seventeen", "One of 17 is 2, and one of 16 has no room for a pattern's own element.",
     f"{BEGUN}; place 8 {'s0-0 ' * 16}".rstrip() + "; match any 0 1; elements=17; match any 0 1; elements=65535; match any 0 1; "
     f"place 8 {'s0-0 ' * 16}".rstrip() + "; match rest 0 1; place 4 " + "deref " * 16 + "; match sevenBehind 0 1",
     "now, then 0 else 1, refused 2, refused 2, refused 11 12, refused 11 2"),
    ("assign_pair", "An assignment has no else, fills the bindings' locals and makes nothing live.",
     f"{BEGUN}; place 3; assign assigned 0; place 0 f1; assign assigned 0; place 6; assign seven 0; assign oneOrTwo 0; assign bind 2",
     "now, then 0 else -, then 0 else -, then 0 else -, then 2 else -, then 2 else -"),
    ("self_param", "A binding filled with a copy of a local, with a scope.",
     f"{HANDED}; self x 0 6; push; self x 0 6; self y 1 0; self y 0 8",
     "refused 14 65535, now, then 0 else -, then 1 else -, then 0 else -"),
    ("self_unbound", "A binding without a local is 9, of no pattern.",
     f"{BEGUN}; binding 1: -; self y 0 6; self x 0 6; place 3; match row 0 1; assign assigned 0; place 6; match seven 0 1",
     "now, refused 9 65535, then 0 else -, refused 9 5, refused 9 19, then 2 else 1"),
]

REFUSED = [
    ("match_misfits", "Elements that do not apply are 12 where the place's type is asked for.",
     f"{BEGUN}; place 0 deref; match row 0 1; match any 0 1; place 0 f4; match row 0 1; place 0 f0 f0; match row 0 1; place 0 i0; "
     "match row 0 1; place 0 f0 e0; match referred 0 1; place 0 s0-0; match calm 0 1; place 0 f2 v2; match calm 0 1; place 0 v0; "
     "match row 0 1; place 0 f2 v1 f1; match row 0 1; place 0 f2 v1 deref; match row 0 1; place 7 s1-1 f0; match row 0 1; "
     "place 7 s1-1 v0; match row 0 1; match bind 0 1",
     "now, refused 12 6, then 0 else 1, refused 12 6, refused 12 6, refused 12 6, refused 12 17, refused 12 7, "
     "refused 12 7, refused 12 6, refused 12 6, refused 12 6, refused 12 6, refused 12 6, then 0 else 1"),
    ("match_other_types", "Types that fit no pattern: of a temporary, of a part, of a variant.",
     f"{BEGUN}; local 6: bool; match row 0 1; match calm 0 1; match referred 0 1; place 6 deref; match row 0 1; place 7 s1-1; "
     "match row 0 1; match calm 0 1; match referred 0 1; place 0 f2 v1; match row 0 1",
     "now, refused 4 6 1, refused 4 7 4, refused 4 17 3, refused 12 6, refused 4 6 1, refused 4 7 4, refused 4 17 3, "
     "refused 4 6 1"),
    ("match_no_scope", "Without a scope what is made live is 14, and the rest is taken.",
     f"{HANDED}; match any 0 1; match seven 0 1; match bind 0 1; assign seven 0; place 3; assign assigned 0; assign row 0",
     "then 0 else 1, refused 14 1, refused 14 3, then 0 else -, then 0 else -, refused 14 5"),
    ("match_blocks", "Blocks run out: the start is open again.",
     f"{BEGUN}; blocks=511; match seven 0 -; match seven 0 1; match oneOrTwo 511 1; match any 511 -",
     "now, refused 11 1, then 511 else 1, refused 11 15, then 511 else -"),
    ("match_locals", "Locals run out: at a test's, and at a discriminant's.",
     f"{BEGUN}; locals=511; local 9: 0; place 0 f2; match gust 0 1; match calm 2 1; place 6; match seven 2 1; match bind 2 1",
     "now, then 2 else 1, refused 11 7, refused 11 1, then 2 else 1"),
    ("match_tests_locals", "Four tests of an enum in one call make four locals, the last of which is the 512th or one too many.",
     f"{BEGUN}; place 0 f2; locals=509; match calmOrGust 0 1; locals=508; match calmOrGust 0 1",
     "now, refused 11 23, then 7 else 1"),
    ("match_tests_entries", "They make four entries.",
     f"{BEGUN}; place 0 f2; entries=1021; match calmOrGust 0 1; entries=1020; match calmOrGust 0 1",
     "now, refused 11 23, then 7 else 1"),
    ("match_tests_too_many", "They make eight statements: one too many.",
     f"{BEGUN}; local 0: u8; local 6: wind; entries=1017; until 0 0; entries=0; match calmOrGust 0 1",
     "now, block 0, refused 11 23"),
    ("match_tests_statements", "They make eight statements, the last of which is the 1,024th.",
     f"{BEGUN}; local 0: u8; local 6: wind; entries=1016; until 0 0; entries=0; match calmOrGust 0 1",
     "now, block 0, then 7 else 1"),
    ("match_tests_scope", "A test of an enum asks for its local before it asks for a scope.",
     f"{HANDED}; place 0 f2; match calm 0 1; assign calm 0; locals=512; match calm 0 1; push; match calm 0 1",
     "refused 14 7, then 0 else -, refused 11 7, now, refused 11 7"),
    ("match_entries", "Entries run out in the last scope.",
     f"{BEGUN}; entries=1022; push; place 3; match row 0 1; match any 2 1; place 6; match bind 2 1; match seven 2 1; self x 2 6; assume; "
     "self x 2 6",
     "now, now, then 2 else 1, then 2 else 1, refused 11 3, refused 11 1, refused 11 65535, now, then 2 else -"),
    ("match_statements", "The 1,024th statement is taken, the next is 11.",
     f"{BEGUN}; local 0: u8; entries=1020; until 0 0; entries=0; place 3; match row 0 1; match any 2 1; place 6; match bind 2 1; "
     "self y 2 6; assign bind 2",
     "now, block 0, then 2 else 1, then 2 else 1, refused 11 3, refused 11 65535, refused 11 3"),
    ("match_restored", "Statements run out behind a test: nothing of it stays, and words above the counts are 0.",
     f"{BEGUN}; local 0: u8; entries=1021; until 0 0; entries=0; place 3; block 2: 9 9; statement 1021.48: 7; match row 0 1; "
     "place 6; match seven 0 1",
     "now, block 0, refused 11 5, then 2 else 1"),
]

# A rule of number 2, words or counts that break it, and the call.
FAULTS = [
    ("matchNamesPattern", "", "match 25 0 1"),
    ("matchNamesPattern", "", "assign 65535 0"),
    ("bindingsCounted", "bound=1", "match any 0 1"),
    ("bindingsCounted", "bound=3", "assign any 0"),
    ("bindingsCounted", "bound=65535", "self x 0 6"),
    ("bindingNamesLocal", "binding 1: 9", "match any 0 1"),
    ("bindingNamesLocal", "binding 0: 65534", "self y 0 6"),
    ("startNamesBlock", "", "match any 2 1"),
    ("startNamesBlock", "", "self x 65535 6"),
    ("startIsOpen", "block 0: 3", "match any 0 1"),
    ("startIsOpen", "block 0: 1 0 1", "assign any 0"),
    ("startIsOpen", "block 0: 4 0 1", "self x 0 6"),
    ("elseNamesBlock", "", "match any 0 2"),
    ("elseNamesBlock", "", "match any 0 65534"),
    ("elseIsNotStart", "", "match any 0 0"),
    ("handedNamesLocal", "place 9", "match any 0 1"),
    ("handedAtMost16", "elements=17", "match any 0 1"),
    ("handedAtMost16", "elements=65535", "assign any 0"),
    ("handedKindExists", "place 0 f0; handed 2: 6", "match any 0 1"),
    ("handedKindExists", "elements=16; handed 32: 7", "assign any 0"),
    ("handedNamesVariant", "place 0 f2 v3", "match any 0 1"),
    ("selfNamesBinding", "", "self 2 0 6"),
    ("selfNamesLocal", "", "self x 0 9"),
]


def match_corners():
    """Name, what it shows, commands and answers."""
    yield from (*ACCEPTED, *REFUSED)
    for number, (rule, bad, call) in enumerate(FAULTS):
        yield (f"match_fault_{number}", f"Number 2 for the rule {rule}.",
               f"{BEGUN}; match any 0 1; locals=9; local 9: 9; {bad}; {call}", "now, then 0 else 1, refused 2")
