"""Scripts of calls that are refused with 1 or 2.

Each fault has the rule that it breaks, words that keep it and words that break it, in the
notation of `call_notation.py`; all are set in one body, which is taken without the fault.
"""

from call_notation import rubbish, with_counts
from images import INTEGER, SLICE_TYPE, WILD, Image
from readable import damaged, used_twice

COUNTS_THERE = 2, 1, 2, 3, 2
# A body that is taken: 2 blocks, a statement, 2 locals, 3 scopes with an entry, none, and one.
WHOLE = with_counts(COUNTS_THERE) + "; statement 0: 1 2 1; scope 1: 1 1; entry 0: 0 1"
SIX_CALLS = "temp u8 0; merge 0 1; push; assume; pop 0; until 0 0"

FAULTS = [
    ("blocksWithinLimit", "blocks=512", "blocks=513"),
    ("blocksWithinLimit", "blocks=512", "blocks=65535"),
    ("statementsWithinLimit", "statements=1", "statements=1025"),
    ("localsWithinLimit", "locals=512", "locals=513"),
    ("scopesWithinLimit", "scope 1: 0 0; scopes=32", "scopes=33"),
    ("entriesWithinLimit", "entries=1024", "entries=1025"),
    ("entriesWithinLimit", "entries=1024", "entries=65535"),
    ("terminatorKindExists", "block 1: 3", "block 1: 5"),
    ("terminatorKindExists", "block 1: 0", "block 1: 65535"),
    ("gotoNamesBlock", "block 1: 1 9 1 9", "block 1.2: 2"),
    ("switchNamesLocal", "block 1: 2 1 1 1", "block 1.1: 2"),
    ("switchNamesThen", "block 1: 2 1 1 1", "block 1.2: 2"),
    ("switchNamesElse", "block 1: 2 1 1 1", "block 1.3: 2"),
    ("dropNamesLocal", "block 1: 4 1 1 9", "block 1.1: 2"),
    ("dropNamesBlock", "block 1: 4 1 1 9", "block 1.2: 65535"),
    ("statementNamesBlock", "statement 0: 1", "statement 0: 2"),
    ("statementKindExists", "statement 0.1: 1", "statement 0.1: 0"),
    ("statementKindExists", "statement 0.1: 2", "statement 0.1: 65535"),
    ("statementKindExists", "statement 0.1: 12 1 1 1; statement 0.15: 1", "statement 0.1: 13"),
    ("statementNamesLocal", "statement 0.2: 1", "statement 0.2: 2"),
    ("constantIsOne", "statement 0.1: 8 1 2 16 7", "statement 0.3: 0"),
    ("constantIsOne", "statement 0.1: 8 1 2 1 7", "statement 0.3: 1"),
    ("constantIsOne", "statement 0.1: 8 1 2 1 7", "statement 0.3: 3"),
    ("constantAtMost16", "statement 0.1: 8 1 2 16 7", "statement 0.4: 17"),
    ("constantAtMost16", "statement 0.1: 9 1 2 16 7", "statement 0.4: 65535"),
    ("constantNamesType", "statement 0.1: 8 1 2 1 7", "statement 0.5: 8"),
    ("constantNamesType", "statement 0.1: 9 1 2 1 258", "statement 0.5: 259"),
    ("constantNamesType", "statement 0.1: 12 1 2 1 7", "statement 0.5: 8"),
    ("operandKindExists", "statement 0.1: 9 1 2 1 256", "statement 0.3: 0"),
    ("operandKindExists", "statement 0.1: 11 1 1 1", "statement 0.3: 3"),
    ("operandKindExists", "statement 0.1: 12 1 1 1", "statement 0.3: 0"),
    ("operandNamesLocal", "statement 0.1: 10 1 1 1", "statement 0.4: 2"),
    ("operandNamesLocal", "statement 0.1: 12 1 1 1", "statement 0.4: 2"),
    ("placeNamesLocal", "statement 0.1: 3 1; statement 0.15: 1", "statement 0.15: 2"),
    ("placeNamesLocal", "statement 0.1: 11 1 1 1; statement 0.15: 1", "statement 0.15: 2"),
    ("placeNamesLocal", "statement 0.1: 12 1 1 1; statement 0.15: 1", "statement 0.15: 2"),
    ("placeAtMost16", "statement 0.1: 4 1; statement 0.15: 1 16", "statement 0.16: 17"),
    ("placeAtMost16", "statement 0.1: 9 1 1 1; statement 0.15: 1 16", "statement 0.16: 17"),
    ("elementKindExists", "statement 0.1: 5 1; statement 0.15: 1 1 8 9", "statement 0.17: 6"),
    ("elementKindExists", "statement 0.1: 6 1; statement 0.15: 1 16; statement 0.47: 4 9",
     "statement 0.47: 7"),
    ("downcastNamesVariant", "statement 0.1: 7 1; statement 0.15: 1 1 5 2",
     "statement 0.18: 3"),
    ("downcastNamesVariant", "statement 0.1: 10 1 1 1; statement 0.15: 1 16; "
     "statement 0.47: 65533 2", "statement 0.48: 65535"),
    ("localNamesType", "local 1: 7", "local 1: 8"),
    ("localNamesType", "local 1: 256", "local 1: 255"),
    ("localNamesType", "local 1: 257", "local 1: 65535"),
    ("localNamesType", "local 1: 258", "local 1: 259"),
    ("scopeEndsNotBefore", "scope 2: 2", "scope 2: 3"),
    ("scopeEndsNotBefore", "scope 1: 2 2", "scope 2: 1"),
    ("scopeEndsNotBefore", "scope 1: 1", "scope 1: 65535"),
    ("entriesHaveScope", "scope 0: 0", "scope 0: 1"),
    ("entriesHaveScope", "scopes=3", "scopes=0"),
    ("entryNamesLocal", "entry 1: 1", "entry 1: 2"),
    ("entryNamesLocal", "entry 0: 1", "entry 0: 65535"),
]

# A call, and the answers to it.
CALL_FAULTS = [
    ("callNamesType", "temp 7 0; temp 8 0; temp 255 0; temp 256 0; temp 258 0; temp 259 0; "
     "temp 65535 0",
     "refused 8, refused 2, refused 2, local 2, local 3, refused 2, refused 2"),
    ("callNamesBlock", "temp u8 1; temp u8 2; temp u8 65535", "local 2, refused 2, refused 2"),
    ("callNamesBlock", "merge 1 -; merge 2 -; merge - 2; merge 2 1; merge 1 2; merge 65534 -",
     "block 1, refused 2, refused 2, refused 2, refused 2, refused 2"),
    ("callNamesBlock", "pop 2; pop 65535; pop 1", "refused 2, refused 2, block 1"),
    ("callNamesBlock", "until 0 2; until 3 2; until 4 2; until 0 65535; until 4 1; until 3 1",
     "refused 2, refused 2, refused 2, refused 2, refused 14, block 1"),
]


def limits():
    """As many types and variants as there may be."""
    m = Image()
    u8 = m.add_type(INTEGER, 1)
    for _ in range(254):
        m.add_type(INTEGER, 2, copy=0)
    m.add_type(SLICE_TYPE, u8)
    m.add_data(bytes(16))
    m.variants.extend([0, 0, 0] for _ in range(512))
    m.add_pattern(WILD, u8)
    return m.encode()


def small():
    """One type."""
    m = Image()
    m.add_pattern(WILD, m.add_type(INTEGER, 1))
    return m.encode()


def refused(number, times):
    """So many refusals."""
    return ", ".join([f"refused {number}"] * times)


# A name, what it shows, the image, commands, and the answers to them.
OTHER_IMAGES = [
    ("image_empty", "An empty image is 1, with whatever else is wrong.", b"",
     f"{SIX_CALLS}; {WHOLE}; {SIX_CALLS}; blocks=513; {SIX_CALLS}; temp 999 999; until 99 0",
     refused(1, 20)),
    ("image_damaged", "An image that ends too soon is 1: words above the counts stay.",
     damaged(), f"{WHOLE}; {rubbish(COUNTS_THERE)}; {SIX_CALLS}; merge 0 9", refused(1, 7)),
    ("image_used_twice", "An image that breaks a rule on patterns is 1, before 2, 11 and 14.",
     used_twice().encode(), f"{SIX_CALLS}; blocks=512; merge 0 0; until 9 0; scopes=99; push",
     refused(1, 9)),
    ("image_limits", "With 256 types every number below 256 is one, and 512 variants are.",
     limits(), "blocks=1; push; temp 254 0; temp 255 0; temp 256 0; pop 0; statements=1; "
     "statement 0: 0 3 0; statement 0.15: 0 1 5 511; push; statement 0.18: 512; push",
     "now, local 0, refused 8, local 1, block 1, now, refused 2"),
    ("image_small", "With one type there is no other.", small(),
     "blocks=1; push; temp 0 0; temp 1 0; temp 255 0; temp 257 0; pop 0",
     "now, local 0, refused 2, refused 2, local 1, block 0"),
]


def body_scripts():
    """Name, rule, commands and answers: a body is taken, refused with a fault, and taken."""
    for number, (rule, good, bad) in enumerate(FAULTS):
        above = "" if rule.endswith("WithinLimit") else rubbish(COUNTS_THERE)
        yield (f"fault_{number}", rule,
               f"{WHOLE}; {good}; merge - -; {above}; {bad}; {SIX_CALLS}; {good}; merge - -",
               f"block -, {refused(2, 6)}, block -")


def call_scripts():
    """Name, rule, commands and answers: numbers in a call that name nothing."""
    for number, (rule, calls, answers) in enumerate(CALL_FAULTS):
        yield f"fault_call_{number}", rule, f"{WHOLE}; {calls}", answers
