"""Images that break rules: each rule alone, frames, operands, several at once."""

from bases import edited, hull, rig
from images import (
    ABSENT, ADT, BIND, BOOL, BOOLEAN, C_STRING, CHARACTER, CONSTANT, ENUM, FLOAT, HEADER_SIZE,
    INT, OR, OTHER, RECORD, REF, SLICE, STRING, STRUCT, TUPLE, TUPLE_STRUCT, TUPLE_TYPE, UINT,
    WILD, Image, framed,
)
from readable import literal7
from whole import (
    LIMITS, OPERANDS, all_limits, character, limit_variants, one_type, pattern_images,
    with_operand,
)

TYPE_PARTS = ("integer", "bool", "char", "str", "tuple", "struct", "enum", "union",
              "reference", "array", "slice")

# The ways a list from `a` of `b` words leaves the list: by one word, by all of them,
# empty behind the end, with an absent start, and round the end of 16 bits.
LIST_FAULTS = ("a=L b=1", "a=L-1 b=2", "a=L+1 b=0", "a=absent b=0", "a=L b=absent",
               "a=absent b=1", "a=65534 b=2")

# For each rule on types, variants and bindings, edits of the hull that break it alone.
HULL_FAULTS = {
    "typeKindExists": ["integer kind=0", "bool kind=10", "str kind=absent"],
    "copyIsFlag": [f"{part} copy=absent" for part in TYPE_PARTS],
    "integerSize": [f"integer a={size}" for size in (0, 3, 5, 7, 9, 15, 17, 32, 256, ABSENT)],
    "signedIsFlag": ["integer b=absent"],
    "tupleFieldsListed": [f"tuple {fault}" for fault in LIST_FAULTS],
    "tupleFieldsAreTypes": ["tupleField0 word=T", "tupleField1 word=T",
                            "tupleField1 word=absent"],
    "adtVariantsInTable": ["struct a=V", "struct a=absent", "enum a=V-2 b=3", "enum a=V b=1",
                           "enum a=65534 b=2", "union a=V", "union a=V+1"],
    "adtKindExists": ["struct c=3", "enum c=3", "union c=absent"],
    "structHasOneVariant": ["struct b=0", "struct a=V-2 b=2", "union b=0",
                            "union a=V-2 b=2", "enum c=0", "enum c=2", "struct a=V b=0"],
    "enumHas1To64": ["enum b=0", "struct b=0 c=1", "enum a=V b=0"],
    "referenceNamesType": ["reference a=T", "reference a=absent"],
    "arrayNamesType": ["array a=T", "array a=absent"],
    "arrayLengthPresent": ["array b=absent"],
    "sliceNamesType": ["slice a=T", "slice a=absent"],
    "adtsShareNoVariant": ["struct a=@enumFirst", "struct a=@enumLast",
                           "union a=@structVariant", "enum a=@structVariant", "enum a=0 b=V",
                           "struct a=@enumMiddle c=1", "tuple kind=6 a=@loose b=2 c=1; "
                           "slice kind=6 a=@looseLast b=1 c=2"],
    "fieldsListed": [f"{part} {fault}" for part in ("structVariant", "enumMiddle", "looseLast")
                     for fault in ("first=L count=1", "first=L-1 count=2", "first=L+1 count=0",
                                   "first=absent count=0", "first=65534 count=2",
                                   "first=L count=absent")],
    "fieldsAreTypes": ["structVariantField0 word=T", "structVariantField1 word=absent",
                       "unionVariantField0 word=T", "enumLastField1 word=T",
                       "looseField0 word=T"],
    "discriminantInData": [f"{part} discriminant={offset}" for part in
                           ("unionVariant", "structVariant", "enumMiddle", "looseLast")
                           for offset in ("D-15", "D", "absent", "65520")],
    "bindingNamesType": ["binding type=T", "bindingLast type=absent"],
    "pickedIsFlag": ["binding picked=absent", "bindingLast picked=absent"],
}

# For each rule on patterns, edits of the rig that break it alone.
RIG_FAULTS = {
    "patternKindExists": ["spare kind=17", "wild kind=255", "missing kind=absent"],
    "patternNamesType": ["spare type=T", "spare type=absent", "missing type=T", "rest type=T",
                         "slice type=T"],
    "derefsAtMost16": ["spare derefs=17", "spare derefs=absent", "missing derefs=17",
                       "rest derefs=256", "tuple derefs=17", "lit derefs=32"],
    "tupleListed": [f"tuple {fault}" for fault in LIST_FAULTS],
    "orListed": [f"or {fault}" for fault in LIST_FAULTS],
    "recordListed": ["record a=L b=1", "record a=L-1 b=1", "record a=L-2 b=2",
                     "record a=L+1 b=0", "record a=absent b=0", "record a=L b=32768",
                     "record a=65534 b=1"],
    "recordNamesVariant": ["record c=V", "record c=65534"],
    "rangeStartHolds": ["range a=L-2", "range a=L", "range a=65534"],
    "rangeEndHolds": ["range b=L-2", "range b=L", "range b=65534"],
    "halfOpenIsFlag": ["range c=absent", "range a=absent c=absent"],
    "sliceListed": ["slice a=L b=1 c=0", "slice a=L b=0 c=1", "slice a=L-1",
                    "slice a=L+1 b=0 c=0", "slice a=absent b=0 c=0", "slice a=L b=absent c=0",
                    "slice a=L b=0 c=absent", "slice a=L b=32768 c=32768",
                    "slice a=65534 b=1 c=1", "slice a=L b=absent c=1"],
    "pathKindExists": ["unresolved a=5", "otherPath a=absent"],
    "pathNamesVariant": ["variantPath b=V", "variantPath b=absent"],
    "pathNamesBinding": ["bindingPath b=B", "bindingPath b=absent"],
    "pathNamesConstant": ["constantPath b=@one0", "constantPath b=absent", "constantPath b=L",
                          "constantPath b=L-2", "constantPath b=@five1"],
    "litHolds": ["lit a=absent", "lit a=65533", "lit a=L", "lit a=L-2", "lit a=@one1"],
    "bindNamesBinding": ["bind a=B", "bind a=absent"],
    "modeExists": ["bind c=3", "bind c=absent"],
    "annotationExists": ["bind d=3", "bind d=absent"],
    "tupleStructListed": [f"tupleStruct {fault}" for fault in LIST_FAULTS],
    "tupleStructNamesVariant": ["tupleStruct d=V", "tupleStruct d=65534"],
    "subpatternsBelow": [
        f"{place}={number}" for place, parent in (
            ("tupleItem0 word", "tuple"), ("tupleItem1 word", "tuple"),
            ("orItem0 word", "or"), ("orItem1 word", "or"),
            ("recordWord1 word", "record"), ("recordWord3 word", "record"),
            ("sliceItem0 word", "slice"), ("sliceItem1 word", "slice"), ("slice d", "slice"),
            ("bind b", "bind"), ("tupleStructItem0 word", "tupleStruct"), ("ref a", "ref"))
        for number in (f"@{parent}", "@spare", "P", "absent")
        if number != "absent" or place not in ("slice d", "bind b")],
    "usedOnce": [
        "tupleItem1 word=@missing", "orItem0 word=@notNull", "or a=@tupleItem0",
        "or a=@tupleItem1", "recordWord3 word=@box", "recordWord1 word=@missing",
        "record a=@orItem0 b=1", "sliceItem1 word=@unresolved", "sliceItem0 word=@rest",
        "slice d=@missing", "slice d=@variantPath", "bind b=@missing", "bind b=@rest",
        "tupleStructItem0 word=@deref", "tupleStruct a=@sliceItem1", "ref a=@wild",
        "ref a=@bindingPath", "ref a=@rest", "ref a=@constantPath"],
}


def edit_faults():
    """The bases with one rule broken."""
    for base, faults in ((hull, HULL_FAULTS), (rig, RIG_FAULTS)):
        for rule, edits in faults.items():
            for edit in edits:
                name = f"{base.__name__}:{edit.replace(' ', ',')}"
                yield name, edited(base, edit).encode(), 0, [rule]


def small_faults():
    """Small images where nothing stands behind what is missing, and high numbers."""
    yield "enum65", one_type(ADT, 0, 65, ENUM, variants=65).encode(), 0, ["enumHas1To64"]
    yield "noList:type", one_type(TUPLE_TYPE, 0, 1).encode(), 0, ["tupleFieldsListed"]
    for name, row in (("tuple", (TUPLE, 0, 0, 1)), ("or", (OR, 0, 0, 1)),
                      ("record", (RECORD, 0, 0, 1, ABSENT)), ("slice", (SLICE, 0, 0, 0, 1, 0)),
                      ("tupleStruct", (TUPLE_STRUCT, 0, 0, 1, 0, ABSENT))):
        m = one_type(BOOL)
        m.add_pattern(*row)
        yield f"noList:{name}", m.encode(), 0, [f"{name}Listed"]
    for length in (0, 15):
        m = one_type(BOOL)
        m.variants.append([0, 0, 0])
        m.add_data(bytes(length))
        yield f"discriminant:{length}", m.encode(), 0, ["discriminantInData"]
    for name, m in pattern_images():
        m.patterns[-1][1] = len(m.types)
        yield f"{name}:noSuchType", m.encode(), 0, ["patternNamesType"]
    m = Image()
    m.add_pattern(WILD)
    yield "noType", m.encode(), 0, ["patternNamesType"]
    m = limit_variants(512)
    m.add_adt(STRUCT, 511, 1)
    yield "shared:511", m.encode(), 0, ["adtsShareNoVariant"]
    for number in (0, 64, 256, 509):
        m = one_type(BOOL)
        for _ in range(number):
            m.add_pattern(WILD)
        m.add_pattern(REF, 0, number)
        m.add_pattern(BIND, 0, 0, number)
        m.add_binding()
        yield f"twice:{number}", m.encode(), 0, ["usedOnce"]


# Operands that do not hold: a name, the three words and the data.
OPERAND_FAULTS = [
    ("twoWords", (STRING, 0), b""), ("oneWord", (STRING,), b""), ("noWord", (), b""),
    ("kind0", (0, 0, 0), b""), ("kind11", (11, 0, 0), b""), ("kindAbsent", (ABSENT, 0, 0), b""),
    ("stringPastData", (STRING, 1, 3), b"DNF"), ("emptyPastData", (STRING, 4, 0), b"DNF"),
    ("emptyAbsent", (STRING, ABSENT, 0), b"DNF"), ("countAbsent", (STRING, 0, ABSENT), b"DNF"),
    ("roundTheEnd", (STRING, 65534, 3), b"DNF"), ("intPastData", (INT, 1, 16), bytes(16)),
    ("cStringPastData", (C_STRING, 0, 1), b""), ("floatPastData", (FLOAT, 0, 9), bytes(8)),
    ("otherPastData", (OTHER, 3, 1), b"DNF"), ("boolPastData", (BOOLEAN, 1, 1), b"\1"),
    ("int15", (INT, 0, 15), bytes(17)), ("int17", (INT, 0, 17), bytes(17)),
    ("int0", (INT, 0, 0), bytes(17)), ("uint15", (UINT, 0, 15), bytes(17)),
    ("uint17", (UINT, 0, 17), bytes(17)), ("uint8", (UINT, 0, 8), bytes(17)),
    ("char3", (CHARACTER, 0, 3), bytes(5)), ("char5", (CHARACTER, 0, 5), bytes(5)),
    ("char1", (CHARACTER, 0, 1), bytes(5)), ("bool0", (BOOLEAN, 0, 0), bytes(2)),
    ("bool2Bytes", (BOOLEAN, 0, 2), bytes(2)), ("boolIs2", (BOOLEAN, 0, 1), b"\2"),
    ("boolIs255", (BOOLEAN, 0, 1), b"\xff"), ("constant0", (CONSTANT, 0, 0), bytes(17)),
    ("constant17", (CONSTANT, 0, 17), bytes(17)), ("constantPast", (CONSTANT, 1, 1), b"\5"),
    ("boolIs2Behind", (BOOLEAN, 2, 1), b"\0\0\2"),
    ("charD800Behind", (CHARACTER, 1, 4), b"\0" + character(0xD800)),
] + [(f"char{value:X}", (CHARACTER, 0, 4), character(value))
     for value in (0xD800, 0xDABC, 0xDFFF, 0x110000, 0x41000000, 0xFFFFFFFF)]

ROUTES = {"lit": "litHolds", "start": "rangeStartHolds", "end": "rangeEndHolds",
          "path": "pathNamesConstant"}


def operand_faults():
    """Every fault of an operand, by every route."""
    for name, words, data in OPERAND_FAULTS:
        for route, rule in ROUTES.items():
            yield f"{route}:{name}", with_operand(route, words, data).encode(), 0, [rule]
    for name, kind, content in OPERANDS:
        if kind != CONSTANT:
            m = with_operand("path", (kind, 0, len(content)), content)
            yield f"path:{name}", m.encode(), 0, ["pathNamesConstant"]


def limit_faults():
    """One past each limit, none at all, and far past."""
    for name, make, limit in LIMITS:
        yield f"past:{name}", make(limit + 1).encode(), 0, [f"{name}WithinLimit"]
    yield "noPattern", b"\0\0\0\x0d\1" + bytes(12), 0, ["patternsWithinLimit"]
    m = hull()
    m.patterns = []
    yield "hull:noPattern", m.encode(), 0, ["patternsWithinLimit"]
    row = Image()
    row.add_type(BOOL)
    start = row.encode()[HEADER_SIZE:]
    for name, place, count, size in (("patterns", 2, 4096, 14), ("bindings", 3, 16384, 4),
                                     ("list", 4, 40000, 2), ("data", 5, 65535, 1)):
        counts = [1, 0, 1, 0, 0, 0]
        counts[place] = count
        zeros = count * size + (14 if place != 2 else 0)
        head = b"".join(n.to_bytes(2, "big") for n in counts) + start
        frame = (1 + len(head) + zeros).to_bytes(4, "big") + b"\1" + head
        yield f"farPast:{name}", frame, zeros, [f"{name}WithinLimit"]


def recount(image, zeros=0):
    """The same bytes with the right count in front, for zeros that follow."""
    return (len(image) - 4 + zeros).to_bytes(4, "big") + image[4:]


LENGTH, TABLES = "countsWhatFollows", "tablesFillTheRest"


def frame_faults():
    """Wrong counts, versions and lengths of one small image."""
    whole = literal7().encode()
    for length in (*range(18), 20, 26, 27, 28, 40, 41, 42, 46, 47, 48, 61, 62):
        yield f"cut:{length}", whole[:length], 0, [LENGTH, TABLES]
        if length >= 4:
            yield f"cutRecounted:{length}", recount(whole[:length]), 0, [TABLES]
    follow = len(whole) - 4
    for count in (0, follow - 1, follow + 1, follow + 4, follow + 256, follow + 65536,
                  follow + (1 << 24), follow << 24, (1 << 32) - 1):
        yield f"count:{count}", count.to_bytes(4, "big") + whole[4:], 0, [LENGTH]
    for version in (0, 2, 128, 255):
        yield f"version:{version}", whole[:4] + bytes([version]) + whole[5:], 0, ["versionIsOne"]
    for place, letter in enumerate("TVPBLD"):
        for change in (-1, 1, 256):
            image, at = bytearray(whole), 5 + 2 * place
            count = int.from_bytes(image[at:at + 2], "big") + change
            if count >= 0:
                image[at:at + 2] = count.to_bytes(2, "big")
                yield f"frame:{letter}={count}", bytes(image), 0, [TABLES]
    # Lengths that come out right only if they are counted in 16 bits.
    for letter, place, count in (("L", 4, 32768 + 3), ("B", 3, 16384), ("V", 1, 32768)):
        image, at = bytearray(whole), 5 + 2 * place
        image[at:at + 2] = count.to_bytes(2, "big")
        yield f"round:{letter}={count}", bytes(image), 0, [TABLES]


def overlong_faults():
    """Valid images with bytes after them."""
    small, large = literal7().encode(), all_limits().encode()
    yield "oneMore", small + b"\1", 0, [LENGTH, TABLES]
    yield "oneMoreCounted", recount(small + b"\1"), 0, [TABLES]
    yield "twice", small + small, 0, [LENGTH, TABLES]
    for zeros in (1, 1000, 65536):
        yield f"zeros:{zeros}", small, zeros, [LENGTH, TABLES]
        yield f"zerosCounted:{zeros}", recount(small, zeros), zeros, [TABLES]
    yield "largestAndZeros", large, 65536, [LENGTH, TABLES]


def several_faults():
    """Images that break more than one rule."""
    for edit, rules in (
            ("enum a=V+1 b=0", ["adtVariantsInTable", "enumHas1To64"]),
            ("struct a=absent b=0", ["adtVariantsInTable", "structHasOneVariant"]),
            ("enum b=absent", ["adtVariantsInTable", "enumHas1To64"]),
            ("enum a=0 b=64", ["adtVariantsInTable", "adtsShareNoVariant"]),
            ("integer a=0 b=absent copy=absent", ["copyIsFlag", "integerSize", "signedIsFlag"]),
            ("array a=absent b=absent", ["arrayNamesType", "arrayLengthPresent"]),
            ("binding type=T picked=absent", ["bindingNamesType", "pickedIsFlag"])):
        yield f"hull:{edit.replace(' ', ',')}", edited(hull, edit).encode(), 0, rules
    for edit, rules in (
            ("bind a=B b=P c=3 d=3", ["bindNamesBinding", "modeExists", "annotationExists",
                                      "subpatternsBelow"]),
            ("range a=L b=L c=absent", ["rangeStartHolds", "rangeEndHolds", "halfOpenIsFlag"]),
            ("tupleItem0 word=@or; orItem0 word=@or", ["subpatternsBelow", "usedOnce"]),
            ("ref a=@ref; bind b=@ref", ["subpatternsBelow", "usedOnce"])):
        yield f"rig:{edit.replace(' ', ',')}", edited(rig, edit).encode(), 0, rules
    m = Image()
    m.add_type(BOOL)
    m.add_words(*[0] * 2048)
    m.add_pattern(WILD)
    for _ in range(511):
        m.add_pattern(TUPLE, 0, 0, 2048)
    yield "wide:patterns", m.encode(), 0, ["usedOnce"]
    yield "wrongFrame", framed(bytes(12), 7)[:-1], 0, [LENGTH, "versionIsOne", TABLES]


def fault_cases():
    """Name, bytes, zeros that follow and the rules broken, of every faulty image."""
    for cases in (frame_faults, overlong_faults, limit_faults, small_faults, edit_faults,
                  operand_faults, several_faults):
        yield from cases()
