"""Valid images: every kind, the edges of the rules, what only looks wrong, the limits."""

from bases import edited, hull, rig
from images import (
    ABSENT, ADT, ARRAY, BIND, BOOL, BOOLEAN, BYTE_STRING, C_STRING, CHAR, CHARACTER,
    CONSTANT, ENUM, FLOAT, INT, INTEGER, LIT, MISSING, NAMES_CONSTANT, OR, OTHER, PATH, RANGE,
    RECORD, REF, REFERENCE, SLICE, SLICE_TYPE, STR, STRING, STRUCT, TUPLE, TUPLE_STRUCT,
    TUPLE_TYPE, UINT, UNION, WILD, Image,
)

# Edits of the bases that leave them valid.
HULL_EDGES = [
    "", "integer b=1", "integer b=2", "integer b=65534", "integer c=absent",
    "integer copy=0", "integer copy=2", "integer copy=65534", "str copy=1",
    "bool a=absent b=absent c=absent", "char a=absent b=absent c=absent",
    "str a=absent b=absent c=absent", "tuple c=absent", "reference b=absent c=absent",
    "array c=absent", "slice b=absent c=absent",
    "tuple a=L-1 b=1", "tuple a=L b=0", "tuple a=0 b=L", "tuple b=0", "tuple b=3",
    "tupleField1 word=T-1", "tupleField0 word=@tuple", "structVariantField1 word=T-1",
    "structVariantField0 word=@struct", "unionVariantField0 word=@enum",
    "looseField0 word=T-1", "structVariant first=L count=0", "structVariant first=0 count=L",
    "looseLast first=0 count=0", "looseLast first=L-1 count=1",
    "structVariant discriminant=D-16", "unionVariant discriminant=1",
    "loose discriminant=D-16", "loose discriminant=1", "enumLast discriminant=0",
    "struct a=V-1", "struct c=1", "struct c=2", "union c=0", "union c=1", "union a=V-2",
    "enum b=1", "enum b=2", "enum b=5", "enum a=V-1 b=1", "enum b=1 c=0", "enum b=1 c=2",
    "reference a=T-1", "reference a=@reference", "array a=T-1", "array a=@array",
    "slice a=T-2", "slice a=@slice", "array b=0", "array b=1", "array b=65534",
    "binding type=T-1", "binding picked=0", "binding picked=2", "binding picked=65534",
    "bindingLast type=T-1", "root type=T-1",
]
RIG_EDGES = [
    "", "spare type=T-1", "spare derefs=1", "spare derefs=16", "missing derefs=16",
    "tuple c=absent", "tuple c=9999", "tuple c=0", "tuple d=absent", "tuple b=0",
    "tuple b=1", "tuple a=L b=0", "tuple a=L-2 b=2", "tuple a=L-1 b=1",
    "or c=absent d=absent", "or b=0", "or a=L b=0", "or a=L-2",
    "record c=absent", "record c=V-1", "record d=absent", "record b=0", "record a=L b=0",
    "record a=L-2 b=1", "recordWord0 word=absent", "recordWord0 word=9999",
    "recordWord2 word=1", "recordWord0 word=@missing", "recordWord2 word=@record",
    "range a=absent", "range b=absent", "range a=absent b=absent", "range c=1",
    "range c=2", "range c=65534", "range d=absent", "range a=@three0 b=@five0",
    "slice d=absent", "slice b=0 c=2", "slice b=2 c=0", "slice b=0 c=0",
    "slice a=L b=0 c=0", "slice a=L-2", "slice d=@lit", "slice b=0 c=0 d=absent",
    "unresolved b=absent c=absent d=absent", "otherPath b=absent c=absent d=absent",
    "variantPath b=V-1 c=absent d=absent", "bindingPath b=B-1 c=absent d=absent",
    "constantPath c=absent d=absent", "lit b=absent c=absent d=absent", "lit a=@five0",
    "bind b=absent", "bind a=B-1", "bind b=@lit", "tupleStruct c=absent",
    "tupleStruct c=9999", "tupleStruct d=absent", "tupleStruct d=0", "tupleStruct b=0",
    "tupleStruct a=L b=0", "tupleStruct a=L-2 b=2", "ref b=absent c=absent d=absent",
    "tupleItem0 word=@tuple-1", "orItem1 word=@or-1", "recordWord3 word=@record-1",
    "sliceItem0 word=@slice-1", "slice d=@slice-1", "bind b=@bind-1",
    "tupleStructItem0 word=@tupleStruct-1", "ref a=@ref-1", "ref a=0; tuple b=0",
] + [f"{name} a=absent b=absent c=absent d=absent"
     for name in ("missing", "rest", "notNull", "wild", "expr", "box", "deref")
     ] + [f"bind c={mode} d={annotation}" for mode in range(3) for annotation in range(3)]


def character(value):
    """The four bytes of a char."""
    return value.to_bytes(4, "little")


# Operands that hold: a name, the kind and the bytes.
OPERANDS = [
    ("int", INT, bytes(16)), ("intAllOnes", INT, b"\xff" * 16), ("uint", UINT, bytes(16)),
    ("uintAllOnes", UINT, b"\xff" * 16), ("char0", CHARACTER, character(0)),
    ("charD7FF", CHARACTER, character(0xD7FF)), ("charE000", CHARACTER, character(0xE000)),
    ("char10FFFF", CHARACTER, character(0x10FFFF)), ("boolFalse", BOOLEAN, b"\0"),
    ("boolTrue", BOOLEAN, b"\1"), ("stringEmpty", STRING, b""), ("string", STRING, b"DNF"),
    ("stringNotUtf8", STRING, b"\xff\xc0\x80"), ("cStringEmpty", C_STRING, b""),
    ("cString", C_STRING, b"DNS\0"), ("cStringOpen", C_STRING, b"DNS"),
    ("byteString", BYTE_STRING, b"\x80\0\xff"), ("constant1", CONSTANT, b"\x05"),
    ("constant2", CONSTANT, b"\x05\x06"), ("constant16", CONSTANT, b"\xff" * 16),
    ("floatEmpty", FLOAT, b""), ("float8", FLOAT, bytes(8)), ("float20", FLOAT, bytes(20)),
    ("otherEmpty", OTHER, b""), ("other", OTHER, b"\xff" * 5),
]


def with_operand(route, words, data):
    """One pattern that points at an operand, by one of four routes."""
    m = Image()
    m.add_type(INTEGER, 1)
    start = m.add_words(*words[:3])
    m.add_data(data)
    row = {"lit": (LIT, 0, start), "start": (RANGE, 0, start, ABSENT),
           "end": (RANGE, 0, ABSENT, start), "path": (PATH, 0, NAMES_CONSTANT, start)}
    m.add_pattern(*row[route])
    return m


def operand_images():
    """Every operand that holds, by every route that takes it."""
    for name, kind, content in OPERANDS:
        for route in ("lit", "start", "end") + ("path",) * (kind == CONSTANT):
            yield f"{route}:{name}", with_operand(route, (kind, 0, len(content)), content)
    yield "lit:emptyAtDataEnd", with_operand("lit", (STRING, 3, 0), b"OCS")
    yield "lit:lastByte", with_operand("lit", (BOOLEAN, 2, 1), b"\2\2\1")


def one_type(kind, a=0, b=0, c=0, words=(), variants=0):
    """One type, a wild pattern on it."""
    m = Image()
    for value in range(variants):
        m.add_variant((), value)
    m.add_words(*words)
    m.add_type(kind, a, b, c)
    m.add_pattern(WILD, 0)
    return m


def type_images():
    """Each kind of type alone."""
    for size in (1, 2, 4, 8, 16):
        for signed in (0, 1):
            yield f"{'ui'[signed]}{8 * size}", one_type(INTEGER, size, signed)
    yield "bool", one_type(BOOL)
    yield "char", one_type(CHAR)
    yield "str", one_type(STR)
    yield "unit", one_type(TUPLE_TYPE)
    yield "tupleOfItself", one_type(TUPLE_TYPE, 0, 2, words=(0, 0))
    yield "struct", one_type(ADT, 0, 1, STRUCT, variants=1)
    yield "enum1", one_type(ADT, 0, 1, ENUM, variants=1)
    yield "enum64", one_type(ADT, 0, 64, ENUM, variants=64)
    yield "enumAtTableEnd", one_type(ADT, 3, 2, ENUM, variants=5)
    yield "union", one_type(ADT, 0, 1, UNION, variants=1)
    yield "referenceToItself", one_type(REFERENCE)
    yield "arrayOfItself", one_type(ARRAY, 0, 3)
    yield "arrayOfNone", one_type(ARRAY, 0, 0)
    yield "sliceOfItself", one_type(SLICE_TYPE)
    yield "variantOfNoAdt", one_type(BOOL, variants=1)


def pattern_images():
    """Each kind of pattern alone, with as little as it needs."""
    for kind in range(17):
        m = Image()
        m.add_type(BOOL)
        m.add_binding()
        operand = m.add_operand(BOOLEAN, b"\1")
        wild = m.add_pattern(WILD)
        a, b, c, d = {RECORD: (0, 0, ABSENT, 0), RANGE: (operand, operand, 0, 0),
                      SLICE: (0, 0, 0, wild), BIND: (0, wild, 0, 0),
                      TUPLE_STRUCT: (0, 0, 0, ABSENT), REF: (wild, 0, 0, 0)}.get(kind, (0,) * 4)
        m.add_pattern(kind, 0, a, b, c, d)
        yield f"pattern{kind}", m
    for kind in (TUPLE, OR, TUPLE_STRUCT, RECORD, SLICE):
        m = Image()
        m.add_type(BOOL)
        m.add_pattern(kind, 0, 0, 0, 0, ABSENT)
        if kind == RECORD:
            m.patterns[0][5] = ABSENT
        yield f"pattern{kind}:noListAtAll", m


def odd_images():
    """What is valid and looks wrong."""
    m = rig()
    m.add_words(0, ABSENT, ABSENT, 11, 0, 0, INT, 0, 15, BOOLEAN, ABSENT, 1)
    yield "damagedOperandsUnused", m
    m = Image()
    m.add_tuple_type(0, 1, 0)
    m.add_type(TUPLE_TYPE, 1, 2)
    m.add_type(TUPLE_TYPE, 2, 1)
    m.add_pattern(WILD, 2)
    yield "overlappingTypeLists", m
    m = Image()
    m.add_type(BOOL)
    m.add_words(INT, 0, 16, 0)
    m.add_data(bytes(16))
    m.add_type(TUPLE_TYPE, 0, 2)
    m.add_pattern(LIT, 0, 0)
    m.add_pattern(RANGE, 0, 0, 0)
    yield "operandAlsoTypeList", m
    m = Image()
    m.add_type(BOOL)
    m.add_pattern(MISSING)
    m.add_words(0, 0, 0)
    m.add_pattern(RECORD, 0, 1, 1, ABSENT)
    m.add_pattern(OR, 0, 2, 0)
    m.add_pattern(OR, 0, 2, 0)
    yield "emptyListsShared", m


def limit_types(count):
    """So many types, the last a reference to itself."""
    m = Image()
    for _ in range(count - 1):
        m.add_type(BOOL)
    m.add_type(REFERENCE, count - 1)
    m.add_pattern(WILD, count - 1)
    return m


def limit_variants(count):
    """So many variants, the first 512 in eight enums."""
    m = Image()
    m.add_data(bytes(16))
    m.variants = [[0, 0, 0] for _ in range(count)]
    for first in range(0, 512, 64):
        m.add_adt(ENUM, first, 64)
    m.add_pattern(TUPLE_STRUCT, 7, 0, 0, 0, count - 1)
    return m


def limit_patterns(count):
    """A chain of so many patterns."""
    m = Image()
    m.add_type(REFERENCE)
    m.add_pattern(WILD)
    for below in range(count - 1):
        m.add_pattern(REF, 0, below)
    return m


def limit_bindings(count):
    """So many bindings, the last one bound."""
    m = Image()
    m.add_type(BOOL)
    for number in range(count):
        m.add_binding(0, number % 2)
    m.add_pattern(BIND, 0, count - 1, ABSENT)
    return m


def limit_list(count):
    """So many list words, in a tuple type's list; the last three are an operand."""
    m = Image()
    m.add_words(*[1] * (count - 3), STRING, 0, 0)
    for _ in range(STRING):
        m.add_type(TUPLE_TYPE, 0, count)
    m.add_type(STR)
    m.add_pattern(LIT, 0, count - 3)
    return m


def limit_data(count):
    """So many data bytes, all in one string."""
    return with_operand("lit", (STRING, 0, count), b"!" + bytes(count - 1))


def all_limits():
    """Every table as long as it can be."""
    m = limit_variants(512)
    m.patterns = []
    m.add_type(BOOL)
    m.add_words(*range(511), CONSTANT, 16368, 16)
    m.add_words(*[word % 256 for word in range(2048 - 514)])
    while len(m.types) < 256:
        m.add_type(TUPLE_TYPE, 514, 2048 - 514)
    m.add_data(bytes(range(256)) + bytes(16384 - 16 - 256))
    for number in range(256):
        m.add_binding(255 - number)
        m.add_pattern(BIND, number, number, ABSENT, number % 3, number % 2)
    for number in range(255):
        m.add_pattern(PATH, 8, NAMES_CONSTANT, 511)
    m.add_pattern(OR, 8, 0, 511)
    return m


LIMITS = (("types", limit_types, 256), ("variants", limit_variants, 512),
          ("patterns", limit_patterns, 512), ("bindings", limit_bindings, 256),
          ("list", limit_list, 2048), ("data", limit_data, 16384))


def wide_types():
    """256 tuple types that all list the same 2048 words."""
    m = Image()
    m.add_words(*[word % 256 for word in range(2048)])
    m.types = [[TUPLE_TYPE, 0, 2048, 0, 1] for _ in range(256)]
    m.add_pattern(WILD, 255)
    return m


def wide_variants():
    """512 variants that all list the same 2048 words."""
    m = limit_variants(512)
    m.add_words(*[word % 8 for word in range(2048)])
    m.variants = [[0, 2048, 0] for _ in range(512)]
    return m


def limit_images():
    """Images at each limit, at all of them, and wide ones."""
    for name, make, limit in LIMITS:
        yield f"limit:{name}", make(limit)
    yield "limit:data:lastByte", with_operand("lit", (BOOLEAN, 16383, 1), bytes(16383) + b"\1")
    yield "limit:all", all_limits()
    yield "wide:types", wide_types()
    yield "wide:variants", wide_variants()


def valid_images():
    """The name and the tables of every valid image but the random ones."""
    yield from type_images()
    yield from pattern_images()
    yield from operand_images()
    yield from odd_images()
    for base, edits in ((hull, HULL_EDGES), (rig, RIG_EDGES)):
        for edit in edits:
            yield f"{base.__name__}:{edit.replace(' ', ',')}".rstrip(":"), edited(base, edit)
    yield from limit_images()
