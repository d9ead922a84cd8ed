"""Builds images, and judges images by the rules of the document.

`Image` holds the six tables before they are bytes. `broken` reads bytes and
names every rule that they break, in the document's order.
"""

import struct

ABSENT = 65535

INTEGER, BOOL, CHAR, STR, TUPLE_TYPE, ADT, REFERENCE, ARRAY, SLICE_TYPE = range(1, 10)
STRUCT, ENUM, UNION = range(3)
(MISSING, REST, NOT_NULL, WILD, TUPLE, OR, RECORD, RANGE, SLICE, PATH, LIT, BIND,
 TUPLE_STRUCT, REF, EXPR, BOX, DEREF) = range(17)
UNRESOLVED, NAMES_VARIANT, NAMES_BINDING, NAMES_CONSTANT, NAMES_OTHER = range(5)
(INT, UINT, CHARACTER, BOOLEAN, STRING, C_STRING, BYTE_STRING, CONSTANT, FLOAT,
 OTHER) = range(1, 11)

# The bytes of one entry of each table, and of all that stands before the tables.
ENTRY_SIZES = (10, 6, 14, 4, 2, 1)
HEADER_SIZE = 17

RULES = (
    # Frame
    "countsWhatFollows", "versionIsOne", "tablesFillTheRest",
    "typesWithinLimit", "variantsWithinLimit", "patternsWithinLimit",
    "bindingsWithinLimit", "listWithinLimit", "dataWithinLimit",
    # Types
    "typeKindExists", "copyIsFlag", "integerSize", "signedIsFlag",
    "tupleFieldsListed", "tupleFieldsAreTypes", "adtVariantsInTable",
    "adtKindExists", "structHasOneVariant", "enumHas1To64", "referenceNamesType",
    "arrayNamesType", "arrayLengthPresent", "sliceNamesType", "adtsShareNoVariant",
    # Variants
    "fieldsListed", "fieldsAreTypes", "discriminantInData",
    # Patterns
    "patternKindExists", "patternNamesType", "derefsAtMost16", "tupleListed",
    "orListed", "recordListed", "recordNamesVariant", "rangeStartHolds",
    "rangeEndHolds", "halfOpenIsFlag", "sliceListed", "pathKindExists",
    "pathNamesVariant", "pathNamesBinding", "pathNamesConstant", "litHolds",
    "bindNamesBinding", "modeExists", "annotationExists", "tupleStructListed",
    "tupleStructNamesVariant", "subpatternsBelow", "usedOnce",
    # Bindings
    "bindingNamesType", "pickedIsFlag",
)


class Image:
    """The six tables of an image. Every `add` answers the new entry's number."""

    def __init__(self):
        self.types, self.variants, self.patterns, self.bindings = [], [], [], []
        self.list, self.data = [], bytearray()
        self.names = {}

    def _add(self, table, row, name):
        """Adds a row; a name lets a later edit find it."""
        rows = getattr(self, table)
        rows.append(list(row))
        if name:
            self.names[name] = (table, len(rows) - 1)
        return len(rows) - 1

    def add_type(self, kind, a=0, b=0, c=0, copy=1, name=""):
        return self._add("types", (kind, a, b, c, copy), name)

    def add_variant(self, fields=(), discriminant=0, name=""):
        """A variant with its fields in the list and its discriminant in the data."""
        first = self.add_words(*fields, name=name and name + "Field")
        offset = self.add_data(discriminant.to_bytes(16, "little", signed=True))
        return self._add("variants", (first, len(fields), offset), name)

    def add_pattern(self, kind, type_=0, a=0, b=0, c=0, d=0, derefs=0, name=""):
        return self._add("patterns", (kind, type_, derefs, a, b, c, d), name)

    def add_binding(self, type_=0, picked=1, name=""):
        return self._add("bindings", (type_, picked), name)

    def add_words(self, *words, name=""):
        """Adds words to the list and answers where they start.

        With a name each word gets the name and its place, from 0.
        """
        start = len(self.list)
        self.list.extend(words)
        for place in range(len(words) if name else 0):
            self.names[f"{name}{place}"] = ("list", start + place)
        return start

    def add_data(self, content):
        """Adds bytes to the data and answers their offset."""
        self.data.extend(content)
        return len(self.data) - len(content)

    def add_operand(self, kind, content, name=""):
        """An operand in the list, its bytes in the data; answers where it starts."""
        offset = self.add_data(content)
        return self.add_words(kind, offset, len(content), name=name)

    def add_integer(self, value, kind=INT):
        """An integer operand: 16 little-endian bytes."""
        return self.add_operand(kind, value.to_bytes(16, "little", signed=kind == INT))

    def add_tuple_type(self, *fields, copy=1, name=""):
        start = self.add_words(*fields, name=name and name + "Field")
        return self.add_type(TUPLE_TYPE, start, len(fields), copy=copy, name=name)

    def add_adt(self, c, first, count, name=""):
        return self.add_type(ADT, first, count, c, copy=0, name=name)

    def counts(self):
        """T V P B L D."""
        return (len(self.types), len(self.variants), len(self.patterns),
                len(self.bindings), len(self.list), len(self.data))

    def encode(self):
        """The image as bytes."""
        words = list(self.counts())
        for table in (self.types, self.variants, self.patterns, self.bindings):
            for row in table:
                words.extend(row)
        words.extend(self.list)
        return framed(struct.pack(f">{len(words)}H", *words) + bytes(self.data))


def framed(rest, version=1):
    """Counts and tables, with version and count in front."""
    return struct.pack(">IB", len(rest) + 1, version) + rest


def read_counts(image):
    """The six counts of a header that is long enough."""
    return struct.unpack(">6H", image[5:HEADER_SIZE])


def decode(image):
    """The tables of bytes whose frame is whole."""
    types, variants, patterns, bindings, words, data = read_counts(image)
    tables, place = Image(), HEADER_SIZE
    for table, rows, width in ((tables.types, types, 5), (tables.variants, variants, 3),
                               (tables.patterns, patterns, 7),
                               (tables.bindings, bindings, 2)):
        for _ in range(rows):
            table.append(list(struct.unpack_from(f">{width}H", image, place)))
            place += 2 * width
    tables.list.extend(struct.unpack_from(f">{words}H", image, place))
    tables.data.extend(image[place + 2 * words:place + 2 * words + data])
    return tables


def broken(image):
    """The names of the rules that an image breaks; none if it is valid.

    If the tables do not fill the rest they cannot be read: then only the
    first three rules are judged. A list that runs past its table's end is
    judged by its words that are there.
    """
    found = {rule for rule, kept in frame_rules(image) if not kept}
    if "tablesFillTheRest" not in found:
        found.update(rule for rule, kept in table_rules(decode(image)) if not kept)
    return [rule for rule in RULES if rule in found]


def frame_rules(image):
    """Each rule on the frame, and whether it holds."""
    yield "countsWhatFollows", (len(image) >= 4
                                and int.from_bytes(image[:4], "big") == len(image) - 4)
    if len(image) >= 5:
        yield "versionIsOne", image[4] == 1
    if len(image) < HEADER_SIZE:
        yield "tablesFillTheRest", False
    else:
        tables = sum(n * size for n, size in zip(read_counts(image), ENTRY_SIZES))
        yield "tablesFillTheRest", HEADER_SIZE + tables == len(image)


def table_rules(m):
    """Each rule on counts and tables, and whether it holds."""
    yield "typesWithinLimit", len(m.types) <= 256
    yield "variantsWithinLimit", len(m.variants) <= 512
    yield "patternsWithinLimit", 1 <= len(m.patterns) <= 512
    yield "bindingsWithinLimit", len(m.bindings) <= 256
    yield "listWithinLimit", len(m.list) <= 2048
    yield "dataWithinLimit", len(m.data) <= 16384
    for row in m.types:
        yield from type_rules(m, *row)
    yield "adtsShareNoVariant", all_differ(variants_of_adts(m))
    for row in m.variants:
        yield from variant_rules(m, *row)
    for number, row in enumerate(m.patterns):
        yield from pattern_rules(m, *row)
        yield "subpatternsBelow", all(s < number for s in subpatterns(m, row))
    yield "usedOnce", all_differ(s for row in m.patterns for s in subpatterns(m, row)
                                 if s < len(m.patterns))
    for type_, picked in m.bindings:
        yield "bindingNamesType", type_ < len(m.types)
        yield "pickedIsFlag", picked != ABSENT


def all_differ(numbers):
    """No number stands twice."""
    numbers = list(numbers)
    return len(set(numbers)) == len(numbers)


def are_types(m, start, count):
    """The words of a part of the list all name types."""
    return all(word < len(m.types) for word in m.list[start:start + count])


def type_rules(m, kind, a, b, c, copy):
    """Each rule on one type, and whether it holds."""
    yield "typeKindExists", 1 <= kind <= 9
    yield "copyIsFlag", copy != ABSENT
    if kind == INTEGER:
        yield "integerSize", a in (1, 2, 4, 8, 16)
        yield "signedIsFlag", b != ABSENT
    if kind == TUPLE_TYPE:
        yield "tupleFieldsListed", a + b <= len(m.list)
        yield "tupleFieldsAreTypes", are_types(m, a, b)
    if kind == ADT:
        yield "adtVariantsInTable", a + b <= len(m.variants)
        yield "adtKindExists", c <= 2
        if c in (STRUCT, UNION):
            yield "structHasOneVariant", b == 1
        if c == ENUM:
            yield "enumHas1To64", 1 <= b <= 64
    if kind == REFERENCE:
        yield "referenceNamesType", a < len(m.types)
    if kind == ARRAY:
        yield "arrayNamesType", a < len(m.types)
        yield "arrayLengthPresent", b != ABSENT
    if kind == SLICE_TYPE:
        yield "sliceNamesType", a < len(m.types)


def variants_of_adts(m):
    """The variants of all ADTs, one after the other."""
    for kind, a, b, _, _ in m.types:
        if kind == ADT:
            yield from range(a, min(a + b, len(m.variants)))


def variant_rules(m, first, count, discriminant):
    """Each rule on one variant, and whether it holds."""
    yield "fieldsListed", first + count <= len(m.list)
    yield "fieldsAreTypes", are_types(m, first, count)
    yield "discriminantInData", discriminant + 16 <= len(m.data)


def pattern_rules(m, kind, type_, derefs, a, b, c, d):
    """Each rule on one pattern but those on its subpatterns, and whether it holds."""
    yield "patternKindExists", kind <= 16
    yield "patternNamesType", type_ < len(m.types)
    yield "derefsAtMost16", derefs <= 16
    if kind == TUPLE:
        yield "tupleListed", a + b <= len(m.list)
    if kind == OR:
        yield "orListed", a + b <= len(m.list)
    if kind == RECORD:
        yield "recordListed", a + 2 * b <= len(m.list)
        yield "recordNamesVariant", c == ABSENT or c < len(m.variants)
    if kind == RANGE:
        yield "rangeStartHolds", a == ABSENT or holds(m, a)
        yield "rangeEndHolds", b == ABSENT or holds(m, b)
        yield "halfOpenIsFlag", c != ABSENT
    if kind == SLICE:
        yield "sliceListed", a + b + c <= len(m.list)
    if kind == PATH:
        yield from path_rules(m, a, b)
    if kind == LIT:
        yield "litHolds", holds(m, a)
    if kind == BIND:
        yield "bindNamesBinding", a < len(m.bindings)
        yield "modeExists", c <= 2
        yield "annotationExists", d <= 2
    if kind == TUPLE_STRUCT:
        yield "tupleStructListed", a + b <= len(m.list)
        yield "tupleStructNamesVariant", d == ABSENT or d < len(m.variants)


def path_rules(m, a, b):
    """Each rule on a path, and whether it holds."""
    yield "pathKindExists", a <= 4
    if a == NAMES_VARIANT:
        yield "pathNamesVariant", b < len(m.variants)
    if a == NAMES_BINDING:
        yield "pathNamesBinding", b < len(m.bindings)
    if a == NAMES_CONSTANT:
        yield "pathNamesConstant", holds(m, b) and m.list[b] == CONSTANT


def subpatterns(m, row):
    """The words of a pattern that stand for subpatterns."""
    kind, _, _, a, b, c, d = row
    if kind in (TUPLE, OR, TUPLE_STRUCT):
        return m.list[a:a + b]
    if kind == RECORD:
        return m.list[a:a + 2 * b][1::2]
    if kind == SLICE:
        return m.list[a:a + b + c] + ([] if d == ABSENT else [d])
    if kind == BIND:
        return [] if b == ABSENT else [b]
    if kind == REF:
        return [a]
    return []


# The least and greatest byte count of an operand's kind; others have any.
OPERAND_SIZES = {INT: (16, 16), UINT: (16, 16), CHARACTER: (4, 4), BOOLEAN: (1, 1),
                 CONSTANT: (1, 16)}


def holds(m, start):
    """A whole operand starts at this word of the list."""
    return operand_fault(m, start) == ""


def operand_fault(m, start):
    """What is wrong first with the operand at this word of the list, if anything."""
    if start + 3 > len(m.list):
        return "inList"
    kind, offset, count = m.list[start:start + 3]
    if not 1 <= kind <= 10:
        return "kindExists"
    if offset + count > len(m.data):
        return "bytesInData"
    least, most = OPERAND_SIZES.get(kind, (0, ABSENT))
    if not least <= count <= most:
        return "size"
    value = int.from_bytes(m.data[offset:offset + count], "little")
    if kind == CHARACTER and (value > 0x10FFFF or 0xD800 <= value <= 0xDFFF):
        return "charIsScalar"
    if kind == BOOLEAN and value > 1:
        return "boolIs0Or1"
    return ""
