"""Two valid images to edit, and a short notation for edits.

An edit such as `tuple a=L-1 b=2; or c=absent` sets words of named entries. A
value is a number, `absent`, one of the counts T V P B L D, or `@` and the name
of an entry, which stands for its number; counts and names may have an offset.
"""

import re

from images import (
    ABSENT, ARRAY, BIND, BOOL, BOX, CHAR, CONSTANT, DEREF, ENUM, EXPR, INT, INTEGER, LIT,
    MISSING, NAMES_BINDING, NAMES_CONSTANT, NAMES_OTHER, NAMES_VARIANT, NOT_NULL, OR, PATH,
    RANGE, RECORD, REF, REFERENCE, REST, SLICE, SLICE_TYPE, STR, STRUCT, TUPLE,
    TUPLE_STRUCT, UINT, UNION, UNRESOLVED, WILD, Image,
)

COLUMNS = {
    "types": ("kind", "a", "b", "c", "copy"),
    "variants": ("first", "count", "discriminant"),
    "patterns": ("kind", "type", "derefs", "a", "b", "c", "d"),
    "bindings": ("type", "picked"),
}


def number_of(m, text):
    """The number that a value in an edit stands for."""
    if text == "absent":
        return ABSENT
    if text.isdigit():
        return int(text)
    name, offset = re.fullmatch(r"(@?\w+)([+-]\d+)?", text).groups()
    base = m.names[name[1:]][1] if name[0] == "@" else m.counts()["TVPBLD".index(name)]
    return base + int(offset or 0)


def edited(base, edit):
    """A base with the words of an edit set."""
    m = base()
    for change in filter(None, edit.split("; ")):
        part, *settings = change.split()
        table, row = m.names[part]
        for setting in settings:
            column, value = setting.split("=")
            if table == "list":
                m.list[row] = number_of(m, value)
            else:
                getattr(m, table)[row][COLUMNS[table].index(column)] = number_of(m, value)
    return m


def hull():
    """Every kind of type, with variants, bindings and one pattern."""
    m = Image()
    integer = m.add_type(INTEGER, 2, name="integer")
    flag = m.add_type(BOOL, name="bool")
    m.add_type(CHAR, name="char")
    text = m.add_type(STR, copy=0, name="str")
    m.add_tuple_type(integer, flag, name="tuple")
    of_union = m.add_variant([integer], name="unionVariant")
    of_struct = m.add_variant([integer, flag], name="structVariant")
    m.add_adt(STRUCT, of_struct, 1, name="struct")
    first = m.add_variant([], 0, name="enumFirst")
    m.add_variant([integer], -1, name="enumMiddle")
    m.add_variant([flag, flag], 2, name="enumLast")
    m.add_adt(ENUM, first, 3, name="enum")
    m.add_adt(UNION, of_union, 1, name="union")
    m.add_variant([text], 3, name="loose")
    m.add_variant([], 4, name="looseLast")
    m.add_type(REFERENCE, text, name="reference")
    m.add_type(ARRAY, integer, 4, name="array")
    m.add_type(SLICE_TYPE, integer, copy=0, name="slice")
    m.add_binding(integer, 1, name="binding")
    m.add_binding(flag, 0, name="bindingLast")
    m.add_pattern(WILD, integer, name="root")
    return m


def rig_types(m):
    """The types, variants and bindings that the rig's patterns name."""
    u8 = m.add_type(INTEGER, 1)
    m.add_type(BOOL)
    pair = m.add_tuple_type(u8, u8)
    pointer = m.add_type(REFERENCE, u8)
    legs = m.add_type(SLICE_TYPE, u8, copy=0)
    for value, fields in enumerate(([u8, u8], [], [u8])):
        m.add_variant(fields, value)
    finish = m.add_adt(ENUM, 0, 3)
    m.add_binding(u8)
    m.add_binding(pointer)
    return u8, pair, pointer, legs, finish


def rig_leaves(m, u8, finish):
    """The patterns with nothing below: their numbers by name."""
    one = m.add_operand(INT, (1).to_bytes(16, "little"), name="one")
    three = m.add_operand(UINT, (3).to_bytes(16, "little"), name="three")
    five = m.add_operand(CONSTANT, bytes([5]), name="five")
    rows = (("missing", MISSING), ("rest", REST), ("notNull", NOT_NULL), ("wild", WILD),
            ("expr", EXPR), ("box", BOX), ("deref", DEREF),
            ("unresolved", PATH, u8, UNRESOLVED),
            ("variantPath", PATH, finish, NAMES_VARIANT, 1),
            ("bindingPath", PATH, u8, NAMES_BINDING, 1),
            ("constantPath", PATH, u8, NAMES_CONSTANT, five),
            ("otherPath", PATH, u8, NAMES_OTHER),
            ("lit", LIT, u8, one), ("range", RANGE, u8, one, three))
    return {name: m.add_pattern(*row, name=name) for name, *row in rows}


def rig():
    """Every kind of pattern and path; the last two list words name unused leaves."""
    m = Image()
    u8, pair, pointer, legs, finish = rig_types(m)
    leaf = rig_leaves(m, u8, finish)
    items = m.add_words(leaf["missing"], leaf["notNull"], name="tupleItem")
    m.add_pattern(TUPLE, pair, items, 2, 1, name="tuple")
    items = m.add_words(leaf["wild"], leaf["expr"], name="orItem")
    m.add_pattern(OR, u8, items, 2, name="or")
    items = m.add_words(1, leaf["box"], 0, leaf["deref"], name="recordWord")
    m.add_pattern(RECORD, finish, items, 2, 0, name="record")
    items = m.add_words(leaf["unresolved"], leaf["variantPath"], name="sliceItem")
    m.add_pattern(SLICE, legs, items, 1, 1, leaf["rest"], derefs=1, name="slice")
    m.add_pattern(BIND, u8, 0, leaf["bindingPath"], 1, 1, name="bind")
    items = m.add_words(leaf["constantPath"], name="tupleStructItem")
    m.add_pattern(TUPLE_STRUCT, finish, items, 1, 0, 2, name="tupleStruct")
    m.add_pattern(REF, pointer, leaf["otherPath"], name="ref")
    m.add_pattern(WILD, u8, name="spare")
    m.add_words(leaf["lit"], leaf["range"], name="last")
    return m
