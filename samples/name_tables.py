"""A name table's bytes: the rules on them, and how a name is found.

Four bytes big-endian, how many follow; version byte 1; the words N, at most 1,024, and C, at most 16,384; N rows of
five words, kind, number, of, start and count; C bytes of names. Kind 1 is the variant `number`, kind 2 the field
`number` of the variant `of`, kind 3 the constant whose operand stands at the list word `number`."""
import struct

from images import CONSTANT, holds

VARIANT_ROW, FIELD_ROW, CONSTANT_ROW = 1, 2, 3
MOST_ROWS, MOST_BYTES, HEADER, ROW = 1024, 16384, 9, 10


def rows(table):
    """each row's words, of a table whose frame is whole"""
    many = int.from_bytes(table[5:7], 'big')
    return [struct.unpack_from('>5H', table, HEADER + ROW * number) for number in range(many)]


def name_of(table, row):
    first = HEADER + ROW * int.from_bytes(table[5:7], 'big') + row[3]
    return table[first:first + row[4]]


def frame_holds(table):
    if len(table) < HEADER or int.from_bytes(table[:4], 'big') != len(table) - 4 or table[4] != 1:
        return False
    many, size = struct.unpack('>2H', table[5:HEADER])
    return many <= MOST_ROWS and size <= MOST_BYTES and len(table) == HEADER + ROW * many + size


def row_holds(m, size, kind, number, of, first, count):
    """a row names something that the sheet has"""
    if first + count > size:
        return False
    if kind == VARIANT_ROW:
        return number < len(m.variants)
    if kind == FIELD_ROW:
        return of < len(m.variants) and number < m.variants[of][1]
    return kind == CONSTANT_ROW and holds(m, number) and m.list[number] == CONSTANT


def breaks_a_rule(table, m):
    return not frame_holds(table) or not all(row_holds(m, int.from_bytes(table[7:9], 'big'), *row) for row in rows(table))


def first_number(table, name, *kinds):
    """kind and number of the first row of these kinds with this name"""
    return next((row[:2] for row in rows(table) if row[0] in kinds and name_of(table, row) == name), None)


def field_number(table, name, v):
    """the number of the first field of a variant with this name"""
    return next((row[1] for row in rows(table) if row[0] == FIELD_ROW and row[2] == v and name_of(table, row) == name), None)


def name_table(*given):
    """a table of rows: kind, number, of and name"""
    words, names = [], b''
    for kind, number, of, name in given:
        words += [kind, number, of, len(names), len(name)]
        names += name
    rest = struct.pack(f'>2H{len(words)}H', len(given), len(names), *words) + names
    return struct.pack('>IB', len(rest) + 1, 1) + rest
