"""Calls on the reader of texts at its edges: the order of the refusals, broken sheets and name tables, names and
types alike, limits.

A case is its name, the text, the sheet, the name table and the expected type."""
import struct
from pathlib import Path

from images import (
    ADT, ARRAY, BOOL, CONSTANT, ENUM, INTEGER, REFERENCE, SLICE_TYPE, STRUCT, UINT, UNION, WILD, Image,
)
from name_tables import CONSTANT_ROW, FIELD_ROW, VARIANT_ROW, name_table
from reading import read

HERE = Path(__file__).resolve().parent
U8, BY_REF, BY_MUT, PAIR, S, E, THREE, SLICE, BOOLEAN, RAW = range(10)


def small():
    """u8, two references to it, a pair, a struct, an enum, an array, a slice, bool, a union, and a constant at the list's front"""
    m = Image()
    m.add_operand(CONSTANT, b'\x28')
    m.add_type(INTEGER, 1)
    m.add_type(REFERENCE, U8)
    m.add_type(REFERENCE, U8, copy=0)
    m.add_tuple_type(U8, U8)
    m.add_variant((U8, U8))
    m.add_adt(STRUCT, 0, 1)
    m.add_variant()
    m.add_variant((U8,), 1)
    m.add_adt(ENUM, 1, 2)
    m.add_type(ARRAY, U8, 3)
    m.add_type(SLICE_TYPE, U8, copy=0)
    m.add_type(BOOL)
    m.add_variant((U8,))
    m.add_adt(UNION, 3, 1)
    return m


ROWS = ((VARIANT_ROW, 0, 0, b'S'), (FIELD_ROW, 0, 0, b'a'), (FIELD_ROW, 1, 0, b'b'), (VARIANT_ROW, 1, 0, b'E::A'), (VARIANT_ROW, 2, 0, b'E::B'),
        (FIELD_ROW, 0, 2, b'0'), (CONSTANT_ROW, 0, 0, b'LAST'), (VARIANT_ROW, 1, 0, b'A'), (VARIANT_ROW, 3, 0, b'U'), (FIELD_ROW, 0, 3, b'raw'))
SHEET, NAMES = small().encode(), name_table(*ROWS)


# Texts on the struct, and on the enum.
OF_S = '''S { a, b }
S { ref a, mut b, }
S { r#a: r#b, .. }
S { c: _ }
S { ref c }
S { a: _, ref r#c }
S { 0: _ }
S { LAST }
S {}
S { a: 1, a: 2 }
S(x, y)
S(..)
S(x, .., y)
S(x, y, z)
S(x, y, .., z)
S (.., x, y, z)
E::B(x)'''
OF_E = '''E::B { 0: x }
E::B { 00: x }
E::B { 0_: x }
E::B(x) | E::A
E /* a */ :: /* b */ A
r#E::r#A
ref A
mut A
A @ _
ref r#A
E::A @ _
S { a, .. }
S { ref a, .. }
S { ref c, .. }
E::B
E::B()
U { raw }
LAST
LAST @ 1
E
E::C
E::A {}
E::A()'''
# Texts, two spaces between them, behind the number of their type.
TYPED = '''0 [x @ ..]  []  [..]  [x]  ()  (x,)  S {}  E::B()  (((x)))  | x  x @ x  x | x
1 &x  &mut x  & &x  &&x  x  1  1..LAST  x @ 1  1 | _
2 &mut x  &x  LAST  (x)
3 (x, ref mut y)  (x, ref y) | (ref y, x)  (..)  (.., x)  (x, y, ..)  (x, .., y, z)  (x)  (x,)  x @ (y, z)
6 [x, ..]  [x, y @ ..]  [ref y @ .., x]  [y @ .., a, b, c]  [y @ .., a, b, c, d]  [a, b, c, d, e]
7 []  [x @ ..]  [ref x @ .., y]  [A @ ..]
8 true | false  '\\u{1F6A9}'  'z'..=true'''


def called(text):
    """a text as a name, which has no spaces"""
    return text.replace(' ', '_')


def changed(content, at, value):
    """bytes with one word changed"""
    return content[:at] + struct.pack('>H', value) + content[at + 2:]


def grammar_cases():
    """texts in and outside the grammar, with the positions that text_grammar.txt states"""
    for line in (HERE / 'text_grammar.txt').read_text().splitlines()[1:]:
        at, text = line.split(' ', 1)
        answer = read(text.encode(), SHEET, NAMES, U8)
        assert answer == (19, int(at), 0) if at != '-' else answer[0] != 19, (text, at, answer)
        yield called(text), text.encode(), SHEET, NAMES, U8


def order_cases():
    """each refusal is tried over everything before the next"""
    many = b'_|' * 600
    yield '19-before-1', b'(', b'', b'', 65535
    yield '1-before-2', b'_', b'', b'', 65535
    yield '1-before-20', b'E::C', SHEET[:-1], NAMES, 0
    yield '2-before-20', b'E::C', SHEET, NAMES, 10
    yield '2-by-names-before-20', b'E::C', SHEET, b'', 0
    yield '20-before-a-limit', many + b'E::C', SHEET, NAMES, 0
    yield 'a-limit', many + b'_', SHEET, NAMES, 0
    yield 'type-65535', b'_', SHEET, NAMES, 65535
    yield 'longest-text', b'_' + b' ' * 16383, SHEET, NAMES, 0
    yield 'text-too-long', b'_' + b' ' * 16384, SHEET, NAMES, 0


def sheet_cases():
    """sheets that break a rule, and sheets that have patterns already"""
    for name, sheet in (('empty', b''), ('short', SHEET[:16]), ('cut', SHEET[:-1]), ('longer', SHEET + b'\0'), ('version', SHEET[:4] + b'\2' + SHEET[5:]),
                        ('type-kind', changed(SHEET, 17, 10)), ('many-patterns', changed(SHEET, 9, 513))):
        yield name, b'x', sheet, NAMES, 0
    no_variants = Image()
    yield 'no-types', b'_', no_variants.encode(), name_table(), 0
    with_binding = small()
    with_binding.add_binding(U8)
    yield 'a-binding-alone', b'x', with_binding.encode(), NAMES, 0
    first = read(b'(x, 1 | 2)', SHEET, NAMES, PAIR)
    yield 'a-second-text', b'(2.., ref x)', first, NAMES, PAIR
    yield 'a-third-text', b'(y, x)', read(b'(2.., ref x)', first, NAMES, PAIR), NAMES, PAIR
    two_roots = small()
    two_roots.add_pattern(WILD, U8)
    two_roots.add_pattern(WILD, U8)
    yield 'roots-stand-apart', b'[_, ..]', two_roots.encode(), NAMES, THREE


def name_cases():
    """name tables that break a rule, and the largest one"""
    for name, table in (('empty', b''), ('short', NAMES[:8]), ('cut', NAMES[:-1]), ('longer', NAMES + b'x'), ('version', NAMES[:4] + b'\0' + NAMES[5:]),
                        ('kind-0', changed(NAMES, 9, 0)), ('kind-4', changed(NAMES, 9, 4)), ('past-the-names', changed(NAMES, 17, 60000))):
        yield name, b'x', SHEET, table, 0
    for name, row in (('variant-missing', (VARIANT_ROW, 4, 0, b'X')), ('field-of-nothing', (FIELD_ROW, 0, 4, b'x')), ('field-missing', (FIELD_ROW, 2, 0, b'c')),
                      ('constant-of-another-kind', (CONSTANT_ROW, 1, 0, b'X')), ('constant-past-the-list', (CONSTANT_ROW, 65535, 0, b'X'))):
        yield name, b'x', SHEET, name_table(*ROWS, row), 0
    yield 'words-not-looked-at', b'A', SHEET, name_table((VARIANT_ROW, 1, 65535, b'A'), (CONSTANT_ROW, 0, 9, b'C')), E
    yield 'most-rows', b'E::A', SHEET, name_table(*[(VARIANT_ROW, 0, 0, b'')] * 1023, (VARIANT_ROW, 1, 0, b'E::A')), E
    yield 'a-row-too-many', b'E::A', SHEET, name_table(*[(VARIANT_ROW, 1, 0, b'')] * 1025), E
    yield 'most-bytes', b'x', SHEET, name_table((VARIANT_ROW, 1, 0, b'n' * 16384)), E
    yield 'a-byte-too-many', b'x', SHEET, name_table((VARIANT_ROW, 1, 0, b'n' * 16385)), E


def found_cases():
    """of names alike the first serves, for its use"""
    both = ((CONSTANT_ROW, 0, 0, b'X'), (VARIANT_ROW, 1, 0, b'X'), (VARIANT_ROW, 2, 0, b'X'))
    for name, text, table in (('constant-first', b'X', both), ('variant-first', b'X', both[1:] + both[:1]), ('tuple-struct', b'X()', both),
                              ('bound', b'X..', both[1:] + both[:1]), ('no-constant', b'X..', both[1:]), ('no-variant', b'X()', both[:1]),
                              ('spaces-in-a-row', b'E::A', ((VARIANT_ROW, 1, 0, b'E :: A'),)), ('keyword', b'r#if', ((VARIANT_ROW, 1, 0, b'if'),)),
                              ('row-of-nothing', b'_', ((VARIANT_ROW, 1, 0, b''),)), ('path-of-a-record', b'S', ROWS), ('part-of-a-path', b'E', ROWS)):
        yield name, text, SHEET, name_table(*table), E
    for text in OF_S.splitlines():
        yield called(text), text.encode(), SHEET, NAMES, S
    for text in OF_E.splitlines():
        yield 'e:' + called(text), text.encode(), SHEET, NAMES, E
    yield 'constant-as-a-field', b'U { raw: LAST }', SHEET, name_table(*ROWS, (CONSTANT_ROW, 0, 0, b'raw')), RAW
    yield 'shorthand-is-a-constant', b'U { raw }', SHEET, name_table(*ROWS, (CONSTANT_ROW, 0, 0, b'raw')), RAW
    yield 'shorthand-is-a-constant-by-ref', b'U { ref raw }', SHEET, name_table(*ROWS, (CONSTANT_ROW, 0, 0, b'raw')), RAW


def type_cases():
    """parts, derefs, modes, and types alike"""
    for line in TYPED.splitlines():
        expected, texts = line.split(' ', 1)
        for text in texts.split('  '):
            yield f't{expected}:{called(text)}', text.encode(), SHEET, NAMES, int(expected)
    m = small()
    odd_ref, odd_array = m.add_type(REFERENCE, PAIR, 7, 9, 2), m.add_type(ARRAY, U8, 1, 8, 3)
    pair_mut = m.add_type(REFERENCE, PAIR, copy=0)
    m.types[U8][4] = 4
    yield 'alike-by-what-is-used', b'ref x', m.encode(), NAMES, PAIR
    yield 'alike-array', b'[_, x @ .., _]', m.encode(), NAMES, THREE
    yield 'array-of-an-odd-flag', b'[x @ .., _]', m.encode(), NAMES, THREE
    yield 'crossed-by-ref', b'(x, y)', m.encode(), NAMES, odd_ref
    yield 'crossed-by-ref-mut', b'(x, mut y)', m.encode(), NAMES, pair_mut
    yield 'odd-flag-is-not-set', b'&(x, y)', m.encode(), NAMES, odd_ref
    yield 'odd-flag-is-mut', b'&mut (x, y)', m.encode(), NAMES, odd_ref
    both = m.add_type(REFERENCE, odd_ref, copy=0)
    under = m.add_type(REFERENCE, both)
    pair_ref = m.add_type(REFERENCE, pair_mut)
    yield 'ref-mut-then-ref', b'(x, _)', m.encode(), NAMES, both
    yield 'ref-stays', b'(x, ref mut y)', m.encode(), NAMES, under
    yield 'set-back', b'&(x, &mut &y)', m.encode(), NAMES, under
    yield 'set-back-below', b'&&mut (x, y)', m.encode(), NAMES, under
    nested = m.add_type(REFERENCE, m.add_tuple_type(U8, PAIR))
    yield 'behind-a-name', b'(_, x @ (y, z))', m.encode(), NAMES, nested
    yield 'behind-a-name-by-mut', b'(_, mut x @ (y, ref z))', m.encode(), NAMES, nested
    yield 'ref-stays-behind-ref-mut', b'(x, _)', m.encode(), NAMES, pair_ref
    yield 'array-flagged', b'x', m.encode(), NAMES, odd_array


def chain(length, round_=False):
    """references one behind the other, the last to u8 or to the first"""
    m = Image()
    m.add_type(INTEGER, 1)
    for number in range(length):
        m.add_type(REFERENCE, number)
    if round_:
        m.types[1][1] = length
    return m.encode(), name_table(), length


def limit_cases():
    """the last that is taken and the first that is not"""
    for many in (511, 512):
        yield f'{many}-alternatives', b'|'.join([b'_'] * many), SHEET, NAMES, U8
        yield f'{many}-references', b'&' * many + b'x', *chain(1, True)
    for derefs in (16, 17):
        yield f'{derefs}-derefs', b'7', *chain(derefs)
        yield f'{derefs}-derefs-of-a-name', b'x', *chain(derefs)
    for text in (b'7', b'()', b'(x,)', b'[..]', b'[x @ ..]', b'&x', b'x'):
        yield 'round:' + called(text.decode()), text, *chain(2, True)
    for many in (256, 257):
        wide = Image()
        wide.add_type(INTEGER, 1)
        wide.add_tuple_type(*[0] * 257)
        names = b', '.join(b'x%d' % number for number in range(many))
        yield f'{many}-bindings', b'(' + names + (b', ..)' if many < 257 else b')'), wide.encode(), name_table(), 1
        types = Image()
        for _ in range(many - 1):
            types.add_type(INTEGER, 1)
        yield f'{many}-types', b'ref x', types.encode(), name_table(), 0
    for words in (2042, 2043):
        yield f'{words + 6}-list-words', b'1..2', filled(words, 0), name_table(), 0
    for size in (16384 - 16, 16384 - 15):
        yield f'{size + 16}-data-bytes', b'1', filled(0, size), name_table(), 0


def filled(words, size):
    """a sheet of u8 with so many list words and data bytes"""
    m = Image()
    m.add_type(INTEGER, 1)
    m.add_words(*[0] * words)
    m.add_data(bytes(size))
    return m.encode()


def deep_cases():
    """texts that lie deep"""
    yield '16383-references', b'&' * 16383 + b'x', *chain(1, True)
    yield '8191-parentheses', b'(' * 8191 + b'x' + b')' * 8191, SHEET, NAMES, U8
    yield '8191-tuples', b'(' * 5461 + b'x' + b',)' * 5461, SHEET, NAMES, U8
    yield '16384-digits', b'0' * 16384, SHEET, NAMES, U8
    yield '16384-nines', b'9' * 16384, SHEET, NAMES, U8
    yield 'open-brackets', b'[' * 16384, SHEET, NAMES, U8
    yield 'names-at', b'x@' * 8191 + b'x', SHEET, NAMES, U8


def all_cases():
    for sort, cases in (('grammar', grammar_cases), ('order', order_cases), ('sheet', sheet_cases), ('names', name_cases), ('found', found_cases), ('types', type_cases),
                        ('limits', limit_cases), ('deep', deep_cases)):
        for name, *call in cases():
            yield f'{sort}:{name}', *call
