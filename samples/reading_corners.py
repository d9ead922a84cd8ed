"""The corners of text_corners.txt, and the notation of their answers."""
import re
from pathlib import Path

from fits import fits
from images import ABSENT, decode
from reading import read

HERE = Path(__file__).resolve().parent
# From so many characters on an answer in the file is cut.
CUT_AT = 600
KINDS = 'Missing Rest NotNull Wild Tuple Or Record Range Slice Path Lit Bind TupleStruct Ref Expr Box Deref'.split()
LINE = re.compile(r"(b'.*?'|b\".*?\")(?:\.\.\.(\d+) bytes)? : t(\d+) -> (.*)")


def absent(word):
    return '-' if word == ABSENT else str(word)


def added(image, sheet):
    """what an image has that its sheet has not"""
    m, s, said = decode(image), decode(sheet), []
    for number in range(len(s.types), len(m.types)):
        said.append(f"type {number}: {' '.join(map(str, m.types[number]))}")
    for number in range(len(s.patterns), len(m.patterns)):
        kind, type_, derefs, *words = m.patterns[number]
        said.append(f"pat {number}: {KINDS[kind]} t{type_} d{derefs} {' '.join(map(absent, words))}")
    for number in range(len(s.bindings), len(m.bindings)):
        said.append(f'binding {number}: t{m.bindings[number][0]} {m.bindings[number][1]}')
    if len(m.list) > len(s.list):
        said.append(f"list {len(s.list)}: {' '.join(map(str, m.list[len(s.list):]))}")
    if len(m.data) > len(s.data):
        said.append(f'data {len(s.data)}: {bytes(m.data[len(s.data):]).hex()}')
    return '; '.join(said)


def image_fits(image, expected):
    """the image's last pattern fits the expected type, with locals that all differ"""
    m = decode(image)
    return fits(m, len(m.patterns) - 1, expected, 0, tuple(range(1, len(m.bindings) + 1)))


def told(text, sheet, names, expected):
    """an answer as the corners have it"""
    answer = read(text, sheet, names, expected)
    if not isinstance(answer, bytes):
        return 'refused %d %d %d' % answer
    return f"{added(answer, sheet)} | {'fits' if image_fits(answer, expected) else 'does not fit'}"


def long_text(head, size):
    """a text of which the file has the first 20 bytes: two that are repeated, or one before spaces"""
    return (head[:1] + b' ' * size if head[1:2] == b' ' else head[:2] * size)[:size]


def corners():
    """text, expected type and answer of each corner"""
    for line in (HERE / 'text_corners.txt').read_text().splitlines():
        found = LINE.fullmatch(line)
        if found:
            quoted, size, expected, answer = found.groups()
            text = eval(quoted, {})
            yield (long_text(text, int(size)) if size else text), int(expected), answer
        else:
            assert line.startswith('#'), line


def agrees(answer, given):
    """an answer is the one given, of which a long one may be cut"""
    if len(given) < CUT_AT:
        return answer == given
    (words, fit), (told_words, told_fit) = given.rsplit(' | ', 1), answer.rsplit(' | ', 1)
    return told_words.startswith(words) and fit == told_fit


def class_tables(name='text'):
    """sheet and name table of a sample class"""
    return (HERE / f'{name}.sheet').read_bytes(), (HERE / f'{name}.names').read_bytes()


def agree():
    sheet, names = class_tables()
    found, wrong = list(corners()), 0
    for text, expected, answer in found:
        own = told(text, sheet, names, expected)
        if not agrees(own, answer):
            wrong += 1
            print(f'{text[:60]!r} : t{expected}\n  there {answer[:300]}\n  here  {own[:300]}')
    print(f'{len(found)} corners, {len(found) - wrong} agree')
    return 1 if wrong or not found else 0
