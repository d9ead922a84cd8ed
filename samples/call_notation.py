"""An image for scripts of calls, and a short notation for their commands.

Commands stand one behind the other with `; ` between them; `3 x push` is three of one.

- `temp u8 0`, `merge 0 -`, `push`, `assume`, `pop 0`, `until 1 0`: the six calls. A type is
  a name in `yard`, or a number; `-` is no block.
- `blocks=2`: the count of a table is set, whatever lies in it.
- `block 0: 1 0 1` sets words of a row, from its first on; `statement 2.15: 0 16` from its
  word 15 on. Rows are those of docs/BODY.md: block, statement, local, scope, entry.
- `match seven 0 -`, `assign pair 0`, `self x 0 1`: the calls on patterns, which name patterns
  and bindings of `match_corners.py`.
- `binding 0: 1 -` sets bindings' locals, and `bound=2` how many are handed in; `place 1 f0 v2
  s1-2 deref` the place, all its words; `elements=17` its count alone, `handed 2: 6`
  words of table 7 as they stand.
"""

import re

from call_matches import (
    ASSIGNMENT, BINDINGS, BOUND_AT, MATCH, PLACE, SELF_PARAM, place_words,
)
from calls import (
    ASSUME, BOOL_WORD, COUNTS, I128_WORD, LIMITS, MERGE, POKE, POP, PUSH, TABLES, TEMP,
    UNTIL, USIZE_WORD, WIDTHS,
)
from images import (
    ABSENT, ARRAY, ENUM, INTEGER, REFERENCE, SLICE_TYPE, STR, STRUCT, WILD, Image,
)

CALL_WORDS = {"temp": TEMP, "merge": MERGE, "push": PUSH, "assume": ASSUME, "pop": POP,
              "until": UNTIL, "match": MATCH, "assign": ASSIGNMENT, "self": SELF_PARAM}
HANDED_TABLES = {"binding": BINDINGS, "handed": PLACE}
HANDED_WORDS = {"elements": 1, "bound": BOUND_AT}
ROW_WORDS = "block", "statement", "local", "scope", "entry"
COUNT_WORDS = "blocks", "statements", "locals", "scopes", "entries"
TYPE_WORDS = {"bool": BOOL_WORD, "usize": USIZE_WORD, "i128": I128_WORD}


def yard():
    """Types of every sort, three of them copy, and three variants."""
    m = Image()
    u8 = m.add_type(INTEGER, 1, name="u8")
    m.add_type(STR, copy=0, name="str")
    m.add_type(SLICE_TYPE, u8, copy=0, name="slice")
    hull = m.add_variant([u8], 0)
    m.add_adt(STRUCT, hull, 1, name="boat")
    m.add_type(REFERENCE, u8, name="ref")
    calm = m.add_variant([], 1)
    m.add_variant([u8], 2)
    m.add_adt(ENUM, calm, 2, name="wind")
    m.add_type(ARRAY, u8, 2, copy=2, name="array")
    m.add_type(SLICE_TYPE, u8, name="copySlice")
    m.add_pattern(WILD, u8)
    return m


YARD = yard()


def number(text, m):
    """The number that an argument of a call stands for, by the names of an image."""
    if text == "-":
        return ABSENT
    if text in m.names:
        return m.names[text][1]
    return TYPE_WORDS[text] if text in TYPE_WORDS else int(text)


def place(words):
    """The commands that set a place, words above its count to 0."""
    elements = []
    for word in words[1:]:
        kind = "deref" if word == "deref" else word[0]
        elements.append((kind, *map(int, word.removeprefix(kind).split("-") if kind != "deref" else ())))
    row = place_words((int(words[0]), tuple(elements)))
    return [(POKE, PLACE, at, word) for at, word in enumerate(row + [0] * (BOUND_AT - len(row)))]


def command(text, m):
    """The commands that one part of a script stands for."""
    times = re.fullmatch(r"(\d+) x (.*)", text)
    if times:
        return command(times[2], m) * int(times[1])
    count = re.fullmatch(r"(\w+)=(\d+|-)", text)
    if count and count[1] in HANDED_WORDS:
        return [(POKE, PLACE, HANDED_WORDS[count[1]], number(count[2], m))]
    if count:
        return [(POKE, COUNTS, COUNT_WORDS.index(count[1]), int(count[2]))]
    row = re.fullmatch(r"(\w+) (\d+)(?:\.(\d+))?: (.*)", text)
    if row:
        table = HANDED_TABLES.get(row[1]) or ROW_WORDS.index(row[1])
        start = (1 if row[1] in HANDED_TABLES else WIDTHS[table]) * int(row[2]) + int(row[3] or 0)
        return [(POKE, table, at, number(word, m))
                for at, word in enumerate(row[4].split(), start)]
    name, *words = text.split()
    if name == "place":
        return place(words)
    a, b, c = ([number(word, m) for word in words] + [0, 0, 0])[:3]
    return [(CALL_WORDS[name], a, b, c)]


def commands(text, m=YARD):
    """The commands of a script."""
    return [one for part in text.split("; ") if part for one in command(part, m)]


def with_counts(counts):
    """The five counts are set."""
    return "; ".join(f"{name}={count}" for name, count in zip(COUNT_WORDS, counts))


def rubbish(counts):
    """Words above these counts: at the end of the next row, and in the table's last one."""
    return "; ".join(f"{ROW_WORDS[table]} {counts[table]}.{WIDTHS[table] - 1}: 9; "
                     f"{ROW_WORDS[table]} {LIMITS[table] - 1}: 7"
                     for table in TABLES if counts[table] < LIMITS[table])
