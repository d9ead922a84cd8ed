"""Judges scripts of calls on a body, its scopes and patterns: what crates/replay_matches prints.

Written from document 01 and from docs/BODY.md, which has the rows of the five tables. A
script is an image and commands of four words; `run` answers a line for each call.
"""

from functools import lru_cache

from builder import MOST_BLOCKS, MOST_ENTRIES, MOST_LOCALS, MOST_STATEMENTS, Refused
from call_matches import (
    BINDINGS, MATCH, MATCH_RULES, PLACE, SELF_PARAM, Handed, match_call, match_faults,
)
from images import ABSENT, SLICE_TYPE, broken, decode

BLOCKS, STATEMENTS, LOCALS, SCOPES, ENTRIES, COUNTS = range(6)
TABLES = range(5)
MOST_SCOPES = 32
LIMITS = MOST_BLOCKS, MOST_STATEMENTS, MOST_LOCALS, MOST_SCOPES, MOST_ENTRIES
WIDTHS = 12, 49, 1, 1, 1
ZEROS = tuple((0,) * width for width in WIDTHS)
TEMP, MERGE, PUSH, ASSUME, POP, UNTIL, POKE = range(7)
OPEN, GOTO, SWITCH, UNREACHABLE, DROP = range(5)
(LIVE, DEAD, COPY, REF_TO, MUT_TO, LEN, DISCR, IS_CONSTANT, EQ, LE, GE, GT) = range(1, 13)
NONE, OF_LOCAL, OF_CONSTANT = range(3)
MOST_ELEMENTS, MOST_BYTES = 16, 16
BOOL_WORD, USIZE_WORD, I128_WORD = 256, 257, 258

# What number 2 is given for: the body and its scopes, and then the call's own numbers.
CALL_RULES = (
    "blocksWithinLimit", "statementsWithinLimit", "localsWithinLimit",
    "scopesWithinLimit", "entriesWithinLimit",
    "terminatorKindExists", "gotoNamesBlock", "switchNamesLocal", "switchNamesThen",
    "switchNamesElse", "dropNamesLocal", "dropNamesBlock",
    "statementNamesBlock", "statementKindExists", "statementNamesLocal",
    "constantIsOne", "constantAtMost16", "constantNamesType",
    "operandKindExists", "operandNamesLocal",
    "placeNamesLocal", "placeAtMost16", "elementKindExists", "downcastNamesVariant",
    "localNamesType", "scopeEndsNotBefore", "entriesHaveScope", "entryNamesLocal",
    "callNamesType", "callNamesBlock", *MATCH_RULES,
)


@lru_cache(maxsize=None)
def row_sums(row):
    """A row's words, and each times its place from 1."""
    return sum(row), sum(place * word for place, word in enumerate(row, 1))


class Body:
    """Five tables and their counts. Of a table the rows that are not all 0 are kept."""

    def __init__(self):
        self.tables, self.counts = [{} for _ in TABLES], [0] * 5

    def copy(self):
        body = Body()
        body.tables, body.counts = [dict(t) for t in self.tables], list(self.counts)
        return body

    def row(self, table, number):
        return self.tables[table].get(number, ZEROS[table])

    def rows(self, table):
        """The rows in use, each once."""
        return {self.row(table, number) for number in range(self.counts[table])}

    def word(self, table, at):
        number, place = divmod(at, WIDTHS[table])
        return self.row(table, number)[place]

    def put_row(self, table, number, words):
        """A row whose further words are 0."""
        row = (*words, *ZEROS[table][len(words):])
        if any(row):
            self.tables[table][number] = row
        else:
            self.tables[table].pop(number, None)

    def add(self, table, *words):
        """A new row: its number, or 11."""
        number = self.counts[table]
        if number == LIMITS[table]:
            raise Refused(11)
        self.counts[table] += 1
        self.put_row(table, number, words)
        return number

    def clear_above(self):
        for rows, count in zip(self.tables, self.counts):
            for number in [number for number in rows if number >= count]:
                del rows[number]

    def poke(self, table, at, word):
        """Sets a word, or a count; what there is not stays as it is."""
        if table == COUNTS and at < 5:
            self.counts[at] = word
        elif table < COUNTS and at < WIDTHS[table] * LIMITS[table]:
            number, place = divmod(at, WIDTHS[table])
            row = self.row(table, number)
            self.put_row(table, number, (*row[:place], word, *row[place + 1:]))

    def sums(self):
        """Of each table its words, each times its place from 1, modulo 2^32."""
        return [sum(width * number * row_sums(row)[0] + row_sums(row)[1]
                    for number, row in rows.items()) % 2**32
                for rows, width in zip(self.tables, WIDTHS)]


def names_type(m, word):
    """A type's number, or bool, usize, i128."""
    return word < len(m.types) or word in (BOOL_WORD, USIZE_WORD, I128_WORD)


def body_faults(m, body):
    """Each rule that a body or its scopes break."""
    over = [CALL_RULES[table] for table in TABLES if body.counts[table] > LIMITS[table]]
    if over:
        return over
    found = []
    for table, faults in ((BLOCKS, block_faults), (STATEMENTS, statement_faults),
                          (LOCALS, local_faults), (ENTRIES, entry_faults)):
        for row in body.rows(table):
            found.extend(faults(m, body.counts, row))
    return found + scope_faults(body)


def failed(*rules):
    """The names of the rules that do not hold."""
    return [name for name, holds in rules if not holds]


def block_faults(_, counts, row):
    kind, local, target, other = row[:4]
    if kind == GOTO:
        return failed(("gotoNamesBlock", target < counts[BLOCKS]))
    if kind == SWITCH:
        return failed(("switchNamesLocal", local < counts[LOCALS]),
                      ("switchNamesThen", target < counts[BLOCKS]),
                      ("switchNamesElse", other < counts[BLOCKS]))
    if kind == DROP:
        return failed(("dropNamesLocal", local < counts[LOCALS]),
                      ("dropNamesBlock", target < counts[BLOCKS]))
    return failed(("terminatorKindExists", kind in (OPEN, UNREACHABLE)))


def statement_faults(m, counts, row):
    block, kind, local = row[:3]
    found = failed(("statementNamesBlock", block < counts[BLOCKS]),
                   ("statementKindExists", LIVE <= kind <= GT),
                   ("statementNamesLocal", local < counts[LOCALS]))
    if kind == IS_CONSTANT:
        found += failed(("constantIsOne", row[3] == OF_CONSTANT))
    if EQ <= kind <= GT:
        found += failed(("operandKindExists", row[3] in (OF_LOCAL, OF_CONSTANT)))
        if row[3] == OF_LOCAL:
            found += failed(("operandNamesLocal", row[4] < counts[LOCALS]))
    if IS_CONSTANT <= kind <= GT and row[3] == OF_CONSTANT:
        found += failed(("constantAtMost16", row[4] <= MOST_BYTES),
                        ("constantNamesType", names_type(m, row[5])))
    if COPY <= kind <= GT and kind != IS_CONSTANT:
        found += place_faults(m, counts, row[15:])
    return found


def place_faults(m, counts, words):
    local, count, *halves = words
    found = failed(("placeNamesLocal", local < counts[LOCALS]),
                   ("placeAtMost16", count <= MOST_ELEMENTS))
    for low, high in zip(halves[0:2 * count:2], halves[1:2 * count:2]):
        found += failed(("elementKindExists", low % 8 <= 5))
        if low % 8 == 5:
            found += failed(("downcastNamesVariant", high < len(m.variants)))
    return found


def local_faults(m, _, row):
    return failed(("localNamesType", names_type(m, row[0])))


def entry_faults(_, counts, row):
    return failed(("entryNamesLocal", row[0] < counts[LOCALS]))


def scope_faults(body):
    """Where the scopes begin, and where the last one ends, in the entries."""
    starts = [body.word(SCOPES, at) for at in range(body.counts[SCOPES])]
    edges = starts + [body.counts[ENTRIES]]
    return failed(("scopeEndsNotBefore", edges == sorted(edges)),
                  ("entriesHaveScope", edges[0] == 0))


def call_faults(m, body, op, a, b):
    """The numbers in the call that name nothing."""
    named = {TEMP: [b], MERGE: [x for x in (a, b) if x != ABSENT], POP: [a], UNTIL: [b]}
    return failed(("callNamesType", op != TEMP or names_type(m, a)),
                  ("callNamesBlock",
                   all(block < body.counts[BLOCKS] for block in named.get(op, []))))


def temp(m, body, type_, block):
    if type_ < len(m.types) and m.types[type_][0] == SLICE_TYPE:
        raise Refused(8)
    local = body.add(LOCALS, type_)
    if not body.counts[SCOPES]:
        raise Refused(14)
    body.add(ENTRIES, local)
    body.add(STATEMENTS, block, LIVE, local)
    return f"local {local}"


def merge_blocks(_, body, x, y):
    if ABSENT in (x, y):
        one = min(x, y)
        return "block -" if one == ABSENT else f"block {one}"
    merged = body.add(BLOCKS)
    body.put_row(BLOCKS, x, (GOTO, 0, merged))
    body.put_row(BLOCKS, y, (GOTO, 0, merged))
    return f"block {merged}"


def push_drop_scope(_, body, *_rest):
    body.add(SCOPES, body.counts[ENTRIES])
    return "now"


def close_last(body):
    """The last scope goes, and its entries."""
    body.counts[SCOPES] -= 1
    body.counts[ENTRIES] = body.word(SCOPES, body.counts[SCOPES])
    body.clear_above()


def pop_assume_dropped(_, body, *_rest):
    if not body.counts[SCOPES]:
        raise Refused(14)
    close_last(body)
    return "now"


def leave(m, body, scope, block):
    """emit_drop_and_storage_dead_for_scope, for this scope and all behind it: the block after."""
    first = body.word(SCOPES, scope) if scope < body.counts[SCOPES] else body.counts[ENTRIES]
    for at in reversed(range(first, body.counts[ENTRIES])):
        local = body.word(ENTRIES, at)
        type_ = body.word(LOCALS, local)
        if type_ < len(m.types) and m.types[type_][4] != 1:
            before, block = block, body.add(BLOCKS)
            body.put_row(BLOCKS, before, (DROP, local, block))
        body.add(STATEMENTS, block, DEAD, local)
    return block


def pop_and_drop(m, body, block, _):
    if not body.counts[SCOPES]:
        raise Refused(14)
    block = leave(m, body, body.counts[SCOPES] - 1, block)
    close_last(body)
    return f"block {block}"


def drop_until_scope(m, body, index, block):
    if index > body.counts[SCOPES]:
        raise Refused(14)
    return f"block {leave(m, body, index, block)}"


CALLS = {TEMP: temp, MERGE: merge_blocks, PUSH: push_drop_scope, ASSUME: pop_assume_dropped,
         POP: pop_and_drop, UNTIL: drop_until_scope}


class Replay:
    """The body that commands are done on. An invalid image has no tables.

    `rules` has those that the last call was refused with 2 for.
    """

    def __init__(self, image):
        self.m, self.body = None if broken(image) else decode(image), Body()
        self.handed, self.rules = Handed(), []

    def faults(self, op=MERGE, a=ABSENT, b=ABSENT, c=0):
        """The rules that number 2 is given for, at this call."""
        found = body_faults(self.m, self.body)
        if found or op < MATCH:
            return found or call_faults(self.m, self.body, op, a, b)
        return match_faults(self.m, self.body, self.handed, op, a, b, c)

    def call(self, op, a, b, c):
        """The answer to a call. The body is the one behind it."""
        if self.m is None:
            return "refused 1 65535 0"
        self.rules = self.faults(op, a, b, c)
        if self.rules:
            return "refused 2 65535 0"
        self.body.clear_above()
        after = self.body.copy()
        try:
            if op < MATCH:
                answer = CALLS[op](self.m, after, a, b)
            else:
                answer = match_call(self.m, after, self.handed, op, a, b, c)
        except Refused as refusal:
            return "refused " + " ".join(map(str, refusal.numbers))
        self.body = after
        return answer

    def line(self, op, a, b, c):
        """Does a command: the line that is printed, nothing for a word that is set."""
        if op == POKE and a in (BINDINGS, PLACE):
            self.handed.poke(a, b, c)
            return ""
        if op == POKE:
            self.body.poke(a, b, c)
            return ""
        answer = self.call(op, a, b, c)
        more = self.handed.sums() if MATCH <= op <= SELF_PARAM else []
        return " ".join([answer, *map(str, self.body.counts + self.body.sums() + more)])
