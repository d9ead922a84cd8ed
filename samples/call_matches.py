"""Answers the calls on patterns of a script: `lowering.py` on the body that the script hands in.

Written from document 01 and from docs/BODY.md. `Handed` has what a call is handed besides
the body, as op 6 sets it: the bindings' locals (table 6) and the words of table 7.
"""

import builder
from images import ABSENT
from lowering import Walk

MATCH, ASSIGNMENT, SELF_PARAM = 7, 8, 9
BINDINGS, PLACE = 6, 7
BLOCKS, STATEMENTS, LOCALS, SCOPES, ENTRIES = range(5)
# Table 7: the place's local and count, its elements' words, and how many of the bindings' words are
# handed in.
ELEMENTS_AT, BOUND_AT = 2, 34
ELEMENT_KINDS = "deref", "f", "i", "e", "s", "v"
STATEMENT_KINDS = "live", "dead", "copy", "ref", "mut", "len", "discr", "const", "eq", "le", "ge", "gt"
TERMINATOR_KINDS = "open", "goto", "switch", "unreachable"
NAMED_TYPES = {256: "bool", 257: "usize", 258: "i128"}
TYPE_NUMBERS = {name: word for word, name in NAMED_TYPES.items()}

# What number 2 is given for besides the body.
MATCH_RULES = (
    "matchNamesPattern", "bindingsCounted", "bindingNamesLocal",
    "startNamesBlock", "startIsOpen", "elseNamesBlock", "elseIsNotStart",
    "handedNamesLocal", "handedAtMost16", "handedKindExists", "handedNamesVariant",
    "selfNamesBinding", "selfNamesLocal",
)


class Handed:
    """The tables 6 and 7, and the visits of the last call that was not refused with 1 or 2."""

    def __init__(self):
        self.bindings, self.words, self.visits = [0] * 256, [0] * 35, [0] * 512

    def poke(self, table, at, word):
        words = self.bindings if table == BINDINGS else self.words
        if at < len(words):
            words[at] = word

    def bound(self):
        """The bindings' words that are handed in."""
        return self.bindings[:self.words[BOUND_AT]]

    def elements(self):
        """The place's elements as kind, a and b; a count above 16 is cut."""
        count = min(self.words[1], 16)
        for at in range(ELEMENTS_AT, ELEMENTS_AT + 2 * count, 2):
            low, high = self.words[at:at + 2]
            yield low % 8, high, low // 8

    def place(self):
        """The place as lowering.py has it, of elements that are of a kind."""
        def element(kind, a, b):
            numbers = {0: (), 4: (a, b)}.get(kind, (a,))
            return ELEMENT_KINDS[kind], *numbers
        return self.words[0], tuple(element(*parts) for parts in self.elements())

    def sums(self):
        """Of the visits and of the bindings' locals, each word times its place from 1."""
        return [sum(place * word for place, word in enumerate(words, 1)) % 2**32
                for words in (self.visits, self.bindings)]


def or_none(word):
    return None if word == ABSENT else word


def match_faults(m, body, handed, op, a, b, c):
    """Each rule that what is handed in breaks, and the call's own numbers."""
    def rules():
        yield "bindingsCounted", len(handed.bound()) == len(m.bindings)
        yield "bindingNamesLocal", all(l == ABSENT or is_local(l) for l in handed.bound())
        yield "startNamesBlock", b < body.counts[BLOCKS]
        yield "startIsOpen", b >= body.counts[BLOCKS] or body.row(BLOCKS, b)[0] == 0
        if op == SELF_PARAM:
            yield "selfNamesBinding", a < len(m.bindings)
            yield "selfNamesLocal", is_local(c)
            return
        yield "matchNamesPattern", a < len(m.patterns)
        if op == MATCH and c != ABSENT:
            yield "elseNamesBlock", c < body.counts[BLOCKS]
            yield "elseIsNotStart", c != b
        yield "handedNamesLocal", is_local(handed.words[0])
        yield "handedAtMost16", handed.words[1] <= 16
        if handed.words[1] <= 16:
            yield "handedKindExists", all(kind < len(ELEMENT_KINDS) for kind, _, _ in handed.elements())
            yield "handedNamesVariant", all(kind != 5 or v < len(m.variants) for kind, v, _ in handed.elements())

    def is_local(word):
        return word < body.counts[LOCALS]
    return [name for name, holds in rules() if not holds]


class HandedBody(builder.Body):
    """The body of a script's tables, for lowering.py. Of its blocks only the start is ended."""

    def __init__(self, m, body, handed, start, other):
        counts = body.counts
        words = [body.word(LOCALS, at) for at in range(counts[LOCALS])]
        self.locals = [NAMED_TYPES.get(word, word) for word in words]
        self.binding_locals = [or_none(word) for word in handed.bound()]
        edges = [body.word(SCOPES, at) for at in range(counts[SCOPES])] + [counts[ENTRIES]]
        entries = [body.word(ENTRIES, at) for at in range(counts[ENTRIES])]
        self.scopes = [entries[first:end] for first, end in zip(edges, edges[1:])]
        self.then, self.other, self.refusal = start, other, None
        self.terminators, self.created = [None] * counts[BLOCKS], [None] * counts[STATEMENTS]
        self.statements = [[] for _ in self.terminators]
        self.visits, self.visited = [0] * len(m.patterns), []


def halves(content, count):
    """So many words of little-endian bytes."""
    content = content.ljust(2 * count, b"\0")
    return [int.from_bytes(content[at:at + 2], "little") for at in range(0, 2 * count, 2)]


def place_words(place):
    """A place in a row: its local, its count of elements, and each element's two words."""
    words = [place[0], len(place[1])]
    for kind, *numbers in place[1]:
        a, b = (numbers + [0, 0])[:2]
        words += [ELEMENT_KINDS.index(kind) + 8 * b, a]
    return words


def operand_words(value):
    """A left operand or a constant, in twelve words."""
    if value[0] == "copy":
        return [1, value[1][0]] + [0] * 10
    _, content, type_, text = value
    offset = 0 if text is None else text[0]
    return [2, len(content), TYPE_NUMBERS.get(type_, type_), offset, *halves(content, 8)]


def statement_row(block, statement):
    """The words of a statement's row, as far as they are not 0."""
    if statement[0] != "set":
        return [block, STATEMENT_KINDS.index(statement[0]) + 1, statement[1]]
    _, local, value = statement
    words = [block, STATEMENT_KINDS.index(value[0]) + 1, local]
    if value[0] == "const":
        return words + operand_words(value)
    if value[0] in ("eq", "le", "ge", "gt"):
        return words + operand_words(value[1]) + place_words(value[2][1])
    return words + [0] * 12 + place_words(value[1])


def block_row(terminator):
    """The words of a block's row, as far as they are not 0."""
    if terminator is None:
        return []
    kind = TERMINATOR_KINDS.index(terminator[0])
    if terminator[0] == "switch":
        _, local, value, then, other = terminator
        return [kind, local, then, other, *halves(value.to_bytes(16, "little"), 8)]
    return [kind, 0, *terminator[1:]]


def take(body, lowered, start):
    """Writes what a lowering made into the tables."""
    for number in range(body.counts[BLOCKS], len(lowered.terminators)):
        body.add(BLOCKS, *block_row(lowered.terminators[number]))
    if lowered.terminators[start] is not None:
        body.put_row(BLOCKS, start, block_row(lowered.terminators[start]))
    for block, statement in lowered.created[body.counts[STATEMENTS]:]:
        body.add(STATEMENTS, *statement_row(block, statement))
    for type_ in lowered.locals[body.counts[LOCALS]:]:
        body.add(LOCALS, TYPE_NUMBERS.get(type_, type_))
    entries = [local for scope in lowered.scopes for local in scope]
    for local in entries[body.counts[ENTRIES]:]:
        body.add(ENTRIES, local)


def told(number):
    return "-" if number is None else str(number)


def match_call(m, body, handed, op, a, b, c):
    """Does a call that may be done: the answer; the body and the visits are those behind it."""
    lowered = HandedBody(m, body, handed, b, or_none(c) if op == MATCH else None)
    walk = Walk(m, lowered)
    if op == SELF_PARAM:
        then, other = walk.self_param(a, c)
    else:
        handed.visits = [0] * 512
        then, other = walk.match(handed.place(), a) if op == MATCH else walk.assign(handed.place(), a)
        handed.visits[:len(lowered.visits)] = lowered.visits
    take(body, lowered, b)
    return f"then {then} else {told(other)}"
