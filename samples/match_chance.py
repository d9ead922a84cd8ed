"""Scripts of calls on patterns by chance, always the same: bodies with open scopes, temporaries,
bindings' locals, places handed in with a projection, a supplied else.

Most calls name what is there, and most places have the pattern's type. What leaves a call
refused with 2 is put back after it.
"""

import random

from call_matches import (
    ASSIGNMENT, BINDINGS, BLOCKS, BOUND_AT, ELEMENTS_AT, ENTRIES, LOCALS, MATCH, PLACE,
    SCOPES, SELF_PARAM, STATEMENTS, place_words,
)
from calls import ASSUME, COUNTS, LIMITS, MERGE, POKE, POP, PUSH, TEMP, UNTIL, Replay
from chance import random_image
from images import (
    ABSENT, ARRAY, ENUM, REFERENCE, SLICE_TYPE, STRUCT, decode,
)
from lowering import root_type
from typed_chance import typed_image

SEED = 1906
MOST_WRAPS = 5


def wrap(rng, m, type_):
    """A new type that has this one in it, and the elements that lead there, of one sort of seven."""
    sort = rng.randrange(7)
    if sort == 0:
        return m.add_type(REFERENCE, type_), [("deref",)]
    if sort in (1, 2):
        fields = [rng.randrange(len(m.types)) for _ in range(rng.randint(1, 3))]
        at = rng.randrange(len(fields))
        fields[at] = type_
        if sort == 1:
            return m.add_tuple_type(*fields), [("f", at)]
        return m.add_adt(STRUCT, m.add_variant(fields, 0), 1), [("f", at)]
    if sort == 3:
        first = [m.add_variant([], number) for number in range(rng.randint(0, 2))]
        variant = m.add_variant([type_], 9)
        m.add_variant([type_], 9)  # one that no type has
        return m.add_adt(ENUM, (first + [variant])[0], len(first) + 1), [("v", variant), ("f", 0)]
    kind = rng.choice((ARRAY, SLICE_TYPE))
    at = rng.choice((("i", rng.randint(0, 2)), ("e", rng.randint(0, 2))))
    parts = [("s", rng.randint(0, 2), rng.randint(0, 2))] * (rng.choice((0, 0, 1, 2)) if sort < 6 else rng.randint(10, 16))
    return m.add_type(kind, type_, 5), [*parts, at]


def wrapped(rng, m, type_):
    """A type around this one, and the way to it: mostly of a few elements, now and then of 16 or 17."""
    way = []
    for _ in range(rng.choice((0, 1, 1, 1, 2, 2, 3, MOST_WRAPS))):
        if len(m.types) > 250 or len(m.variants) > 500 or len(m.list) > 2000:
            break
        type_, first = wrap(rng, m, type_)
        way = first + way
    return type_, way


def bent(rng, m, way):
    """The way with one element that likely does not apply, or one too many."""
    way, others = list(way), [("deref",), ("f", rng.choice((0, 7, 65535))), ("i", 3), ("e", 0), ("s", 1, 1),
                              ("v", rng.randrange(max(1, len(m.variants))))]
    at = rng.randint(0, len(way))
    variants = [at for at, element in enumerate(way) if element[0] == "v"]
    if variants and rng.random() < 0.5:
        at = rng.choice(variants)
        way[at] = "v", max(0, min(len(m.variants) - 1, way[at][1] + rng.choice((-1, 1))))
    elif rng.random() < 0.5 and at < len(way):
        way[at] = rng.choice(others)
    else:
        way.insert(at, rng.choice(others))
    return way


class MatchChance:
    """A script as it is made, with the body and the words that its commands leave."""

    def __init__(self, rng):
        self.rng, self.commands = rng, []
        self.m = self.typed() if rng.random() < 0.8 else decode(random_image(rng).encode())
        self.ways = {}
        for p in {len(self.m.patterns) - 1, rng.randrange(len(self.m.patterns))}:
            type_ = root_type(self.m, p)
            if type_ is not None:
                self.ways[p] = wrapped(rng, self.m, type_)
        self.image = self.m.encode()
        self.replay = Replay(self.image)

    def typed(self):
        """An image whose patterns follow their types, mostly a small one."""
        made = [typed_image(self.rng) for _ in range(2)]
        return min(made, key=lambda m: len(m.patterns))

    def do(self, *command):
        self.commands.append(command)
        return self.replay.line(*command)

    def poke(self, table, at, word):
        """Sets a word that is another."""
        words = {BINDINGS: self.replay.handed.bindings, PLACE: self.replay.handed.words}.get(table)
        now = self.replay.body.counts[at] if table == COUNTS else \
            words[at] if words else self.replay.body.word(table, at)
        if now != word:
            self.do(POKE, table, at, word)

    def local(self, type_):
        """A new local of a type, or None where there is no room."""
        number = self.replay.body.counts[LOCALS]
        if number >= LIMITS[LOCALS]:
            return None
        self.poke(LOCALS, number, type_)
        self.poke(COUNTS, LOCALS, number + 1)
        return number

    def start(self):
        """Blocks, locals for the bindings and the ways, scopes; now and then close to a limit."""
        rng = self.rng
        self.poke(COUNTS, BLOCKS, rng.randint(1, 4))
        self.bound = [ABSENT if rng.random() < 0.06 else self.local(row[0]) for row in self.m.bindings]
        for binding, local in enumerate(self.bound):
            self.poke(BINDINGS, binding, ABSENT if local is None else local)
        self.poke(PLACE, BOUND_AT, len(self.m.bindings))
        self.roots = {p: self.local(type_) for p, (type_, _) in self.ways.items()}
        for _ in range(rng.choice((0, 1, 1, 1, 2, 3))):
            self.do(PUSH, 0, 0, 0)
            if rng.random() < 0.2:
                self.hold()
        if rng.random() < 0.25:
            self.near_a_limit(rng.choice((BLOCKS, LOCALS, ENTRIES, STATEMENTS)))

    def near_a_limit(self, table):
        """So many rows that few are left."""
        counts, left = self.replay.body.counts, self.rng.choice((0, 1, 2, 4, 8, 20))
        if table in (BLOCKS, LOCALS):
            self.poke(COUNTS, table, LIMITS[table] - left)
        elif counts[SCOPES] and counts[LOCALS]:
            self.poke(COUNTS, ENTRIES, LIMITS[ENTRIES] - left)
            if table == STATEMENTS:
                self.do(UNTIL, 0, 0, 0)
                self.poke(COUNTS, ENTRIES, self.replay.body.word(SCOPES, counts[SCOPES] - 1))

    def hold(self):
        """A binding's local, or the first, becomes the last entry of the last scope."""
        counts = self.replay.body.counts
        if counts[SCOPES] and counts[LOCALS] and counts[ENTRIES] < LIMITS[ENTRIES]:
            bound = [local for local in self.bound if local not in (None, ABSENT)]
            self.poke(ENTRIES, counts[ENTRIES], self.rng.choice(bound or [0]))
            self.poke(COUNTS, ENTRIES, counts[ENTRIES] + 1)

    def leave(self):
        """Locals leave, of all scopes from one on, or of the last, which is closed."""
        rng, scopes = self.rng, self.replay.body.counts[SCOPES]
        until = UNTIL, rng.randint(0, scopes), self.open_block(), 0
        self.do(*rng.choice((until, until, (POP, self.open_block(), 0, 0))))

    def open_block(self):
        body = self.replay.body
        blocks = [b for b in range(min(body.counts[BLOCKS], LIMITS[BLOCKS])) if not body.row(BLOCKS, b)[0]]
        return self.rng.choice(blocks) if blocks else 0

    def hand_in(self, p):
        """The place of a pattern, most times with its whole way."""
        rng = self.rng
        root, (_, way) = self.roots[p], self.ways[p]
        if rng.random() < 0.12:
            way = bent(rng, self.m, way)
        words = place_words((root or 0, tuple(way[:16])))
        words[1] = len(way)
        for at, word in enumerate(words + [0] * (BOUND_AT - len(words))):
            self.poke(PLACE, at, word)

    def match(self):
        """A call on a pattern, with an else or none."""
        rng = self.rng
        p = rng.choice(sorted(self.ways) or [0])
        if p in self.ways:
            self.hand_in(p)
        if rng.random() < 0.1:
            self.disturb(p)
            return
        self.do(*self.match_words(p))

    def match_words(self, p):
        rng, block = self.rng, self.open_block()
        other = rng.choice((ABSENT, ABSENT, self.open_block()))
        if rng.random() < 0.75:
            return MATCH, p, block, ABSENT if other == block and rng.random() < 0.9 else other
        return ASSIGNMENT, p, block, 0

    def disturb(self, p):
        """One word for this call alone: what it names is not there, or is another."""
        rng, words = self.rng, self.match_words(p)
        if rng.random() < 0.3:
            counts = self.replay.body.counts
            op, _, block, other = words
            self.do(op, *rng.choice(((len(self.m.patterns), block, other), (p, counts[BLOCKS], other),
                                     (p, block, block), (p, block, counts[BLOCKS]))))
            return
        table, at, word = rng.choice(self.other_words())
        before = (self.replay.handed.bindings if table == BINDINGS else self.replay.handed.words)[at]
        self.poke(table, at, word)
        self.do(*words)
        self.poke(table, at, before)

    def other_words(self):
        """A table, a word's place and what it becomes. Words that an element does not use stay 0."""
        rng, handed, locals_ = self.rng, self.replay.handed.words, self.replay.body.counts[LOCALS]
        yet = [(PLACE, 0, locals_), (PLACE, 1, rng.choice((16, 17, 18, ABSENT))), (PLACE, BOUND_AT, len(self.m.bindings) + 1),
               (BINDINGS, 0, locals_), (BINDINGS, 0, ABSENT), (BINDINGS, 0, 0)]
        if handed[1]:
            yet.append((PLACE, ELEMENTS_AT, rng.choice((6, 7, 5))))
        if handed[1] and handed[ELEMENTS_AT] % 8:
            yet.append((PLACE, ELEMENTS_AT + 1, rng.choice((0, 1, ABSENT))))
        return yet

    def own(self):
        """match_self_param, of a binding with or without a local."""
        rng, count = self.rng, len(self.m.bindings)
        binding = rng.randrange(count) if count and rng.random() < 0.95 else count
        local = rng.randrange(max(1, self.replay.body.counts[LOCALS] + (rng.random() < 0.05)))
        self.do(SELF_PARAM, binding, self.open_block(), local)

    def other(self):
        """A call on the body."""
        rng, block = self.rng, self.open_block()
        types = len(self.m.types)
        self.do(*rng.choice(((TEMP, rng.randrange(types), block, 0), (PUSH, 0, 0, 0), (PUSH, 0, 0, 0), (POP, block, 0, 0),
                             (MERGE, block, self.open_block(), 0), (UNTIL, 0, block, 0), (ASSUME, 0, 0, 0))))


def match_script(rng):
    """An image and commands."""
    made = MatchChance(rng)
    made.start()
    for _ in range(rng.randint(4, 9)):
        rng.choice(8 * [made.match] + [made.own] + 2 * [made.other] + [made.hold] + 3 * [made.leave])()
    return made.image, made.commands


def match_scripts(total=40):
    """Name, what it shows, image and commands."""
    rng = random.Random(SEED)
    for number in range(total):
        yield (f"match_chance_{number}", "Calls on patterns by chance.", *match_script(rng))
