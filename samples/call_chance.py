"""Scripts of calls by chance, always the same: calls, and words that are set.

Most calls name what is there. A word or count that leaves the body refused is put back
after a call or two, most of the time.
"""

import random

from calls import (
    ASSUME, BLOCKS, COPY, COUNTS, DROP, ENTRIES, EQ, GOTO, GT, IS_CONSTANT, LIMITS, LIVE,
    LOCALS, MERGE, OF_LOCAL, POKE, POP, PUSH, SCOPES, STATEMENTS, SWITCH, TABLES, TEMP, UNTIL,
    UNREACHABLE, WIDTHS, Replay,
)
from images import ABSENT, INTEGER, REFERENCE, SLICE_TYPE, STR, WILD, Image

SEED = 1888
WORDS = 0, 0, 1, 1, 2, 3, 4, 5, 6, 8, 9, 11, 12, 16, 17, 255, 256, 258, 259, 1024, ABSENT
CALL_KINDS = 8 * [TEMP] + 3 * [MERGE, PUSH, UNTIL] + 2 * [POP] + [ASSUME]


def chance_image(rng):
    """A few types, copy or not, and up to two variants."""
    m = Image()
    for _ in range(rng.randint(1, 5)):
        kind = rng.choice((INTEGER, INTEGER, INTEGER, REFERENCE, STR, SLICE_TYPE))
        m.add_type(kind, 1 if kind == INTEGER else 0, copy=rng.choice((0, 0, 1, 1, 2)))
    for _ in range(rng.randint(0, 2)):
        m.add_variant((), 1)
    m.add_pattern(WILD, 0)
    return m.encode()


class Chance:
    """A script as it is made, with the body that its commands leave."""

    def __init__(self, rng):
        self.rng, self.image, self.commands = rng, chance_image(rng), []
        self.replay = Replay(self.image)

    def do(self, *command):
        self.commands.append(command)
        self.replay.line(*command)

    def below(self, count):
        """A number below a count, with luck."""
        if count and self.rng.random() < 0.95:
            return self.rng.randrange(max(0, count - 4), count)
        return self.rng.choice((count, count + 1, ABSENT - 1))

    def type_word(self):
        types = len(self.replay.m.types)
        if self.rng.random() < 0.05:
            return self.rng.choice((types, 255, 259, ABSENT))
        return self.rng.choice((*range(types), *range(types), 256, 257, 258))

    def block(self):
        return self.below(self.replay.body.counts[BLOCKS])

    def call(self):
        op, counts = self.rng.choice(CALL_KINDS), self.replay.body.counts
        maybe = [self.block(), self.block(), ABSENT]
        arguments = {
            TEMP: (self.type_word(), self.block()),
            MERGE: (self.rng.choice(maybe), self.rng.choice(maybe)), POP: (self.block(), 0),
            UNTIL: (self.rng.randint(0, counts[SCOPES] + self.rng.randint(0, 1)), self.block()),
        }.get(op, (0, 0))
        self.do(op, *arguments, 0)

    def start(self):
        """Counts of a few rows, or close to the limit. Rows of zeros are taken."""
        rng = self.rng
        first = [rng.randint(1, 4), 0, rng.randint(0, 3), rng.choice((0, 1, 1, 2)), 0]
        for table in (BLOCKS, LOCALS, SCOPES):
            if rng.random() < 0.2:
                first[table] = LIMITS[table] - rng.randint(0, 3)
        if first[LOCALS] and first[SCOPES]:
            first[ENTRIES] = rng.choice((0, 2, 5, 1021, 1024))
        for table in TABLES:
            if first[table]:
                self.do(POKE, COUNTS, table, first[table])
        if rng.random() < 0.3 and first[ENTRIES] > 1000 and first[BLOCKS] < 5:
            self.do(UNTIL, 0, 0, 0)
            self.do(POKE, COUNTS, ENTRIES, rng.randint(0, 4))

    def above(self):
        """A word above the counts, near them or anywhere."""
        table = self.rng.choice(TABLES)
        start, end = (WIDTHS[table] * n for n in (self.replay.body.counts[table], LIMITS[table]))
        if start < end:
            at = self.rng.randrange(start, self.rng.choice((min(end, start + 60), end)))
            self.do(POKE, table, at, self.rng.randint(1, ABSENT))

    def row(self):
        """Words of a row in use: a terminator, a statement, a local, a scope, an entry."""
        counts, rng = self.replay.body.counts, self.rng
        table = rng.choice([table for table in TABLES if counts[table]] or [LOCALS])
        number = rng.randrange(max(1, min(counts[table], LIMITS[table])))
        words = [rng.choice(WORDS)]
        if table == BLOCKS:
            words = [rng.choice((GOTO, SWITCH, UNREACHABLE, DROP, 0)), self.below(counts[LOCALS]),
                     self.block(), self.block(), *(rng.randrange(ABSENT) for _ in range(8))]
        if table == LOCALS:
            words = [self.type_word()]
        if table == ENTRIES:
            words = [self.below(counts[LOCALS])]
        if table == STATEMENTS:
            words = self.statement(counts)
        for at, word in enumerate(words, WIDTHS[table] * number):
            if word != self.replay.body.word(table, at):
                self.do(POKE, table, at, word)

    def statement(self, counts):
        """The words of a statement's row, as far as they are not 0."""
        rng, kind = self.rng, self.rng.choice((LIVE, *range(COPY, GT + 1), GT + 1))
        words = [self.block(), kind, self.below(counts[LOCALS])] + 12 * [0]
        if kind >= IS_CONSTANT:
            words[3:6] = [2, rng.choice((0, 8, 16, 16, 17)), self.type_word()]
        if kind >= EQ and rng.random() < 0.5:
            words[3:6] = [OF_LOCAL, self.below(counts[LOCALS]), 0]
        elements = [word for _ in range(rng.randint(0, 2))
                    for word in (rng.choice((0, 1, 2, 3, 4, 12, 5, 5, 6)), rng.randint(0, 2))]
        return words + [self.below(counts[LOCALS]), len(elements) // 2, *elements]

    def count(self):
        table = self.rng.choice(TABLES)
        now = self.replay.body.counts[table]
        near = max(0, now + self.rng.choice((-1, 1)))
        self.do(POKE, COUNTS, table, self.rng.choice((near, near, LIMITS[table] + 1)))

    def disturb(self):
        """Sets words; where that leaves the body refused, puts them back, most of the time."""
        before, done = self.replay.body.copy(), len(self.commands)
        self.rng.choice((self.above, self.above, self.row, self.row, self.row, self.count))()
        if not self.replay.faults():
            return
        pokes = self.commands[done:]
        for _ in range(self.rng.randint(1, 2)):
            self.call()
        if self.rng.random() < 0.95:
            for _, table, at, _ in pokes:
                self.do(POKE, table, at,
                        before.counts[at] if table == COUNTS else before.word(table, at))


def chance_script(rng):
    """An image and commands."""
    made = Chance(rng)
    made.start()
    for _ in range(rng.randint(10, 22)):
        (made.disturb if rng.random() < 0.3 else made.call)()
    return made.image, made.commands


def chance_scripts(total=200):
    """Name, what it shows, image and commands."""
    rng = random.Random(SEED)
    for number in range(total):
        yield (f"chance_{number}", "Calls and words by chance.", *chance_script(rng))
