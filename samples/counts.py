"""Counts visits, blocks and statements from the tree, as document 01 says them.

Follows the paragraph "`pattern_match` walks its pattern ..", with 2 statements for every test of
a variant as document 02 has it, not the lowering. `compare`
holds a lowering against it, and against demand 3. `python3 samples/counts.py [N [SEED]]`
compares on N random images of both sorts, of any shape and following their types, every
pattern as the root against a place of every type.
"""

import random
import sys
from collections import Counter

sys.dont_write_bytecode = True

from chance import random_image
from images import (
    ABSENT, ADT, ARRAY, BIND, ENUM, LIT, NAMES_CONSTANT, NAMES_VARIANT, OR, PATH, RANGE,
    RECORD, REF, REFERENCE, SLICE, SLICE_TYPE, TUPLE, TUPLE_STRUCT, broken,
)
from lowering import lower
from typed_chance import typed_image


class Tree:
    """A pattern as the root over a place of a type; only for accepted calls."""

    def __init__(self, m, root, place_type):
        self.m, self.root = m, root
        self.failing = {}
        self.root_fails = self.can_fail(root, place_type)
        # Pattern, Ors above it, and whether it is an alternative, in any order.
        self.reached = list(self.walk(root, place_type, 0, False))

    def behind_derefs(self, p, type_):
        """The type that the derefs of a pattern lead to; None if there is none."""
        for _ in range(self.m.patterns[p][2]):
            type_ = self.inside(type_, REFERENCE)
        return type_

    def inside(self, type_, *kinds):
        """What a type of one of these kinds is made of."""
        if type_ is None or self.m.types[type_][0] not in kinds:
            return None
        return self.m.types[type_][1]

    def below(self, p, type_):
        """The patterns directly below that are not rests or dropped, with their types."""
        kind, _, _, a, b, c, d = self.m.patterns[p]
        if kind == OR:
            return [(item, type_) for item in self.m.list[a:a + b]]
        if kind == BIND:
            return [] if b == ABSENT else [(b, type_)]
        if kind == REF:
            return [(a, self.inside(type_, REFERENCE))]
        if kind == SLICE:
            element = self.inside(type_, ARRAY, SLICE_TYPE)
            return [(item, element) for item in self.m.list[a:a + b + c]]
        if kind == RECORD:
            first = self.m.variants[c][0]
            words = self.m.list[a:a + 2 * b]
            return [(item, self.m.list[first + field])
                    for field, item in zip(words[::2], words[1::2])]
        if kind in (TUPLE, TUPLE_STRUCT):
            first, fields = (self.m.types[type_][1:3] if kind == TUPLE
                             else self.m.variants[d][:2])
            return self.arguments(self.m.list[a:a + b], c, first, fields)
        return []

    def arguments(self, items, ellipsis, first, fields):
        """The arguments that have a field: the first in front, the last behind."""
        front = len(items) if ellipsis == ABSENT else ellipsis
        pairs = [(item, place) for place, item in enumerate(items[:front])]
        back = items[front:]
        pairs += [(item, fields - len(back) + place) for place, item in enumerate(back)]
        return [(item, self.m.list[first + place]) for item, place in pairs
                if 0 <= place < fields]

    def names_enum(self, p):
        """The pattern tests for an enum's variant."""
        kind, _, _, a, b, c, d = self.m.patterns[p]
        variant = {RECORD: c, TUPLE_STRUCT: d,
                   PATH: b if a == NAMES_VARIANT else ABSENT}.get(kind, ABSENT)
        return variant != ABSENT and any(
            type_[0] == ADT and type_[3] == ENUM
            and type_[1] <= variant < type_[1] + type_[2] for type_ in self.m.types)

    def tests(self, p):
        """How many tests a pattern has of its own."""
        kind, type_, _, a, b, _, _ = self.m.patterns[p]
        if kind == RANGE:
            return (a != ABSENT) + (b != ABSENT)
        if kind == SLICE:
            return int(self.m.types[type_][0] == SLICE_TYPE)
        constant = kind == PATH and a == NAMES_CONSTANT
        return int(kind == LIT or constant or self.names_enum(p))

    def can_fail(self, p, type_):
        """Whether a pattern can fail, its place of this type before its derefs."""
        if p not in self.failing:
            type_ = self.behind_derefs(p, type_)
            below = [self.can_fail(*item) for item in self.reached_below(p, type_)]
            self.failing[p] = (all(below) if self.m.patterns[p][0] == OR
                               else self.tests(p) > 0 or any(below))
        return self.failing[p]

    def reached_below(self, p, type_):
        """The patterns directly below that are reached if this one is.

        What lies behind an alternative that cannot fail is not looked at: it may be
        one that would be refused.
        """
        for item in self.below(p, type_):
            yield item
            if self.m.patterns[p][0] == OR and not self.can_fail(*item):
                return

    def walk(self, p, type_, ors, alternative):
        """Every reached pattern from this one down."""
        yield p, ors, alternative
        is_or = self.m.patterns[p][0] == OR
        for item, item_type in self.reached_below(p, self.behind_derefs(p, type_)):
            yield from self.walk(item, item_type, ors + is_or, is_or)

    def visits(self):
        """The visits of every pattern of the image: k + 2, or none."""
        visits = [0] * len(self.m.patterns)
        for p, ors, _ in self.reached:
            visits[p] = ors + 2
        return visits

    def blocks(self, supplied):
        """The new blocks, with an else supplied or not."""
        count = int(self.root_fails and not supplied)
        for p, ors, alternative in self.reached:
            count += (ors + 1) * (self.tests(p) + (alternative and self.failing[p]))
            count += ors + 2 if self.m.patterns[p][0] == OR else 0
        return count

    def statements(self):
        """The new statements."""
        count = 0
        for p, ors, _ in self.reached:
            kind, _, _, a, _, _, d = self.m.patterns[p]
            constant = kind == PATH and a == NAMES_CONSTANT
            each = 4 if constant or (kind == SLICE and d != ABSENT) else 2
            count += (ors + 1) * self.tests(p) * each
            rest = kind == SLICE and d != ABSENT and self.m.patterns[d][0] == BIND
            count += 2 * ((kind == BIND) + rest)
        return count


def differences(m, root, place_type, body, supplied=False):
    """What an accepted lowering does not keep of the counts and of demand 3."""
    tree = Tree(m, root, place_type)
    blocks, statements = len(body.terminators) - 1 - supplied, len(body.created)
    open_blocks = {b for b, end in enumerate(body.terminators) if end is None}
    span = len(tree.reached) * (max(ors for _, ors, _ in tree.reached) + 2)
    first_new = 1 + len(m.bindings)
    live = [local for _, (word, local, *_) in body.created if word == "live"]
    kept = {
        "visits": body.visits == tree.visits(),
        "blocks": blocks == tree.blocks(supplied),
        "statements": statements == tree.statements(),
        "open blocks": open_blocks == {body.then} | ({body.other} - {None}),
        "else": (body.other == 1 if supplied
                 else (body.other is None) == (not tree.root_fails)),
        "block bound": blocks <= 3 * span,
        "statement bound": statements <= 4 * span,
        "locals": [local for local in live if local >= first_new]
        == list(range(first_new, len(body.locals))),
        "entries": [local for scope in body.scopes for local in scope] == list(dict.fromkeys(live)),
    }
    return [name for name, holds in kept.items() if not holds]


def compare_all(m, rng, tally):
    """Compares every pattern over every type; prints what differs."""
    for root in range(len(m.patterns)):
        for place_type in range(len(m.types)):
            handed = {"supplied": rng.random() < 0.3}
            body = lower(m, root, place_type, **handed)
            if body.refusal:
                tally[f"refused {body.refusal[0]}"] += 1
                continue
            tally["accepted"] += 1
            tally["accepted with Ors above a pattern"] += max(body.visits) > 2
            for name in differences(m, root, place_type, body, **handed):
                tally["differ"] += 1
                print(f"differs: {name}, pattern {root}, type {place_type}, {handed}: "
                      f"{m.encode().hex()}")


def main():
    """Compares on random images and prints how many lowerings there were."""
    number = int(sys.argv[1]) if len(sys.argv) > 1 else 2000
    rng = random.Random(int(sys.argv[2]) if len(sys.argv) > 2 else 1851)
    tally = Counter()
    for _ in range(number):
        for image in (random_image(rng), typed_image(rng)):
            assert not broken(image.encode()), image.encode().hex()
            compare_all(image, rng, tally)
    for what, count in sorted(tally.items()):
        print(f"{what}: {count}")
    return 1 if tally["differ"] else 0


if __name__ == "__main__":
    sys.exit(main())
