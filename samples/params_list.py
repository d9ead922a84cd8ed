"""The stored calls on parameters with their answers, for `crates/replay`."""

import random
import struct
from collections import Counter

from chance import random_image, word_damage
from images import ABSENT, decode
from params import PARAM_CORNERS, answered
from records import PARAMETERS, record
from typed_chance import typed_image

SEED = 1851
# So many random calls of each sort, and of a sort's answers at most so many that begin alike.
RANDOM, ALIKE = 900, 12
# A random call's answer is stored if it is at most so long.
LONGEST = 1500


def corner_calls():
    """Name, image and words of document 01's corners, with a scope and without one."""
    for name, m, receiver, params, _ in PARAM_CORNERS:
        own = (1, *receiver) if receiver else (0, 0, 0)
        listed = [word for param in params for word in param]
        for scopes in (1, 0):
            yield f"corner:{name}:{scopes}", m.encode(), (scopes, *own, *listed)


def short_calls():
    """Calls of fewer than four words, which name nothing; number 1 comes before that."""
    whole = next(m.encode() for _, m, *_ in PARAM_CORNERS)
    for count in range(4):
        yield f"short:{count}", whole, (1,) * count
    yield "short:version", bytes((0, 0, 0, 1, 2)), (1, 0, 0)
    yield "short:cut", whole[:-1], ()


def self_calls():
    """Self's binding or its type is not in the image: no parameter binds what is not there."""
    for name, m, receiver, params, _ in PARAM_CORNERS:
        if name in ("bound_twice", "bound_last"):
            listed = [word for param in params for word in param]
            for past, own in (("binding", (len(m.bindings), receiver[1])),
                              ("type", (receiver[0], len(m.types)))):
                yield f"corner:{name}:no_{past}", m.encode(), (1, 1, *own, *listed)


def fitting_words(rng, m):
    """Patterns with their own types, so that most are accepted."""
    listed = []
    for _ in range(rng.choice((0, 1, 1, 2, 3, 5))):
        p = rng.randrange(len(m.patterns))
        listed += [p, m.patterns[p][1]]
    return listed


def any_words(rng, m):
    """Patterns and types, a number past the last among them, and lists of any length."""
    count = rng.choice((0, 1, 2, 3, 4, 7, 64, 128, 129, 130))
    limits = len(m.patterns), len(m.types)
    listed = [rng.randrange(limits[place % 2]) for place in range(count)]
    if listed and rng.randrange(4) == 0:
        place = rng.randrange(count)
        listed[place] = rng.choice((limits[place % 2], ABSENT))
    return listed


def own_words(rng, m):
    """The words for self: mostly none, or a binding and a type."""
    if not m.bindings or rng.randrange(3):
        return 0, rng.choice((0, ABSENT)), 0
    past = rng.randrange(8) == 0
    return 1, len(m.bindings) if past else rng.randrange(len(m.bindings)), rng.randrange(len(m.types))


def random_calls():
    """Sort, image and words of random calls."""
    rng = random.Random(SEED)
    for _ in range(RANDOM):
        for sort, image, words in (("fitting", typed_image(rng).encode(), fitting_words),
                                   ("any", random_image(rng).encode(), any_words)):
            m = decode(image)
            listed = words(rng, m)
            own = own_words(rng, m)
            yield sort, image, (rng.choice((1, 1, 1, 0)), *own, *listed)
            if rng.randrange(8) == 0:
                yield "damaged", word_damage(rng, image), (1, *own, *listed)


def call_record(image, words):
    """A call as the stored list has it."""
    return record(PARAMETERS, image) + struct.pack(f">I{len(words)}H", len(words), *words)


def text(call):
    """What is printed for a call."""
    return "".join(f"{line}\n" for line in answered(call))


def all_calls():
    """Name, bytes and answer of each call."""
    for name, image, words in (*corner_calls(), *short_calls(), *self_calls()):
        call = call_record(image, words)
        yield name, call, text(call)
    alike = Counter()
    for sort, image, words in random_calls():
        call = call_record(image, words)
        answer = text(call)
        first = answer.split("\n", 1)[0].split(" ")
        kind = (sort, first[1] if first[0] == "refused" else len(answer) // 200)
        if len(answer) <= LONGEST and alike[kind] < ALIKE:
            alike[kind] += 1
            yield f"{sort}:{sum(alike.values())}", call, answer


def params_records():
    """The records, what is printed for each, and params.txt."""
    calls = list(all_calls())
    listed = (f"{number} {name} {answer.split(chr(10), 1)[0]}\n"
              for number, (name, _, answer) in enumerate(calls, 1))
    return [call for _, call, _ in calls], [answer for _, _, answer in calls], "".join(listed)
