"""The stored questions whether a pattern fits, with their answers, for `crates/replay`.

A question is an image and words: the pattern, the type of its place, the local that is the
place's root, and the bindings' locals, 65535 for none.
"""

import random
import struct
from collections import Counter

from chance import random_image, word_damage
from corners import CORNERS
from fits import fits
from images import (
    ABSENT, INTEGER, NAMES_VARIANT, OR, PATH, RECORD, SLICE, STRUCT, TUPLE, UNRESOLVED, WILD, Image, broken, decode,
)
from lowering import root_type
from records import FIT, record
from typed_chance import typed_image

SEED = 716
# So many random images of each sort, and of a sort and a kind of pattern at most so many that are answered alike.
RANDOM, ALIKE = 1200, 5


def place_type(m, p):
    """The lowest type that the pattern's derefs bring to its type, or the pattern's own."""
    found = root_type(m, p)
    return m.patterns[p][1] if found is None else found


def apart(m):
    """Root 0, and the bindings' locals behind it."""
    return tuple(range(len(m.bindings) + 1))


def mixed_locals(rng, m):
    """Locals of which one is missing, or stands twice, or is the root, or all differ."""
    words = list(apart(m))
    sort = rng.randrange(6)
    if sort == 0 and m.bindings:
        words[1 + rng.randrange(len(m.bindings))] = ABSENT
    elif sort == 1 and m.bindings:
        words[rng.randrange(1, len(words))] = 0
    elif sort == 2 and len(m.bindings) > 1:
        words[1] = words[2]
    return tuple(words)


def random_questions(rng):
    """Sort, image and words of random questions."""
    for _ in range(RANDOM):
        for sort, image in (("typed", typed_image(rng).encode()), ("any", random_image(rng).encode())):
            changed = word_damage(rng, image)
            if broken(changed):
                yield "damaged", changed, (0, 0, 0)
            for kept, sure in ((image, sort), (changed, "changed")):
                if broken(kept):
                    continue
                m = decode(kept)
                p = len(m.patterns) - 1 if rng.randrange(3) else rng.randrange(len(m.patterns))
                yield sure, kept, (p, place_type(m, p), *mixed_locals(rng, m))


def unreached_questions():
    """An Or of a Wild and of a pattern that is refused where it is reached, in either order."""
    refused = {"variant": (PATH, NAMES_VARIANT, 0), "record": (RECORD, 0, 0, 0), "tuple": (TUPLE, 0, 0, ABSENT),
               "slice": (SLICE, 0, 0, 0, ABSENT), "ellipsis": (TUPLE, 0, 0, 1), "unresolved": (PATH, UNRESOLVED)}
    for name, row in refused.items():
        for order in (0, 1), (1, 0):
            m = Image()
            u8 = m.add_type(INTEGER, 1)
            m.add_adt(STRUCT, m.add_variant([u8]), 1)
            type_ = m.add_tuple_type() if name == "ellipsis" else u8
            pair = [m.add_pattern(WILD, type_), m.add_pattern(row[0], type_, *row[1:])]
            p = m.add_pattern(OR, type_, m.add_words(*(pair[at] for at in order)), 2)
            where = "behind" if order[0] == 0 else "before"
            yield f"refused:{name}-{where}-a-wild", m.encode(), (p, type_, *apart(m))


def all_questions():
    """Name, image and words of each question."""
    for name, m in CORNERS:
        if broken(m.encode()):
            continue
        p = len(m.patterns) - 1
        yield f"corner:{name}", m.encode(), (p, place_type(m, p), *apart(m))
    name, m = CORNERS[0]
    own = apart(m)
    for what, words in (("pattern", (len(m.patterns), 0, *own)), ("type", (0, len(m.types), *own)),
                        ("bindings", (0, 0, *own, 0)), ("words", (0, 0))):
        yield f"names-nothing:{what}", m.encode(), words
    yield from unreached_questions()
    alike, rng = Counter(), random.Random(SEED)
    for sort, image, words in random_questions(rng):
        kind = (sort, answered(image, words), ABSENT if broken(image) else decode(image).patterns[words[0]][0])
        if alike[kind] < ALIKE:
            alike[kind] += 1
            yield f"{sort}:{sum(alike.values())}", image, words


def answered(image, words):
    """The line that a question is answered with."""
    if broken(image):
        return "refused 1 65535 0"
    m = decode(image)
    if len(words) != 3 + len(m.bindings) or words[0] >= len(m.patterns) or words[1] >= len(m.types):
        return "refused 2 65535 0"
    p, type_, root, *locals_ = words
    return "fits" if fits(m, p, type_, root, locals_) else "does not fit"


def fit_records():
    """The records, the line printed for each, and fits.txt."""
    given, printed, listed = [], [], []
    for number, (name, image, words) in enumerate(all_questions(), 1):
        answer = answered(image, words)
        given.append(record(FIT, image) + struct.pack(f">I{len(words)}H", len(words), *words))
        printed.append(f"{answer}\n")
        listed.append(f"{number} {name} {answer}\n")
    return given, printed, "".join(listed)
