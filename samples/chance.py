"""Images by chance, always the same: random valid ones, random damage, random bytes."""

import random

from bases import hull, rig
from images import (
    ABSENT, ADT, ARRAY, BIND, BOOLEAN, CHARACTER, CONSTANT, ENUM, HEADER_SIZE, INT, INTEGER,
    LIT, NAMES_BINDING, NAMES_CONSTANT, NAMES_VARIANT, OR, PATH, RANGE, RECORD, REF, SLICE,
    STRUCT, TUPLE, TUPLE_STRUCT, TUPLE_TYPE, UINT, UNION, Image, framed,
)
from readable import sample_files

SEED = 1851


def random_operand(m, rng, kind):
    """An operand of this kind that holds."""
    count = {INT: 16, UINT: 16, CHARACTER: 4, BOOLEAN: 1,
             CONSTANT: rng.randint(1, 16)}.get(kind, rng.randint(0, 5))
    content = rng.randbytes(count)
    if kind == CHARACTER:
        content = rng.choice((0x41, 0xD7FF, 0xE000, 0x1F600)).to_bytes(4, "little")
    if kind == BOOLEAN:
        content = bytes([rng.randint(0, 1)])
    return m.add_operand(kind, content)


def random_types(m, rng, total):
    """So many types of any kinds; they name each other freely."""
    def fields():
        return [rng.randrange(total) for _ in range(rng.randint(0, 3))]
    for _ in range(total):
        kind, flag = rng.randint(1, 9), rng.randint(0, 2)
        if kind == INTEGER:
            m.add_type(kind, rng.choice((1, 2, 4, 8, 16)), rng.randint(0, 1), copy=flag)
        elif kind == TUPLE_TYPE:
            m.add_tuple_type(*fields(), copy=flag)
        elif kind == ADT:
            c = rng.choice((STRUCT, ENUM, UNION))
            numbers = [m.add_variant(fields(), rng.randint(-9, 9))
                       for _ in range(rng.randint(1, 4) if c == ENUM else 1)]
            m.add_adt(c, numbers[0], len(numbers))
        else:
            length = rng.randint(0, 9) if kind == ARRAY else ABSENT
            m.add_type(kind, rng.randrange(total), length, copy=flag)


def random_path(m, rng):
    """The a and b of a path that names something."""
    a = rng.randint(0, 4)
    if a == NAMES_VARIANT:
        return a, rng.randrange(len(m.variants))
    if a == NAMES_BINDING:
        return a, rng.randrange(len(m.bindings))
    return a, random_operand(m, rng, CONSTANT) if a == NAMES_CONSTANT else ABSENT


def random_words(m, rng, kind, free):
    """The words a to d of a pattern; subpatterns are taken from the free ones."""
    def take():
        return free.pop(rng.randrange(len(free))) if free and rng.random() < 0.8 else ABSENT

    def end():
        return rng.choice((ABSENT, random_operand(m, rng, rng.randint(1, 10))))
    items = [free.pop() for _ in range(min(len(free), rng.randint(0, 3)))]
    anything = rng.choice((0, 1, 9999, ABSENT))
    variant = rng.choice((ABSENT, rng.randrange(len(m.variants))))
    if kind == RECORD:
        pairs = [word for item in items for word in (rng.choice((0, 1, ABSENT)), item)]
        return m.add_words(*pairs), len(items), variant, anything
    if kind in (TUPLE, OR, TUPLE_STRUCT):
        return m.add_words(*items), len(items), anything, variant
    if kind == SLICE:
        prefix = rng.randint(0, len(items))
        return m.add_words(*items), prefix, len(items) - prefix, take()
    if kind == RANGE:
        return end(), end(), rng.randint(0, 2), anything
    if kind == LIT:
        return random_operand(m, rng, rng.randint(1, 10)), anything, anything, anything
    if kind == BIND:
        return rng.randrange(len(m.bindings)), take(), rng.randint(0, 2), rng.randint(0, 2)
    if kind == PATH:
        return (*random_path(m, rng), anything, anything)
    return anything, anything, anything, anything


def random_image(rng):
    """A valid image of any shape."""
    m, total = Image(), rng.randint(1, 9)
    random_types(m, rng, total)
    m.add_variant([rng.randrange(total)], 1)
    for _ in range(rng.randint(1, 3)):
        m.add_binding(rng.randrange(total), rng.randint(0, 2))
    free = []
    for number in range(rng.randint(2, 14)):
        kind = rng.randint(0, 16)
        if kind == REF and free:
            words = free.pop(), ABSENT, ABSENT, ABSENT
        else:
            kind = OR if kind == REF else kind
            words = random_words(m, rng, kind, free)
        m.add_pattern(kind, rng.randrange(total), *words, derefs=rng.choice((0, 0, 1, 16)))
        free.append(number)
    return m


def byte_damage(rng, image):
    """The image with one byte changed."""
    changed, place = bytearray(image), rng.randrange(len(image))
    changed[place] ^= rng.randint(1, 255)
    return bytes(changed)


def word_damage(rng, image):
    """The image with one word behind the counts set to one that is often wrong."""
    changed = bytearray(image)
    place = HEADER_SIZE + 2 * rng.randrange((len(image) - HEADER_SIZE - 16) // 2)
    word = rng.choice((0, 1, 2, 3, 5, 8, 11, 17, 64, 256, 32768, 65534, ABSENT))
    changed[place:place + 2] = word.to_bytes(2, "big")
    return bytes(changed)


def random_tables(rng):
    """A whole frame around small random words."""
    counts = [rng.randint(1, 3) for _ in range(5)] + [rng.randint(0, 20)]
    words = [rng.choice((0, 0, 1, 1, 2, 3, rng.randint(0, 16))) for _ in range(
        sum(n * width for n, width in zip(counts, (5, 3, 7, 2, 1))))]
    rest = b"".join(word.to_bytes(2, "big") for word in counts + words)
    return framed(rest + bytes(counts[5]))


def chance_cases():
    """Name, bytes, zeros that follow and, where they are known, the rules broken."""
    rng = random.Random(SEED)
    whole = [random_image(rng).encode() for _ in range(30)]
    for number, image in enumerate(whole):
        yield f"chance:valid{number}", image, 0, []
    samples = [image for name, _, image in sample_files()
               if name not in ("damaged", "used_twice")]
    pool = samples * 3 + whole + [hull().encode(), rig().encode()] * 3
    for number in range(60):
        yield f"chance:byte{number}", byte_damage(rng, rng.choice(pool)), 0, None
    for number in range(60):
        yield f"chance:word{number}", word_damage(rng, rng.choice(pool)), 0, None
    for number in range(10):
        yield f"chance:bytes{number}", rng.randbytes(rng.randint(1, 90)), 0, None
    for number in range(10):
        image = framed(rng.randbytes(rng.randint(12, 90)))
        yield f"chance:framed{number}", image, 0, None
    for number in range(20):
        yield f"chance:tables{number}", random_tables(rng), 0, None
