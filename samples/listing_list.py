"""The images whose listings are stored, for `crates/replay`."""

import random
from collections import Counter
from pathlib import Path

from accepted import with_u8
from chance import random_image, word_damage
from corners import CORNERS
from images import ABSENT, LIT, OR, TUPLE, TUPLE_TYPE, WILD
from lowering import listing
from readable import sample_files
from records import LISTING, record
from typed_chance import typed_image

# Images that the harness made and keeps here: a line has a sort, hexadecimal digits, and how many zero bytes follow.
HARNESS = Path(__file__).resolve().parent / "harness_images.txt"
SEED = 2026
# So many random images of each sort, and of a sort's answers at most so many that begin alike.
RANDOM, ALIKE = 1500, 24
# A random image's listing is stored if it is at most so long.
LONGEST = 1500


def or_of_127():
    """127 literals in one Or."""
    m, u8 = with_u8()
    literals = [m.add_pattern(LIT, u8, m.add_integer(value)) for value in range(127)]
    m.add_pattern(OR, u8, m.add_words(*literals), 127)
    return m


def nested_ors():
    """30 Ors, each the one alternative of the next, over a tuple of 481 wildcards."""
    m, u8 = with_u8()
    whole = m.add_type(TUPLE_TYPE, m.add_words(*[u8] * 481), 481)
    items = m.add_words(*[m.add_pattern(WILD, u8) for _ in range(481)])
    item = m.add_pattern(TUPLE, whole, items, 481, ABSENT)
    for _ in range(30):
        item = m.add_pattern(OR, whole, m.add_words(item), 1)
    return m


def random_images():
    """Random images by the sort: patterns that follow their types, any valid tables, damaged ones."""
    rng = random.Random(SEED)
    for _ in range(RANDOM):
        yield "typed", typed_image(rng).encode()
        valid = random_image(rng).encode()
        yield "valid", valid
        yield "damaged", word_damage(rng, valid)


def harness_images():
    """Sort and bytes of each image of the harness."""
    for line in HARNESS.read_text(encoding="utf-8").splitlines():
        if not line.startswith("#"):
            sort, digits, zeros = line.split(" ")
            yield sort, bytes.fromhex(digits) + bytes(int(zeros))


def all_images():
    """Name and bytes of each image."""
    for name, _, image in sample_files():
        yield f"sample:{name}", image
    for name, m in CORNERS:
        yield f"corner:{name}", m.encode()
    for make in (or_of_127, nested_ors):
        yield f"largest:{make.__name__}", make().encode()
    alike = Counter()
    for sort, image in random_images():
        answer = listing(image)
        first = answer.split("\n", 1)[0].split(" ")
        kind = (sort, first[1] if first[0] == "refused" else len(answer) // 200)
        if len(answer) <= LONGEST and alike[kind] < ALIKE:
            alike[kind] += 1
            yield f"{sort}:{sum(alike.values())}", image
    for number, (sort, image) in enumerate(harness_images(), 1):
        yield f"harness:{number}:{sort}", image


def listing_records():
    """The records, what is printed for each, and listings.txt."""
    given, printed, listed = [], [], []
    for number, (name, image) in enumerate(all_images(), 1):
        answer = listing(image)
        given.append(record(LISTING, image))
        printed.append(answer)
        listed.append(f"{number} {name} {answer.split(chr(10), 1)[0]}\n")
    return given, printed, "".join(listed)
