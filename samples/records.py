"""A record of the stored lists that `crates/replay` and `crates/replay_texts` replay.

A byte, the record's sort; four big-endian bytes n, four big-endian bytes z, and n bytes: the
image is these n bytes and z zero bytes. Behind it stands what the sort has besides.
"""

import struct
from itertools import groupby

IMAGE, LISTING, SCRIPT, PARAMETERS, FIT, READING = range(1, 7)
# From so many zero bytes at its end on, an image is stored without them.
LONG_ZEROS = 64


def record(sort, image, zeros=0):
    """One record of an image, and so many zero bytes."""
    head = image.rstrip(b"\0")
    if len(image) - len(head) < LONG_ZEROS:
        head = image
    zeros += len(image) - len(head)
    return bytes([sort]) + len(head).to_bytes(4, "big") + zeros.to_bytes(4, "big") + head


def reading_records(calls):
    """Calls on texts, each a text, a sheet, a name table and an expected type: one record for those in a row with the same tables."""
    for (sheet, names), own in groupby(calls, key=lambda call: call[1:3]):
        texts = [struct.pack(">HI", expected, len(text)) + text for text, _, _, expected in own]
        yield record(READING, sheet) + struct.pack(">I", len(names)) + names + struct.pack(">I", len(texts)) + b"".join(texts)
