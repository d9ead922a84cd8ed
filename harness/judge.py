#!/usr/bin/env python3
"""Answers a list of records as `replay` does, with samples/lowering.py, calls.py and fits.py.

The list is on standard input, in the form of `crates/replay/stdin`: images for their listings,
scripts, and questions whether a pattern fits. With the argument `assigns` the last pattern of an
image is lowered by `pattern_match_assignment`; with `visits` a listing ends with a line `visits`
and how often each pattern was visited.
"""

import struct
import sys
from pathlib import Path

sys.dont_write_bytecode = True
sys.path.insert(0, str(Path(__file__).resolve().parent.parent / "samples"))

from call_list import lines_of
from fit_list import answered
from images import broken, decode
from lowering import assign, body_lines, listing, lower
from records import FIT, SCRIPT


def answer(image, arguments):
    """The listing of an image, or its refusal."""
    if not arguments:
        return listing(image)
    if broken(image):
        return "refused 1 65535 0\n"
    m = decode(image)
    body = (assign if "assigns" in arguments else lower)(m, len(m.patterns) - 1)
    lines = list(body_lines(body))
    if "visits" in arguments and not body.refusal:
        lines.append(" ".join(["visits", *map(str, body.visits)]))
    return "".join(f"{line}\n" for line in lines)


def records(given):
    """Sort, image and words of each record."""
    place = 0
    while place < len(given):
        sort, kept, zeros = struct.unpack_from(">BII", given, place)
        place += 9 + kept
        image, words = given[place - kept:place] + bytes(zeros), ()
        if sort in (SCRIPT, FIT):
            count = struct.unpack_from(">I", given, place)[0] * (4 if sort == SCRIPT else 1)
            words = struct.unpack_from(f">{count}H", given, place + 4)
            place += 4 + 2 * count
        yield sort, image, words


def main():
    """Reads the list and prints the answers."""
    for sort, image, words in records(sys.stdin.buffer.read()):
        if sort == SCRIPT:
            script = [words[at:at + 4] for at in range(0, len(words), 4)]
            text = "".join(f"{line}\n" for line in lines_of(image, script)[0])
        elif sort == FIT:
            text = f"{answered(image, words)}\n"
        else:
            text = answer(image, sys.argv[1:])
        sys.stdout.write(text)


if __name__ == "__main__":
    main()
