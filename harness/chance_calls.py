#!/usr/bin/env python3
"""Writes scripts of calls by chance, and the lines that samples/calls.py answers them with.

`chance_calls.py SEED COUNT MATCHES GIVEN PRINTED`: a seed, how many scripts on bodies and how
many on patterns, and the two files, in the form of `crates/replay/stdin` and `stdout`.
"""

import random
import sys
from pathlib import Path

sys.dont_write_bytecode = True
sys.path.insert(0, str(Path(__file__).resolve().parent.parent / "samples"))

from call_chance import chance_script
from call_list import lines_of, script_record
from match_chance import match_script


def main():
    """Makes the scripts and writes both files."""
    seed, count, matches, given, printed = sys.argv[1:]
    rng = random.Random(int(seed))
    with open(given, "wb") as scripts, open(printed, "w", encoding="utf-8") as lines:
        for make in int(count) * [chance_script] + int(matches) * [match_script]:
            image, script = make(rng)
            scripts.write(script_record(image, script))
            lines.writelines(f"{line}\n" for line in lines_of(image, script)[0])


if __name__ == "__main__":
    main()
