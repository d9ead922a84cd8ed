#!/usr/bin/env python3
"""Makes docs/CHECK-TIMES.md from what a gate printed: `.ci/check_times.py LOG > docs/CHECK-TIMES.md`."""

import re
import sys

HEAD = """# Check times

Made by `.ci/check_times.py` from what one run of `.ci/run` printed: for each crate the processor seconds of its check
from nothing, with its tests', and those of its must-fail edits together, with the check of the crate that they begin
with. Processor seconds are looked at once a second, so each process's are up to one short; what an earlier run on the
machine had proved or tried is not done again, and stands as a dash.

| crate | processor seconds | must-fail edits | their processor seconds |
|---|---|---|---|
"""


def processor_seconds(what, log):
    """The processor seconds that the gate told of crates or of their edits, by crate."""
    line = re.search(rf"^processor seconds of the {what}, to a second: (.*)$", log, re.M)
    return {crate: int(took) for crate, took in re.findall(r"(\w+) (\d+)", line[1])} if line else {}


def main():
    """Reads the log and prints the page."""
    if len(sys.argv) != 2:
        sys.exit(__doc__)
    with open(sys.argv[1], encoding="utf-8") as file:
        log = file.read()
    crates = re.findall(r"^rt: (\w+) (?:proved$|is kept: )", log, re.M)
    edits = re.findall(r"^rt: must-fail (\w+)/[\w.-]+: refused, as it must be", log, re.M)
    gate = re.search(
        r"^gate: (\d+) s, of which (\d+) before rt ci; (\d+) processors(?:, RT_JOBS (\d+))?; at most (-?\d+) MB", log, re.M)
    verdict = re.search(r"^(\d+ passed, 0 failed)$", log, re.M)
    if not crates or not gate or not verdict:
        sys.exit("this is no log of a green gate")
    of_crates, of_edits = processor_seconds("crates", log), processor_seconds("edits", log)
    print(HEAD, end="")
    for crate in crates:
        number = edits.count(crate)
        print(f"| `{crate}` | {of_crates.get(crate, '-')} | {number or ''} | {of_edits.get(crate, '-') if number else ''} |")
    whole, before, processors, jobs, memory = gate.groups()
    print(f"\nThe whole gate: {verdict[1]}, in {int(whole) / 60:.1f} minutes, of which {before} seconds are the checks before "
          f"`rt ci`; the programs are compared with the Rust's text beside it.\n{len(crates)} crates took {sum(of_crates.values())} "
          f"processor seconds together, {len(edits)} edits {sum(of_edits.values())}, on\n{processors} processors"
          f"{f', {jobs} at a time' if jobs else ''}; at most {memory} MB of memory were in use beyond what was before.")


if __name__ == "__main__":
    main()
