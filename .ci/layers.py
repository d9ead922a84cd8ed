#!/usr/bin/env python3
"""Draws the picture of the layers in docs/ARCHITECTURE.md: `.ci/layers.py [--check]`.

The groups are the page's sections under `## Layers`, their crates those of the sections' tables. An arrow
leads from a group to one that its crates name in crates.txt; one that others already lead to is left out.
Fails where a crate of crates.txt stands in no table or in two, where two groups lead to each other, and
with --check where the picture is not the one that would be drawn.
"""

import re
import sys
from pathlib import Path

ROOT = Path(__file__).resolve().parent.parent
PAGE = ROOT / "docs" / "ARCHITECTURE.md"
BEGIN, END = "<!-- picture: begin -->", "<!-- picture: end -->"


def dependencies():
    """The crates of crates.txt, each with those that it names."""
    found = {}
    for line in (ROOT / "crates.txt").read_text(encoding="utf-8").splitlines():
        crate, colon, rest = line.split("#")[0].partition(":")
        if colon:
            found[crate.split()[0]] = rest.split()
    return found


def groups(page):
    """The sections under `## Layers`, each with the crates of its table."""
    layers = page.split("\n## Layers\n", 1)[1].split("\n## ", 1)[0]
    found = {}
    for section in layers.split("\n### ")[1:]:
        name, _, text = section.partition("\n")
        rows = re.findall(r"^\| (`[^|]*) \|", text, re.M)
        found[name] = [crate for row in rows for crate in re.findall(r"`(\w+)`", row)]
    return found


def misplaced(named, crates):
    """The crates that stand in no group or in more than one, and what stands there and is none."""
    placed = [crate for members in named.values() for crate in members]
    wrong = [f"{crate}: in {placed.count(crate)} tables of {PAGE.name}" for crate in crates if placed.count(crate) != 1]
    return wrong + [f"{crate}: in {PAGE.name}, and not in crates.txt" for crate in placed if crate not in crates]


def arrows(named, crates):
    """Between groups, without those to which other arrows lead; none where groups lead to each other."""
    group = {crate: name for name, members in named.items() for crate in members}
    direct = {name: set() for name in named}
    for crate, below in crates.items():
        direct[group[crate]] |= {group[other] for other in below if other in group} - {group[crate]}

    def reaches(start, goal, seen):
        return any(step == goal or step not in seen and reaches(step, goal, seen | {step}) for step in direct[start])

    if any(reaches(name, name, set()) for name in named):
        return []
    return [(name, other) for name in named for other in sorted(direct[name], key=list(named).index) if not any(reaches(step, other, {name}) for step in direct[name] - {other})]


def picture(named, crates):
    lines = ["```mermaid", "graph BT"]
    lines += [f"    {name}[\"{name}: {len(members)} crates\"]" for name, members in named.items()]
    lines += [f"    {upper} --> {lower}" for upper, lower in arrows(named, crates)]
    return "\n".join(lines + ["```"])


def main(arguments):
    if arguments not in ([], ["--check"]):
        print("usage: .ci/layers.py [--check]", file=sys.stderr)
        return 2
    page, crates = PAGE.read_text(encoding="utf-8"), dependencies()
    named = groups(page)
    wrong = misplaced(named, crates)
    if not wrong and not arrows(named, crates):
        wrong = ["two groups lead to each other"]
    if wrong:
        print("\n".join(wrong), file=sys.stderr)
        return 1
    before, _, rest = page.partition(BEGIN)
    drawn = before + BEGIN + "\n" + picture(named, crates) + "\n" + END + rest.partition(END)[2]
    if arguments:
        if drawn != page:
            print(f"{PAGE.name}: the picture is not that of crates.txt: run .ci/layers.py", file=sys.stderr)
        return int(drawn != page)
    PAGE.write_text(drawn, encoding="utf-8")
    return 0


if __name__ == "__main__":
    sys.exit(main(sys.argv[1:]))
