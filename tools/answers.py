#!/usr/bin/env python3
"""Turns a function's Proof.antt of an older Rattle into Answers.antt and Invariants.antt, under the goals' names of today.

usage: python3 tools/answers.py NAMES CRATE [FUNCTION..]

NAMES is the names.json that `rt check --generated DIR --old-names` writes for the crate, and CRATE its folder. What it cannot turn it names, and leaves as it is.
"""

import json
import os
import re
import sys

from answer_cycles import turn_cycle
from answer_texts import Chain, Left, answer_body, arguments, blocks_of, file_of, invariant, is_needless, mended, named_in, pairs_of, split

OF_RATTLE = re.compile(r"\.(Tie|Lts|Reads|Statement)( as \S+|\.\{statement\})?$")


def parts_of(text):
    """A proof's imports, its answers as they are handed to Rattle, and its declarations: those that answer, by name, and its own."""
    lines = text.split("\n")
    uses = [l for l in lines if l.startswith(("use ", "pub use "))]
    if any("{" in u and "}" not in u for u in uses):
        raise Left("a use line over several lines")
    blocks = blocks_of("\n".join(l for l in lines if l not in uses))
    final = [b for b in blocks if "tie.close" in b]
    spec = re.search(r"\(\s*tie\.spec(.*)\)", final[0], re.S) if len(final) == 1 else None
    if not spec:
        raise Left("no tie.close, or no tie.spec")
    declared, own = {}, []
    for block in blocks:
        code = "\n".join(l for l in block.split("\n") if not l.startswith("--"))
        if re.match(r"\s*(?:(?:pub|abbrev|unfoldable)\s+)*\S+ :\s+tie\.", code):
            it = split(block)
            declared[it[1]] = it
        elif block is not final[0]:
            own.append(block)
    return uses, arguments(spec.group(1)), declared, own


def answer(given, declared, new, chain):
    """The answer to the goal `new`, or nothing where none is wanted; and what is to be looked at."""
    if given in declared:
        notes, _, _, unfolds, params, body = declared[given]
    elif given.startswith("(λ"):
        it = re.match(r"\(λ ([^.]*)\.(.*)\)$", given, re.S)
        notes, unfolds, params, body = [], [], it.group(1).split(), " " + it.group(2).strip()
    else:
        notes, unfolds, params, body = [], [], [], " " + given
    if is_needless(body, unfolds):
        return None, []
    root = params[0] if params else None
    doubts = [f"{new}: κs is used"] if "κs" in params[1:] and re.search(r"(?<![\w.])κs(?![\w])", body) else []
    left = " ".join([new, *([root] if root else []), *(p for p in params[1:] if p != "κs")])
    return "\n".join([*notes, f"pub {new} : goal.{new}", *unfolds, f"{left} ={answer_body(body, root, chain)}"]), doubts


def turn(names, base, folder, path):
    """The proof of a function: its invariants and measures, and its answers."""
    with open(path, encoding="utf-8") as it:
        uses, given, declared, own = parts_of(it.read())
    loops = [g for g in given if g in declared and re.match(r"tie\.(invariant|decreases)-", declared[g][2])]
    asked = [g for g in given if g not in loops]
    invariants = [invariant(names, declared[g][2], g, *declared[g][3:]) for g in loops]
    pairs, doubts = pairs_of(asked, declared, names["needs"])
    answers = []
    for k, n in pairs:
        told, more = answer(asked[k], declared, names["needs"][n][1], Chain(names, names["asked_at"][n][0]))
        answers += [told] if told else []
        doubts += more
    keep = [u for u in uses if not OF_RATTLE.search(u)]
    if invariants:
        with open(os.path.join(folder, "Invariants.antt"), "w", encoding="utf-8") as it:
            it.write(file_of(keep, f"{base}.Given", [*named_in(own, invariants), *invariants]))
    if answers:
        with open(os.path.join(folder, "Answers.antt"), "w", encoding="utf-8") as it:
            it.write(mended(file_of(keep, f"{base}.Goals", [*own, *answers])))
    elif own:
        doubts.append("lemmas that no answer uses were dropped: " + ", ".join(b.split(" :")[0] for b in own))
    os.remove(path)
    return doubts


def mend_again(path):
    """An answers' file that stands, with the paths of today."""
    with open(path, encoding="utf-8") as it:
        text = it.read()
    if mended(text) != text:
        with open(path, "w", encoding="utf-8") as it:
            it.write(mended(text))


def turn_function(names, root, folder, function):
    crate = os.path.basename(root)
    path = os.path.join(folder, "Proof.antt")
    base = f"Rattle.{crate}.proofs." + function.replace("/", ".")
    if "/+" in "/" + function:
        return turn_cycle(names, base, folder, path)
    key = f"Rattle-{crate}-proofs." + function.replace("/", ".") + ".Lts"
    if key not in names:
        raise Left("names.json has no " + key)
    return turn(names[key], base, folder, path)


def main(argv):
    with open(argv[1], encoding="utf-8") as it:
        names = json.load(it)
    root, only = argv[2].rstrip("/"), argv[3:]
    crate = os.path.basename(root)
    done = left = 0
    for folder, _, files in os.walk(os.path.join(root, "proofs")):
        if "Answers.antt" in files:
            mend_again(os.path.join(folder, "Answers.antt"))
        function = os.path.relpath(folder, os.path.join(root, "proofs"))
        if "Proof.antt" not in files or (only and function not in only):
            continue
        try:
            for doubt in turn_function(names, root, folder, function):
                print(f"look: {crate} {function}: {doubt}")
            done += 1
        except Left as why:
            print(f"left: {crate} {function}: {why}")
            left += 1
    print(f"{crate}: {done} turned, {left} left")


if __name__ == "__main__":
    main(sys.argv)
