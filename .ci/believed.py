#!/usr/bin/env python3
"""Counts the definitions that the auditor's page rests on: `.ci/believed.py [FILES] [NAMES]`.

From the statements of the page's theorems every name is followed to its definition in specs/, and
from there on by the names that the definition has. Counted are the lines of the definitions that are
reached, without comments, imports and empty lines. What need not be believed is the lowering itself:
the page's theorems are about what it gives; and what a call's contract says, which stands in hypotheses
alone: the proof of the code meets it, whatever it says, and the theorem follows from it. It is told how
many lines more the contracts lead to. With FILES the lines are told for each file, with NAMES the names
that stand for two things.
"""

import re
import sys
from functools import cache
from pathlib import Path

ROOT = Path(__file__).resolve().parent.parent
# The page by demands: 2 and 3 with parameters, and demand 1 and acceptance beside them; and the page on texts, which is another.
AUDIT = [f"audit/proofs/{name}" for name in ("Audit", "Parameters", "Defined", "Accepting", "Refusing", "Locals", "Scopes", "Pinned")]
PAGE = (("demands 2 and 3, with parameters", AUDIT[:2]), ("all of the page", AUDIT), ("patterns as text", ["reading_audit/proofs/Texts"]))
# The lowering's definition and the steps that it is made of; of `lower_spec` and `state` the rest is read as tables are.
LOWERING = re.compile(r"crates/(pattern_matching|literals|drop_scopes_spec)/specs/|crates/(params_spec/specs/Params|lower_spec/specs/(Temps|Merging)|state/specs/Steps|mir/specs/Rvalues)")
# `place_ty` and the shape of a place stand among the lowering's files, but are read by the counts and the fit.
READ_BY_OTHERS = {"place_ty", "shape_of", "Ctx", "Out", "Walk", "local_place", "fields_up_to", "suffix_items", "Param", "ParamsOut", "Declared", "self_count"}
# What a call's contract promises of its answer.
CONTRACT = re.compile(r"Promised\w*$")

USE = re.compile(r"^use Rattle\.(\w+)((?:\.\w+)+)\.\{([^}]*)\}", re.M)
HEAD = re.compile(r"^( *)(?:(?:unfoldable|abbrev) )?(?:pub )?(?:(record|data) )?([^\s:(]+)(?: |$)")
NAME = re.compile(r"[^\s(){},.;λ∷]+")
WORDS = {"use", "module", "mutual", "unfoldable", "unfolding", "where", "--", "let", "in"}


class Definition:
    """A definition: its names, its lines, and the words that it has."""

    def __init__(self, name, indent, kind):
        self.own, self.names, self.indent, self.kind, self.lines = name, {name}, indent, kind, []

    def add(self, line):
        self.lines.append(line)
        found = re.match(r"^ +(?:pub )?(\S+) : ", line)
        if self.kind == "data" and found:
            self.names.add(found[1])

    def words(self):
        return {word for line in self.lines for word in NAME.findall(line)}


def imports(text, crate):
    """The names that a file imports, each with the file of specs/ that has it."""
    named = {}
    for other, module, names in USE.findall(text):
        parts = [part for part in module.split(".") if part and part not in ("specs", "proofs")]
        inside = ROOT / "crates" / other
        path = next((file for folder in ("specs", "proofs") if (file := inside / folder / ("/".join(parts) + ".antt")).is_file()), inside)
        for name in names.split(","):
            own, _, alias = name.strip().partition(" as ")
            if "declared" not in parts:
                named[alias or own] = (path, own)
    return named


@cache
def definitions(path):
    """The definitions of a file by their names, and what it imports."""
    text = path.read_text(encoding="utf-8")
    found, current, outer = {}, None, []
    for line in text.splitlines():
        words = line.split()
        if not words or words[0] in ("use", "--", "pub") and words[:2] in (["pub", "mod"], ["--", ""]) or line.lstrip().startswith("--") or words[0] == "use":
            continue
        indent = len(line) - len(line.lstrip())
        outer = [kept for kept in outer if len(kept) - len(kept.lstrip()) < indent]
        if words[0] == "module" or line.strip() in ("mutual", "unfoldable mutual"):
            outer.append(line)
            current = None
            continue
        head = HEAD.match(line)
        begins = head and (head[2] or re.match(r"^ *(?:(?:unfoldable|abbrev) )?(?:pub )?\S+ : ", line)) and words[0] not in WORDS - {"unfoldable"}
        if begins and (current is None or indent <= current.indent):
            current = Definition(head[3], indent, head[2])
            current.lines += [wrapping for wrapping in outer if wrapping.lstrip().startswith("module")]
            found[head[3]] = current
        if current is not None:
            current.add(line)
            for name in current.names:
                found[name] = current
    return found, imports(text, path.parts[path.parts.index("crates") + 1])


def statements(path):
    """The words of a page's statements: signatures, and the modules around them."""
    text = path.read_text(encoding="utf-8")
    lines = [line for line in text.splitlines() if not re.match(r"\s*(--|use |pub mod )", line)]
    kept = [line for line in lines if not re.match(r"\s*[a-z][\w'\-]* (?:\w+ )*= ", line)]
    return {word for line in kept for word in NAME.findall(line)}


def reached(names, through_contracts=True):
    """The definitions that the page's files lead to, the lowering's apart: (file, definition)."""
    believed, lowering, todo = set(), set(), []
    for name in names:
        path = ROOT / f"crates/{name}.antt"
        named = imports(path.read_text(encoding="utf-8"), name.split("/")[0])
        todo += [named[word] for word in statements(path) if word in named]
    while todo:
        path, word = todo.pop()
        if not path.is_file():
            continue
        found, named = definitions(path)
        if word not in found:
            continue
        entry = (path, found[word])
        passed = LOWERING.search(path.as_posix()) and not found[word].names & READ_BY_OTHERS
        if entry in believed or entry in lowering:
            continue
        (lowering if passed else believed).add(entry)
        if not passed and (through_contracts or not CONTRACT.match(word)):
            todo += [(path, other) for other in found[word].words() if other in found]
            todo += [named[other] for other in found[word].words() if other in named]
    return believed


def by_file(definitions_):
    """The lines of definitions, for each file."""
    files = {}
    for path, definition in definitions_:
        files[path] = files.get(path, 0) + len([line for line in definition.lines if not line.lstrip().startswith("module")])
    return files


def twice(definitions_):
    """The names that stand for two things, each with its files. A pattern's constructor is written with its type, as `Pat.Tuple`."""
    where = {}
    for path, definition in definitions_:
        for name in definition.names:
            whole = f"Pat.{name}" if definition.own == "Pat" and name != "Pat" else name
            where.setdefault(whole, set()).add(path.relative_to(ROOT).as_posix())
    return {name: sorted(files) for name, files in where.items() if len(files) > 1}


def main():
    """Prints the totals, with FILES the files, and with NAMES the names that are defined twice."""
    for title, names in PAGE:
        believed = reached(names, through_contracts=False)
        files, all_files = by_file(believed), by_file(reached(names))
        total = sum(files.values())
        print(f"{title}: {total} lines of definitions to believe, in {len(files)} files; the code's contracts lead to {sum(all_files.values()) - total} more")
        if "FILES" in sys.argv[1:]:
            for path in sorted(files):
                print(f"  {files[path]:4} {path.relative_to(ROOT)}")
        if "NAMES" in sys.argv[1:]:
            for name, defined in sorted(twice(believed).items()):
                print(f"  {name}: {', '.join(defined)}")


if __name__ == "__main__":
    main()
