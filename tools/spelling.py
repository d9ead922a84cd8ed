#!/usr/bin/env python3
"""Brings the repository's own definitions and lemmas to the spelling of today's Rattle: words in snake case, types and modules as they are.

usage: python3 tools/spelling.py BEFORE [--check]

Run it once, at the top, right behind the toolchain's own script for older repositories. BEFORE is the commit in front of that script: its texts tell which names are
declared, and which of two names stood where that script has spelled both alike. `fooBar` and `foo-bar` become `foo_bar`; where both are declared, the definition
(`fooBar`) keeps the plain spelling and the lemma gets `_lem` behind it, as does a definition whose new spelling a parameter, a field or a constant of the code has already.
Changed are the .antt files, the clauses and `ghost use` lines of the .rt files, and names in backticks in documents. The code, strings and outputs stay. --check writes nothing.
"""

import bisect
import collections
import difflib
import os
import re
import subprocess
import sys

NAME = re.compile(r"[^\s(){}.;,@\"«»\[\]\\`]+")
HEAD = re.compile(r"^\s*(?:(?:pub|abbrev|unfoldable|ruleset)\s+)*([^\s(){}:.,;=λ«»]+) :(?= |$)")
TYPE = re.compile(r"^\s*(?:(?:pub|abbrev|unfoldable)\s+)*(?:data|record)\s+(?:pub\s+)?([^\s(){}:.,;=λ«»]+)")
GENERATED = re.compile(r" : (tie|lts|goal|given)[.·]| : \{M : Type 1\} → statement M")
# What would be a tactic's word.
OTHERWISE = {"firstOf": "first_where"}
# Rattle makes a module `contracts` of its own beside these.
MOVED = [("crates/called/specs", "Rattle.called.specs"), ("crates/state/specs", "Rattle.state.specs")]


def git(*words):
    return subprocess.run(["git", *words], capture_output=True, check=True).stdout.decode("utf-8", "replace")


def texts_at(commit):
    """The text of each .rt and .antt file at a commit."""
    paths = [p for p in git("ls-tree", "-r", "--name-only", commit, "crates").split("\n") if p.endswith((".rt", ".antt"))]
    run = subprocess.Popen(["git", "cat-file", "--batch"], stdin=subprocess.PIPE, stdout=subprocess.PIPE)
    found = {}
    for path in paths:
        run.stdin.write(f"{commit}:{path}\n".encode())
        run.stdin.flush()
        size = int(run.stdout.readline().split()[2])
        found[path] = run.stdout.read(size).decode("utf-8", "replace")
        run.stdout.read(1)
    run.stdin.close()
    return found


def snake(name):
    name = name.replace("′", "'")
    if name[:1].isupper():
        return name
    return re.sub(r"(?<=[a-z0-9'A-Z])([A-Z])", lambda it: "_" + it.group(1).lower(), name).replace("-", "_")


def declared(texts):
    """The names that the .antt files declare, but for answers to what Rattle asks."""
    names = set()
    for path, text in texts.items():
        if not path.endswith(".antt"):
            continue
        for line in text.split("\n"):
            head = HEAD.match(line) or TYPE.match(line)
            if head and not GENERATED.search(line):
                names.add(head.group(1))
    return {n for n in names if re.match(r"[a-z]", n) and not re.fullmatch(r"[a-z]\S*-spec", n)}


def code_names(texts):
    """The names of the parameters, fields and constants of the code."""
    names = set()
    for path, text in texts.items():
        if path.endswith(".rt"):
            code = re.sub(r"//[^\n]*", "", text)
            names |= set(re.findall(r"\b([a-z]\w*_\w+)\s*:(?!:)", code))
    return names


def table_of(texts):
    own, code = declared(texts), code_names(texts)
    groups = collections.defaultdict(set)
    for name in own:
        groups[snake(name)].add(name)
    table = {}
    for new, olds in groups.items():
        camel = [n for n in olds if n != new and "-" not in n] or [n for n in olds if n == new]
        for old in olds:
            to = new
            if len(olds) > 1 and old not in camel:
                to = new + "_lem"
            elif "-" not in old and old != new and new in code:
                to = new + "_lem"
            table[old] = OTHERWISE.get(old, to)
    return table


def spans_of(path, text):
    """The parts of a text in which names of definitions and lemmas stand, as pairs of offsets."""
    if path.endswith(".antt"):
        return [(0, len(text))]
    found = []
    for it in re.finditer(r"(?m)^\s*ghost use[^;]*;", text):
        found.append((it.start(), it.end()))
    for it in re.finditer(r"(?:requires|ensures)\*?(?:\s+\w+)?\s*\{|ghost\s+\w+\s*[:=]\s*\{", text):
        depth, at = 0, it.end() - 1
        while True:
            depth += {"{": 1, "}": -1}.get(text[at], 0)
            at += 1
            if not depth:
                break
        found.append((it.end(), at))
    return sorted(found)


def comment_spans(path, text):
    mark = "--" if path.endswith(".antt") else "//"
    return [(it.start(), it.end()) for it in re.finditer(rf"(?m)(?:^|(?<=\s)){mark}[^\n]*", text)]


def tokens(path, text, wanted):
    comments = comment_spans(path, text)
    starts = [a for a, _ in comments]

    def inside(at):
        k = bisect.bisect_right(starts, at) - 1
        return k >= 0 and at < comments[k][1]

    found = []
    for a, b in spans_of(path, text):
        for it in NAME.finditer(text, a, b):
            if it.group() in wanted:
                found.append((it.start(), it.end(), it.group(), inside(it.start())))
    return found


def merged(table, path, old_text, new_text):
    """Where each name stands in the new text that the older script spelled like another one: offset to old name."""
    groups = collections.defaultdict(set)
    for old in table:
        groups[snake(old)].add(old)
    twins = {old for new, olds in groups.items() if len(olds) > 1 for old in olds}
    news = {snake(old) for old in twins}
    before = [t for t in tokens(path, old_text, twins | news) if not t[3]]
    after = [t for t in tokens(path, new_text, twins | news) if not t[3]]
    a, b = [snake(t[2]) for t in before], [snake(t[2]) for t in after]
    where, unsure = {}, []
    for kind, i, j, k, m in difflib.SequenceMatcher(None, a, b, autojunk=False).get_opcodes():
        for n in range(m - k):
            spot = after[k + n]
            if kind == "equal":
                where[spot[0]] = before[i + n][2]
            elif kind != "delete":
                here = {t[2] for t in before if snake(t[2]) == b[k + n]}
                if len(here) == 1:
                    where[spot[0]] = here.pop()
                else:
                    unsure.append((path, spot[2], new_text[: spot[0]].count("\n") + 1, sorted(here)))
    return where, unsure


def turned(path, text, old_text, table, library):
    where, unsure = merged(table, path, old_text, text) if old_text is not None else ({}, [])
    spelled = {snake(old): old for old in table}
    out, at = [], 0
    for start, end, name, comment in tokens(path, text, set(table) | set(spelled)):
        if start in where:
            to = table.get(where[start], name)
        elif name in table and name not in library.get(path, ()):
            to = table[name]
        else:
            continue
        if comment and "-" in name:
            continue
        if start < at:
            continue
        out += [text[at:start], to]
        at = end
    return "".join(out) + text[at:], unsure


def imports(text):
    """The names that a text takes from a library."""
    names = set()
    for it in re.finditer(r"(?m)^\s*(?:ghost |pub )*use ([A-Za-z]\S*?)\.\{([^}]*)\}", text):
        if not re.match(r"Rattle[.·](?!std\b|core\b)", it.group(1)):
            names |= {n.split(" as ")[-1].strip() for n in it.group(2).split(",")}
    return names


def old_path(path, old):
    """Where a file stood before: the folders of cycles have other names now."""
    if path in old:
        return path
    if "/+" in path:
        head, tail = path.split("/+", 1)
        near = [p for p in old if p.startswith(head + "/+") and p.endswith("/" + tail.split("/", 1)[1])]
        if len(near) == 1:
            return near[0]
    return None


def move_modules():
    """`Contracts.antt` becomes `Promises.antt`, and what names it follows."""
    for folder, path in MOVED:
        os.rename(f"{folder}/Contracts.antt", f"{folder}/Promises.antt")
        with open(f"{folder}/Lib.antt", encoding="utf-8") as it:
            text = it.read()
        with open(f"{folder}/Lib.antt", "w", encoding="utf-8") as it:
            it.write(text.replace("pub mod Contracts", "pub mod Promises"))
    for folder, _, files in os.walk("crates"):
        for name in files:
            if name.endswith((".rt", ".antt", ".edit")):
                with open(os.path.join(folder, name), encoding="utf-8") as it:
                    text = it.read()
                new = text
                for _, path in MOVED:
                    new = new.replace(f"{path}.Contracts", f"{path}.Promises")
                if new != text:
                    with open(os.path.join(folder, name), "w", encoding="utf-8") as it:
                        it.write(new)


def documents(table):
    """Names in backticks in the documents."""
    count = 0
    for path in git("ls-files", "*.md").split():
        with open(path, encoding="utf-8") as it:
            text = it.read()
        name = lambda it: table.get(it.group(), it.group()) if re.search(r"[A-Z-]", it.group()) else it.group()
        new = re.sub(r"`[^`\n]*`", lambda it: NAME.sub(name, it.group()), text)
        if new != text:
            count += 1
            with open(path, "w", encoding="utf-8") as it:
                it.write(new)
    return count


def main(argv):
    before, write = argv[1], "--check" not in argv
    old = texts_at(before)
    table = table_of(old)
    changed = {a: b for a, b in table.items() if a != b}
    texts = {}
    for folder, dirs, files in os.walk("crates"):
        dirs[:] = sorted(d for d in dirs if d != "out")
        for name in sorted(files):
            if name.endswith((".rt", ".antt")):
                path = os.path.join(folder, name)
                with open(path, encoding="utf-8") as it:
                    texts[path] = it.read()
    library = {path: imports(text) for path, text in texts.items()}
    doubts, count = [], 0
    for path, text in texts.items():
        source = old_path(path, old)
        new, unsure = turned(path, text, old.get(source), table, library)
        doubts += unsure
        if new != text:
            count += 1
            if write:
                with open(path, "w", encoding="utf-8") as it:
                    it.write(new)
    for doubt in doubts:
        print("look:", *doubt)
    if write:
        move_modules()
        count += documents(table)
    twice = collections.Counter(changed.values())
    print(f"{len(changed)} names have another spelling, {sum(1 for n in changed.values() if n.endswith('_lem'))} of them with _lem; {count} files changed; {len(doubts)} places to look at")
    print("two names with one spelling:", [n for n, k in twice.items() if k > 1])
    return 0


if __name__ == "__main__":
    raise SystemExit(main(sys.argv))
