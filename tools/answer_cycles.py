"""The proof of a cycle of calls of an older Rattle, which hands measures, invariants and answers of all its functions to one line."""

import os
import re

from answer_texts import Chain, Left, answer_body, arguments, blocks_of, file_of, invariant, is_needless, mended, named_in, pairs_of, split

OF_RATTLE = re.compile(r"\.(Tie|Lts\S*|Reads|Kinds|Statement)( as \S+|\.\{[^}]*\})?$|\.\{statement\}$|PlainCycle|borrow\.Fn\.Kinds|\.Proof\.")


class Cycle:
    """What the files of a cycle's proof declare."""

    def __init__(self, names):
        self.names, self.uses, self.declared, self.own, self.final = names, [], {}, [], None
        self.loops, self.invariants, self.lts = {}, [], {}

    def read(self, file, module):
        with open(file, encoding="utf-8") as it:
            lines = [l for l in it.read().split("\n") if not re.match(r"(?:pub )?mod \S+$", l)]
        here = {}
        for use in (l for l in lines if l.startswith("use ")):
            it = re.match(r"use Rattle\.(\S+?)\.proofs\.(\S+)\.(Lts-\S+) as (\S+)$", use)
            if it:
                here[it.group(4)] = f"Rattle-{it.group(1)}-proofs.{it.group(2)}.{it.group(3)}"
            if use not in self.uses:
                self.uses.append(use)
        self.lts.update({a: k for a, k in here.items() if not module or a not in self.lts})
        for block in blocks_of("\n".join(l for l in lines if not l.startswith("use "))):
            self.declare(block, module, here)

    def declare(self, block, module, here):
        code = "\n".join(l for l in block.split("\n") if not l.startswith("--")).strip("\n")
        if not code.strip():
            return
        head = re.match(r"(?:(?:pub|abbrev|unfoldable)\s+)*(\S+) :\s*(.*)", code)
        if not head:
            raise Left("no signature: " + code[:60])
        name = head.group(1)
        clause = re.search(r"(?m)^" + re.escape(name) + r"(?=\s)", code)
        kind = " ".join(code[head.start(2) : clause.start() if clause and clause.start() > head.start(2) else len(code)].split())
        loop = re.match(r"(\S+)\.(invariant|decreases)-(loop\S*)", kind)
        if "→ statement M" in kind:
            self.final = code
        elif kind.startswith("Measures "):
            self.measure(name[len("μ-") :].replace("-", "_"), block, here)
        elif loop:
            self.loops[module + name] = (f"tie.{loop.group(2)}-{loop.group(3)}", split(block))
            self.loops.setdefault(name, self.loops[module + name])
        elif re.search(r"\S+\.Need-", kind):
            self.declared[module + name] = split(block)
            self.declared.setdefault(name, self.declared[module + name])
        elif not (kind.startswith("ℕ → In ") or kind.endswith(".Claims")):
            self.own.append(block)

    def measure(self, function, block, here):
        """A measure over the arguments by position as one over them by name."""
        params, body = split(block)[4:]
        tail, last = ".Lts-" + function.replace("::", "-"), function.split("::")[-1]
        key = next((k for k in [*here.values(), *self.names] if k.endswith(tail)), None)
        known = (it.get("params", {}) for it in self.names.values() if isinstance(it, dict))
        every = [v for each in known for f, v in each.items() if f.split("::")[-1] == last]
        if key not in self.names or not every:
            raise Left(f"no names for the measure of {function}: {key}")
        token = re.compile(rf"(?<![\w.]){params[-1]}((?:\.1)*)\.0(?![\w'-])")
        out = token.sub(lambda it: "l." + every[0][it.group(1).count(".1")], body)
        self.invariants.append(f"abbrev pub decreases-{function} : goal.decreases-{function}\ndecreases-{function} l ={out}")

    def answers_of(self, key, given):
        """The answers of one of the functions, whose invariants are noted; and what is to be looked at."""
        here = self.names.get(key)
        if not here:
            raise Left("names.json has no " + key)
        asked = []
        for each in (re.sub(r"^\((\S+) t\)$", r"\1", g) for g in given):
            if each in self.loops:
                kind, (_, name, _, unfolds, params, body) = self.loops[each]
                self.invariants.append(invariant(here, kind, name, unfolds, params, body))
            else:
                asked.append(each)
        pairs, doubts = pairs_of(asked, self.declared, here["needs"])
        answers = []
        for k, n in pairs:
            told, more = self.answer(asked[k], here["stem"] + here["needs"][n][1], Chain(here, here["asked_at"][n][0]))
            answers += [told] if told else []
            doubts += more
        return answers, doubts

    def answer(self, given, new, chain):
        if given in self.declared:
            notes, _, _, unfolds, (time, root, *more), body = self.declared[given]
        else:
            it = re.match(r"\(λ ([^.]*)\.(.*)\)$", given, re.S)
            if not it:
                return None, [f"{new}: {given[:40]}"]
            notes, unfolds, time, body = [], [], "t", " " + it.group(2).strip()
            root, *more = it.group(1).split()
        if is_needless(body, unfolds):
            return None, []
        out = answer_body(body, root, chain)
        for part, to in (("0", "decreases"), ("1", "requires")):
            out = re.sub(rf"(?<![\w.]){re.escape(root)}\.requires\.{part}(?![\w-])", f"{root}.{to}", out)
        left = " ".join([new, time, root, *(p for p in more if p != "κs")])
        return "\n".join([*notes, f"pub {new} : goal.{new}", *unfolds, f"{left} ={out}"]), []


def turn_cycle(names, base, folder, path):
    """The proof of a cycle of calls: its measures and invariants, and the answers of all its functions."""
    parts = os.path.join(folder, "Proof")
    files = [path] + [os.path.join(parts, f) for f in sorted(os.listdir(parts))] if os.path.isdir(parts) else [path]
    cycle = Cycle(names)
    for file in files:
        cycle.read(file, "" if file == path else os.path.basename(file)[: -len("antt")])
    if not cycle.final:
        raise Left("no last line")
    answers, doubts = [], []
    for it in re.finditer(r"(\S+)\.spec\s", cycle.final):
        told, more = cycle.answers_of(cycle.lts[it.group(1).lstrip("(")], arguments(cycle.final[it.end() :])[3:])
        answers += told
        doubts += more
    keep = [u for u in cycle.uses if not OF_RATTLE.search(u)]
    with open(os.path.join(folder, "Invariants.antt"), "w", encoding="utf-8") as it:
        it.write(file_of(keep, f"{base}.Given", [*named_in(cycle.own, cycle.invariants), *cycle.invariants]))
    if answers:
        with open(os.path.join(folder, "Answers.antt"), "w", encoding="utf-8") as it:
            it.write(mended(file_of(keep, f"{base}.Goals", [*cycle.own, *answers])))
    for file in files:
        os.remove(file)
    if os.path.isdir(parts):
        os.rmdir(parts)
    return doubts
