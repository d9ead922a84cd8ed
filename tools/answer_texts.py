"""The texts of proof files of an older Rattle: their declarations, and the paths and names that today's goals have."""


import re

WORD = r"[^\s(){}\[\],;.«»]+"
PATH = re.compile(r"(?<![\w.'«-])(ROOT)((?:\.(?:«[^»]*»|[^\s(){}\[\],;.«»]+))+)")


class Left(Exception):
    """What is left to do by hand."""


def label(text):
    """A step's label, however its words are joined."""
    text = text.strip("«»").replace("-", "_").lower()
    return re.sub(r"_lem(?=\d*$)", "", text)


def blocks_of(text):
    """The declarations of a file, each with the comments in front of it."""
    found, now = [], []
    for line in text.split("\n"):
        head = line and not line[0].isspace() and line[0] not in ")]}" and not line.startswith("--")
        if head and now and not (any(l and not l.startswith("--") for l in now) is False):
            name = re.match(r"(?:(?:pub|abbrev|unfoldable)\s+)*(\S+)", line).group(1)
            same = next((l for l in now if l and not l.startswith("--")), "")
            of = re.match(r"(?:(?:pub|abbrev|unfoldable)\s+)*(\S+)", same).group(1)
            if name != of and name != "unfolding":
                found.append("\n".join(now).strip("\n"))
                now = []
        now.append(line)
    found.append("\n".join(now).strip("\n"))
    # comments at the end of one belong to the next
    out = []
    carry = ""
    for block in found:
        lines = block.split("\n")
        tail = []
        while lines and (not lines[-1].strip() or lines[-1].startswith("--")):
            tail.insert(0, lines.pop())
        body = (carry + "\n".join(lines)).strip("\n")
        carry = "\n".join(tail).strip("\n")
        carry = carry + "\n" if carry else ""
        if body:
            out.append(body)
    return out


def arguments(text):
    """The arguments of a call, as they stand: names or parts in parentheses."""
    found, at = [], 0
    while at < len(text):
        if text[at].isspace():
            at += 1
            continue
        start, depth = at, 0
        while at < len(text):
            c = text[at]
            if c in "([{":
                depth += 1
            elif c in ")]}":
                depth -= 1
                if depth < 0:
                    return found + [text[start:at]] * (at > start)
            elif c == "," and depth == 0:
                return found + [text[start:at]] * (at > start)
            elif c.isspace() and depth == 0:
                break
            at += 1
        found.append(text[start:at])
    return found


def plain(text):
    """A goal's name without what its spelling has changed."""
    text = re.sub(r"^(overflow|nonzero)-", "", text.replace("_", "-"))
    return re.sub(r"-lem(?=-|$)", "", text).replace("-", "")


def matched(given, needs):
    """Which goal each answer is for, in order: an answer with a name fits a goal of that name, one without fits any, and one that is proved without it now fits none."""
    n, m = len(given), len(needs)
    best = [[0] * (m + 1) for _ in range(n + 1)]
    for i in range(n - 1, -1, -1):
        for j in range(m, -1, -1):
            score = best[i + 1][j]
            if j < m:
                score = max(score, best[i][j + 1])
                worth = fits(given[i], needs[j])
                if worth:
                    score = max(score, worth + best[i + 1][j + 1])
            best[i][j] = score
    pairs, i, j = [], 0, 0
    while i < n and j < m:
        worth = fits(given[i], needs[j])
        if worth and best[i][j] == worth + best[i + 1][j + 1]:
            pairs.append((i, j))
            i, j = i + 1, j + 1
        elif best[i][j] == best[i][j + 1]:
            j += 1
        else:
            i += 1
    return pairs


def fits(given, need):
    name, text = given
    if name:
        return 100 if plain(name) == plain(need) else 0
    return 1 if text.endswith("search rules)") else 5


class Chain:
    """What is known at a goal: each step by its old label, and each part of an arm by its old path."""

    def __init__(self, names, place):
        self.steps, self.parts, self.typed = {}, {}, {}
        self.arguments = names["args"]
        places = names["places"]
        at = {}
        for i, it in enumerate(places):
            at.setdefault(it[0], i)
        i = at[place]
        for var, of in names["typed"][i]:
            self.typed.setdefault(label(of), var)
        seen = set()
        while i is not None and i not in seen:
            seen.add(i)
            name, before, (old, new), _, _ = places[i]
            if old:
                self.steps.setdefault(label(old), new)
            arm = names["arms"][i]
            if arm:
                for field, step, path in arm[2]:
                    self.parts.setdefault((label(step), tuple(path)), f"{arm[0]}.{field}")
            i = at.get(before)

    def turned(self, path):
        fields = [f for f in re.findall(r"\.(«[^»]*»|[^\s(){}\[\],;.«»]+)", path)]
        while fields and fields[0] == "before":
            fields.pop(0)
        if not fields:
            return ""
        fields[0] = {"pre": "requires"}.get(fields[0], fields[0])
        if len(fields) > 1:
            fields[1] = {"taken": "true", "left": "false", "kept": "auto", "came": "branch"}.get(fields[1], fields[1]) if fields[0] not in ("args", "requires") else fields[1]
        step = label(fields[0])
        for n in range(len(fields), 0, -1):
            part = self.parts.get((step, tuple(fields[1:n])))
            if part:
                return "".join("." + f for f in [part, *fields[n:]])
        if len(fields) > 1 and fields[1] == "given" and step in self.typed:
            return "".join("." + f for f in ["type_inv", self.typed[step], *fields[2:]])
        if step in self.steps:
            return "".join("." + f for f in [self.steps[step], *fields[1:]])
        return "".join("." + f for f in fields)


TESTED = re.compile(r"(?<![\w.-])not[-_](?:true|false)(?=\s)")


def untested(text):
    """`not-true x h` and `not-false x h` become h, where h is what a test came to."""
    at = 0
    while True:
        it = TESTED.search(text, at)
        if not it:
            return text
        rest = text[it.end() :]
        given = arguments(rest)[:2] if not rest.lstrip().startswith((",", ")")) else []
        if len(given) == 2 and not given[0].startswith("(") and (given[0] == "_" or given[0].endswith(".result")) and re.search(r"\.(true|false)$", given[1]):
            first = rest.index(given[0])
            second = rest.index(given[1], first + len(given[0]))
            text = text[: it.start()] + rest[second:]
            at = it.start()
        else:
            at = it.end()


DEFAULT = re.compile(r"(?<!opened )(?<![\w.])([\w«»]+(?:\.[^\s(){}\[\],;.]+)*\.in_default[^\s(){}\[\],;.]*-own\.keys\d+)")


def mended(text):
    """A test of `!x` says of x itself what it came to, and the fact of a default arm on an enum is sealed."""
    text = untested(text)
    new = DEFAULT.sub(r"(opened \1)", text)
    if new != text and "{opened}" not in new:
        new = "use borrow.Enum.Refused.{opened}\n" + new
    return new


def answer_body(body, root, chain):
    """A body with the paths of today. A name that stands for the facts at an earlier step stands for all of them."""
    roots = [root] if root else []
    for it in re.finditer(rf"\blet ({WORD}) = ({'|'.join(map(re.escape, roots)) or 'c'})((?:\.before)*) in", body):
        roots.append(it.group(1))
    if not roots:
        return body
    pattern = re.compile(PATH.pattern.replace("ROOT", "|".join(re.escape(r) for r in roots)))
    body = pattern.sub(lambda it: (root if it.group(1) in roots else it.group(1)) + chain.turned(it.group(2)), body)
    for old, new in chain.arguments:
        of, was = old.split(" ") if " " in old else ("", "")
        if of not in (".args", ".ranges"):
            continue
        names = [re.escape(root + of), *(re.escape(n) for n in re.findall(rf"\blet ({WORD}) = {re.escape(root + of)} in", body))]
        body = re.sub(rf"(?<![\w.'-])({'|'.join(names)}){re.escape(was)}(?![\w'-])", lambda it: it.group(1) + new.split(" ")[1], body)
    return body


def split(block):
    """A declaration's name, type, lines of `unfolding`, its parameters and its body."""
    comments = [l for l in block.split("\n") if l.startswith("--")]
    lines = "\n".join(l for l in block.split("\n") if not l.startswith("--")).strip("\n").split("\n")
    head = re.match(r"(?:(?:pub|abbrev|unfoldable)\s+)*(\S+) :\s*(.*)", lines[0])
    if not head:
        raise Left("no signature: " + lines[0][:80])
    name, kind, at = head.group(1), head.group(2), 1
    unfolds = []
    while at < len(lines) and not re.match(re.escape(name) + r"(\s|=)", lines[at]):
        if lines[at].startswith("unfolding"):
            unfolds.append(lines[at])
        elif unfolds:
            unfolds[-1] += "\n" + lines[at]
        else:
            kind += " " + lines[at].strip()
        at += 1
    if at == len(lines):
        raise Left("no clause: " + name)
    clause = "\n".join(lines[at:])
    if re.search(r"(?m)^" + re.escape(name) + r"(\s|=)", "\n".join(lines[at + 1 :])):
        raise Left("several clauses: " + name)
    left, body = clause.split("=", 1)
    return comments, name, kind.strip(), unfolds, left.split()[1:], body


def invariant(names, kind, name, unfolds, params, body):
    """An invariant or a measure as a function of the loop's variables."""
    word, loop = re.match(r"tie\.(invariant|decreases)-(\S+)", kind).groups()
    at = [i for i, l in enumerate(names["loops"]) if label(l[0][0]) == label(loop)]
    if len(at) != 1:
        raise Left(f"no loop {loop}")
    (_, new), variables = names["loops"][at[0]]
    changed = list(zip(variables, names["changed"][at[0]]))
    wanted = [f"l.initial.{var}" if changes else f"l.{var}" for var, changes in changed] + [f"l.{var}" for var, changes in changed if changes]
    if len(wanted) != len(params):
        raise Left(f"{name} has {len(params)} parameters, and the loop {len(wanted)} values")
    means = {p: w for p, w in zip(params, wanted) if p != "_"}
    token = re.compile(r"(?<![\w.'«-])(" + "|".join(re.escape(p) for p in sorted(means, key=len, reverse=True)) + r")(?![\w'₀-])") if means else None
    out = token.sub(lambda it: means[it.group(1)], body) if token else body
    goal = f"{word}-{names['stem']}{new}"
    return "\n".join([f"abbrev pub {goal} : goal.{goal}", *unfolds, f"{goal} l ={out}"])


def pairs_of(asked, declared, needs):
    """Which goal each answer is for, and what is said of an answer that is for none."""
    of = lambda g: re.search(r"\.Need-(\S+)", declared[g][2]).group(1) if g in declared else None
    if len(asked) == len(needs):
        return [(k, k) for k in range(len(asked))], []
    pairs = matched([(of(g), g) for g in asked], [n[0] for n in needs])
    taken = {k for k, _ in pairs}
    return pairs, [f"no goal for {of(g) or g}" for k, g in enumerate(asked) if k not in taken and not g.endswith("search rules)")]


def is_needless(body, unfolds):
    """Whether an answer says no more than what is tried without one."""
    return re.sub(r"\s+", " ", body).strip() == "search rules" and not unfolds


def named_in(own, invariants):
    """The declarations of a file's own that its invariants name."""
    stated = "\n".join(invariants)
    called = lambda b: re.escape(re.match(r"(?:--[^\n]*\n)*(?:(?:pub|abbrev|unfoldable) )*([^ ]+)", b).group(1))
    return [b for b in own if re.search(r"(?<![\w.-])" + called(b) + r"(?![\w-])", stated)]


def file_of(uses, goal, blocks):
    """A proof file: its imports, that of its goals, and its declarations."""
    return "\n".join([*uses, f"use {goal} as goal"]) + "\n\n" + "\n\n".join(blocks) + "\n"
