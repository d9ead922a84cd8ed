#!/usr/bin/env python3
"""Does the comparison find errors? Changes samples/lowering.py, builder.py or params.py in one place, and compares.

`mutants.py [FILE..]` prints a line for each change, with how many images or calls differ; it fails if a
change is not found. FILEs, or names of changes, choose some. The harness must be built.
"""

import shutil
import subprocess
import sys
import tempfile
from pathlib import Path

HERE = Path(__file__).resolve().parent
COMPARE = HERE / "target/release/compare"
# So many scripts, from this seed.
SCRIPT_COUNT, SCRIPT_SEED = 400, 1851
# These changes are seen by pattern_match_assignment alone: in Check the pattern was refused.
ASSIGNED = {"an unresolved path is refused in Check alone",
            "a literal of kind 8 or 10 is refused in Check alone",
            "suffix items run backwards in Assign alone"}

# These changes of params.py are seen in a setting alone: the judge's words, and the options.
SETTINGS = {"a local more for parameters": ("locals 511", ("--locals", "511")),
            "a local more for bindings": ("locals 447", ("--locals", "447")),
            "no scope is asked for before the limit of locals": ("locals 512", ("--locals", "512")),
            "locals leave first first": ("drop", ("--after", "drop")),
            "a popped scope stays": ("pop", ("--after", "pop"))}

# What is changed: a name, the file, the text, and what it becomes.
CHANGES = (
    ('Bind is skipped', 'lowering.py',
     '        return self.inner(current, other, place, p, BIND_MODE)',
     '        return current, other'),
    ('alternatives behind one that cannot fail are lowered', 'lowering.py',
     '            if item_else is None:\n'
     '                return then, other\n'
     '            current = item_else',
     '            if item_else is None:\n'
     '                item_else = self.new_block(p)\n'
     '            current = item_else'),
    ("an Or's last block in Bind leads to then", 'lowering.py',
     '            self.end(current, "unreachable")',
     '            self.end(current, "goto", then)'),
    ("a record's field one past the fields is taken", 'lowering.py',
     '            if any(field >= fields for field in words[::2]):',
     '            if any(field > fields for field in words[::2]):'),
    ("arrays are no slice patterns' type", 'lowering.py',
     '        if kind not in (ARRAY, SLICE_TYPE):',
     '        if kind not in (SLICE_TYPE,):'),
    ("an array's length is tested", 'lowering.py',
     '        if mode == CHECK and kind == SLICE_TYPE:',
     '        if mode == CHECK:'),
    ('suffix items run backwards', 'lowering.py', '("e", c - 1 - number)', '("e", number)'),
    ('suffix items run backwards in Check alone', 'lowering.py',
     '("e", c - 1 - number)', '("e", number if mode == CHECK else c - 1 - number)'),
    ('suffix items run backwards in Bind alone', 'lowering.py',
     '("e", c - 1 - number)', '("e", number if mode == BIND_MODE else c - 1 - number)'),
    ('suffix items run backwards in Assign alone', 'lowering.py',
     '("e", c - 1 - number)', '("e", number if mode == ASSIGN else c - 1 - number)'),
    ('suffix items run backwards on arrays alone', 'lowering.py',
     '("e", c - 1 - number)', '("e", number if kind == ARRAY else c - 1 - number)'),
    ('a suffix item is one further from the end', 'lowering.py',
     '("e", c - 1 - number)', '("e", c - number)'),
    ('a suffix item by all items', 'lowering.py',
     '("e", c - 1 - number)', '("e", b + c - 1 - number)'),
    ('the last suffix item is visited first', 'lowering.py',
     'in enumerate(self.m.list[a + b:a + b + c]):', 'in reversed(list(enumerate(self.m.list[a + b:a + b + c]))):'),
    ('a closed range leaves out its end', 'lowering.py',
     'end = "gt" if c == HALF_OPEN else "ge"', 'end = "gt"'),
    ('a half-open range takes its end', 'lowering.py',
     'end = "gt" if c == HALF_OPEN else "ge"', 'end = "ge"'),
    ('the end of a half-open range is tested by le', 'lowering.py',
     'end = "gt" if c == HALF_OPEN else "ge"', 'end = "le" if c == HALF_OPEN else "ge"'),
    ('a range of any flag but 0 is half-open', 'lowering.py',
     'end = "gt" if c == HALF_OPEN else "ge"', 'end = "gt" if c else "ge"'),
    ('the start of a half-open range is tested by gt', 'lowering.py',
     'for start, word in ((a, "le"), (b, end))', 'for start, word in ((a, "gt" if c == HALF_OPEN else "le"), (b, end))'),
    ('a rest leaves out what the other side has', 'lowering.py',
     '            at = self.project(place, p, ("s", b, c))',
     '            at = self.project(place, p, ("s", c, b))'),
    ('an unresolved path is refused in Check alone', 'lowering.py',
     '        if a == UNRESOLVED:\n'
     '            raise Refused(13, p)\n',
     '        if a == UNRESOLVED and mode == CHECK:\n'
     '            raise Refused(13, p)\n'),
    ("a variant's else is asked for before its block", 'lowering.py',
     '        following = self.new_block(p)\n'
     '        other = self.new_unless(other, p)\n'
     '        self.end(current, "switch", local, value',
     '        other = self.new_unless(other, p)\n'
     '        following = self.new_block(p)\n'
     '        self.end(current, "switch", local, value'),
    ('a literal of kind 8 or 10 is refused in Check alone', 'lowering.py',
     '        if self.m.list[start] in (CONSTANT, OTHER):\n'
     '            raise Refused(6, p)\n'
     '        if mode != CHECK:\n'
     '            return current, other',
     '        if mode != CHECK:\n'
     '            return current, other\n'
     '        if self.m.list[start] in (CONSTANT, OTHER):\n'
     '            raise Refused(6, p)'),
    ("a Downcast has the variant's number in its enum", 'lowering.py',
     '            place = self.project(place, p, ("v", v))',
     '            place = self.project(place, p, ("v", v - a))'),
    ('unions are lowered', 'lowering.py',
     '        if c == UNION:\n'
     '            raise Refused(4, p, 6)\n'
     '        _, fields, offset',
     '        _, fields, offset'),
    ('an ellipsis behind the arguments is refused', 'lowering.py',
     '    if split > len(args):',
     '    if split >= len(args) and split:'),
    ('arguments behind an ellipsis begin at the ellipsis', 'lowering.py',
     '    back = zip(reversed(range(fields)), reversed(args[split:]))',
     '    back = zip(range(split, fields), args[split:])'),
    ('arguments behind an ellipsis are visited in order', 'lowering.py',
     '    back = zip(reversed(range(fields)), reversed(args[split:]))',
     '    back = reversed(list(zip(reversed(range(fields)), reversed(args[split:]))))'),
    ("the variant behind an enum's last is the enum's", 'lowering.py',
     '        if not a <= v < a + b:\n'
     '            raise Refused(4, p, 5)',
     '        if not a <= v <= a + b:\n'
     '            raise Refused(4, p, 5)'),
    ("a CString's closing zero is not counted", 'builder.py',
     '            length = count + (kind == C_STRING)',
     '            length = count'),
    ('a block more', 'builder.py',
     '        if len(self.body.terminators) == MOST_BLOCKS:',
     '        if len(self.body.terminators) == MOST_BLOCKS + 1:'),
    # Every test and every binding makes two statements or four: one more than the limit is two.
    ('two statements more', 'builder.py',
     '        if len(self.body.created) == MOST_STATEMENTS:',
     '        if len(self.body.created) == MOST_STATEMENTS + 2:'),
    ('a statement less', 'builder.py',
     '        if len(self.body.created) == MOST_STATEMENTS:',
     '        if len(self.body.created) == MOST_STATEMENTS - 1:'),
    ('a local more', 'builder.py',
     '        if len(self.body.locals) == MOST_LOCALS:',
     '        if len(self.body.locals) == MOST_LOCALS + 1:'),
    ('a local less', 'builder.py',
     '        if len(self.body.locals) == MOST_LOCALS:',
     '        if len(self.body.locals) == MOST_LOCALS - 1:'),
    ("a place's element less", 'builder.py',
     '        if len(before) + len(elements) > MOST_ELEMENTS:',
     '        if len(before) + len(elements) >= MOST_ELEMENTS:'),
    ('a temporary of str is refused', 'builder.py',
     '        if isinstance(type_, int) and self.m.types[type_][0] == SLICE_TYPE:',
     '        if isinstance(type_, int) and self.m.types[type_][0] in (SLICE_TYPE, 4):'),
    ('all variant tests share one discriminant local', 'builder.py',
     'return self.temp("i128", block, p)',
     'return self.body.locals.index("i128") if "i128" in self.body.locals else self.temp("i128", block, p)'),
    ("a variant test's new local is live, and the first one is used", 'builder.py',
     'return self.temp("i128", block, p)',
     'self.temp("i128", block, p)\n'
     '        return self.body.locals.index("i128")'),
    ("a variant test's switch looks at the first one's local", 'lowering.py',
     'self.branch(current, other, local, value, p)',
     'self.branch(current, other, self.body.locals.index("i128"), value, p)'),
    ("a discriminant's local is live in the next block", 'lowering.py',
     '                current, other = self.branch(current, other, local, value, p)\n',
     '                mark = self.body.statements[current].pop(-2)\n'
     '                current, other = self.branch(current, other, local, value, p)\n'
     '                self.body.statements[current].append(mark)\n'),
    ("a discriminant's local is live behind its set", 'lowering.py',
     '                self.set(current, local, ("discr", place), p)\n',
     '                mark = self.body.statements[current].pop()\n'
     '                self.set(current, local, ("discr", place), p)\n'
     '                self.body.statements[current].append(mark)\n'),
    ('statements are counted as with one discriminant local', 'builder.py',
     '        if len(self.body.created) == MOST_STATEMENTS:',
     '        if len(self.body.created) - max(0, self.body.locals.count("i128") - 1) == MOST_STATEMENTS:'),
    ('locals are counted as with one discriminant local', 'builder.py',
     '        if len(self.body.locals) == MOST_LOCALS:',
     '        if len(self.body.locals) - max(0, self.body.locals.count("i128") - 1) == MOST_LOCALS:'),
    ('an integer literal on another type is taken', 'builder.py',
     '            if self.m.types[type_][0] != INTEGER:\n'
     '                raise Refused(6, p)\n'
     '            count = self.m.types[type_][1]',
     '            count = self.m.types[type_][1] if self.m.types[type_][0] == INTEGER else 16'),
    ('the highest-numbered place type is taken', 'lowering.py',
     '    for first in range(len(m.types)):',
     '    for first in reversed(range(len(m.types))):'),
    ('a rest that is a Bind without a subpattern binds nothing', 'lowering.py',
     '        if d != ABSENT and mode != CHECK and self.m.patterns[d][0] == BIND:',
     '        if d != ABSENT and mode == BIND_MODE and self.m.patterns[d][0] == BIND and self.m.patterns[d][4] != ABSENT:'),
)


# Where a live mark records its local: a file and its text.
UNLESS_HELD = 'builder.py', '        if not self.body.holds(local):\n'
HOLDS = 'builder.py', 'any(local in scope for scope in self.scopes)'

# Changes that scripts of calls on patterns alone show, with several scopes and full tables.
CALLS = (
    ("only the last scope is looked at", *HOLDS, 'local in self.scopes[-1]'),
    ("only the first scope is looked at", *HOLDS, 'local in self.scopes[0]'),
    ("the last scope is not looked at", *HOLDS, 'any(local in scope for scope in self.scopes[:-1])'),
    ("a full table of entries refuses a held local", *UNLESS_HELD,
     '        if self.body.entries() == MOST_ENTRIES:\n'
     '            raise Refused(11, p)\n'
     '        if not self.body.holds(local):\n'),
)

# Changes of the judge of parameters, and those that its lines alone show.
PARAMETERS = (
    ("a discriminant's local is missing from its scope", 'builder.py',
     'return self.temp("i128", block, p)',
     'local = self.temp("i128", block, p)\n'
     '        self.body.scopes[-1].pop()\n'
     '        return local'),
    ("a discriminant's local enters its scope first", 'builder.py',
     'return self.temp("i128", block, p)',
     'local = self.temp("i128", block, p)\n'
     '        self.body.scopes[-1].insert(0, self.body.scopes[-1].pop())\n'
     '        return local'),
    ("a held local is recorded again", *UNLESS_HELD, '        if True:\n'),
    ("no binding's local is recorded", *UNLESS_HELD,
     '        if not self.body.holds(local) and local not in self.body.binding_locals:\n'),
    ("the last of two entries of a local stays", *UNLESS_HELD,
     '        if self.body.holds(local):\n'
     '            self.body.scopes[-1].remove(local)\n'
     '        if True:\n'),
    ("the last entry alone is looked at", *HOLDS, 'self.scopes[-1][-1:] == [local]'),
    ("no live mark of a held local", 'builder.py',
     '            self.body.scopes[-1].append(local)\n        self.push(',
     '            self.body.scopes[-1].append(local)\n            self.push('),
    ("a temporary is not recorded", 'builder.py',
     '        self.live(local, block, p)\n        return local\n',
     '        self.live(local, block, p)\n        self.body.scopes[-1].pop()\n        return local\n'),
    ("a refutable parameter's else is left open", 'params.py',
     '        if other is not None:\n'
     '            self.end(other, "unreachable")\n',
     ''),
    ("`ref x` is the parameter's own local", 'params.py',
     'annotation in (UNANNOTATED, MUTABLE)', 'annotation in (UNANNOTATED, MUTABLE, ANNOTATED)'),
    ("`mut x` has a local of its own", 'params.py',
     'annotation in (UNANNOTATED, MUTABLE)', 'annotation == UNANNOTATED'),
    ("`x @ ..` is the parameter's own local", 'params.py',
     'kind == BIND and item == ABSENT and', 'kind == BIND and'),
    ("a parameter's local is missing from its scope", 'params.py',
     '        self.body.scopes[-1].append(local)\n', ''),
    ("a binding that is not picked has a local", 'params.py',
     'if picked == 1 and self.body', 'if self.body'),
    ("the first of two parameters of one binding wins", 'params.py',
     '            if binding is not None:',
     '            if binding is not None and self.body.binding_locals[binding] is None:'),
    ("bindings' locals are made last first", 'params.py',
     '        for binding, (type_, picked) in enumerate(self.m.bindings):',
     '        for binding, (type_, picked) in reversed(list(enumerate(self.m.bindings))):'),
    ("self bound again is taken", 'params.py',
     'not binds_again(m, receiver, words[::2])', 'True'),
    ("only the first parameter is looked at for self", 'params.py',
     'not binds_again(m, receiver, words[::2])', 'not binds_again(m, receiver, words[:1])'),
    ("only the last parameter is looked at for self", 'params.py',
     'not binds_again(m, receiver, words[::2])', 'not binds_again(m, receiver, words[::2][-1:])'),
    ("all patterns are looked at for self", 'params.py',
     'plain_binding(m, p) == receiver[0] for p in patterns', 'plain_binding(m, p) == receiver[0] for p in range(len(m.patterns))'),
    ("`ref x` binds self again", 'params.py',
     'any(plain_binding(m, p) == receiver[0]', 'any(m.patterns[p][0] == BIND and m.patterns[p][4] == ABSENT and m.patterns[p][3] == receiver[0]'),
    ("`x @ ..` binds self again", 'params.py',
     'any(plain_binding(m, p) == receiver[0]', 'any(m.patterns[p][0] == BIND and m.patterns[p][6] < ANNOTATED and m.patterns[p][3] == receiver[0]'),
    ("self bound again by reference is taken", 'params.py',
     'any(plain_binding(m, p) == receiver[0]', 'any(plain_binding(m, p) == receiver[0] and m.patterns[p][5] == VALUE'),
    ("no self, and 0 is looked for", 'params.py',
     'return receiver is not None and any(plain_binding(m, p) == receiver[0]', 'return any(plain_binding(m, p) == (receiver or (0, 0))[0]'),
    ("a Bind is lowered though its binding is the parameter's local", 'params.py',
     'if kind == BIND and self.binding_local(binding, p) == local:',
     'if kind == BIND and self.binding_local(binding, p) is None:'),
    ("a parameter's binding is looked up where it has no subpattern alone", 'params.py',
     'if kind == BIND and self.binding_local(binding, p) == local:',
     'if kind == BIND and self.m.patterns[p][4] == ABSENT and self.binding_local(binding, p) == local:'),
    ("Bind is skipped for parameters", 'params.py',
     '            current, other = self.inner(current, other, place, p, BIND_MODE)\n', ''),
    ("9 is reported without the parameter", 'params.py',
     'self.binding_local(binding, p) == local', 'self.binding_local(binding, ABSENT) == local'),
    ("64 parameters are too many", 'params.py', '// 2 <= MOST_PARAMS', '// 2 < MOST_PARAMS'),
    ("65 parameters are taken", 'params.py', '// 2 <= MOST_PARAMS', '// 2 <= MOST_PARAMS + 1'),
    ("an odd list is taken", 'params.py', 'len(words) % 2 == 0 and len(words)', 'len(words)'),
    ("self that names nothing is refused by 1", 'params.py',
     '        return None, (2, ABSENT, 0)', '        return None, (1, ABSENT, 0)'),
    ("a local more for parameters", 'params.py',
     '        if len(self.body.locals) == MOST_LOCALS:',
     '        if len(self.body.locals) == MOST_LOCALS + 1:'),
    ("a local more for bindings", 'params.py',
     'self.body.binding_locals[binding] = self.new_local(type_)',
     'self.body.locals.append(type_)\n'
     '                self.body.binding_locals[binding] = len(self.body.locals) - 1'),
    ("no scope is asked for before the limit of locals", 'params.py',
     '        local = self.new_local(type_)\n'
     '        if not self.body.scopes:\n'
     '            raise Refused(14)\n',
     '        if not self.body.scopes:\n'
     '            raise Refused(14)\n'
     '        local = self.new_local(type_)\n'),
    ("no scope is needed", 'params.py',
     '        if not self.body.scopes:\n'
     '            raise Refused(14)\n'
     '        if self.body.entries()',
     '        if not self.body.scopes:\n'
     '            self.body.scopes.append([])\n'
     '        if self.body.entries()'),
    ("locals leave first first", 'params.py', 'in reversed(entries):', 'in entries:'),
    ("a popped scope stays", 'params.py', 'self.body.scopes.pop())', 'self.body.scopes[-1])'),
)


def changed_copy(folder, file, old, new):
    """A copy of the samples and of the judge in which one text is another."""
    shutil.copytree(HERE.parent / "samples", folder / "samples")
    (folder / "harness").mkdir()
    for script in ("judge.py", "chance_calls.py"):
        shutil.copy(HERE / script, folder / "harness")
    path = folder / "samples" / file
    text = path.read_text(encoding="utf-8")
    assert old in text, old
    path.write_text(text.replace(old, new, 1), encoding="utf-8")


def of_scripts(folder):
    """The same of scripts of calls on patterns, whose lines the changed copy makes."""
    given, printed = folder / "given", folder / "printed"
    subprocess.run([sys.executable, folder / "harness/chance_calls.py", str(SCRIPT_SEED), "0", str(SCRIPT_COUNT), given, printed], check=True)
    done = subprocess.run([COMPARE, "calls", given, printed], capture_output=True, text=True, check=False)
    return done.stdout.rstrip().rsplit("\n", 1)[-1], done.returncode == 1


def found(name, file, old, new):
    """What the comparison says last of the changed copy, and whether it differs."""
    with tempfile.TemporaryDirectory() as folder:
        changed_copy(Path(folder), file, old, new)
        if (name, file, old, new) in CALLS:
            return of_scripts(Path(folder))
        judge, call, options = f"python3 {folder}/harness/judge.py", "run", []
        if name in ASSIGNED:
            judge, options = f"{judge} assigns", ["--assigns"]
        if (name, file, old, new) in PARAMETERS:
            words, options = SETTINGS.get(name, ("visits", ("--visits",)))
            judge, call = f"python3 {folder}/samples/params.py - {words}", "parameters"
        done = subprocess.run([COMPARE, call, "--counts", "--other", judge, "--count", "300", *options],
                              capture_output=True, text=True, check=False)
    return done.stdout.rstrip().rsplit("\n", 1)[-1], done.returncode == 1


def main():
    """Tries all changes."""
    missed = 0
    changes = [change for change in CHANGES + CALLS + PARAMETERS if {*change[:2]} & {*sys.argv[1:]} or not sys.argv[1:]]
    for change in changes:
        told, differs = found(*change)
        missed += not differs
        print(f"{change[0]}: {told}", flush=True)
    print(f"{len(changes)} changes, {missed} not found")
    return 1 if missed or not changes else 0


if __name__ == "__main__":
    sys.exit(main())
