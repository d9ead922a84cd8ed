#!/usr/bin/env python3
"""Are errors in the reading of texts found? Changes samples/reading.py or grammar.py in one place, and asks the corners, the stored list and rustc.

A line for each change says who finds it; the script fails if nobody does. It takes some minutes."""
import shutil
import subprocess
import sys
import tempfile
from pathlib import Path

HERE = Path(__file__).resolve().parent
# What is changed: a name, the file, the text, and what it becomes.
CHANGES = (
    ('a crossed reference leaves the mode', 'reading.py', 'mode = BY_REF if is_set(self.m.types[type_][4]) or mode == BY_REF else BY_REF_MUT', 'pass'),
    ('`&mut` behind `&` makes ref mut', 'reading.py', 'BY_REF if is_set(self.m.types[type_][4]) or mode == BY_REF else', 'BY_REF if is_set(self.m.types[type_][4]) else'),
    ('`&` keeps the mode', 'reading.py', 'self.part(sub, self.target(type_, mutable), VALUE)', 'self.part(sub, self.target(type_, mutable), BY_REF)'),
    ('`&` crosses any reference', 'reading.py', 'if kind == REFERENCE and is_set(flag) != mutable else', 'if kind == REFERENCE else'),
    ('`mut x` keeps the default mode', 'reading.py', '(VALUE, MUTABLE)', '(mode, MUTABLE)'),
    ('`ref x` is by value', 'reading.py', '(BY_REF, OTHER), (VALUE', '(VALUE, OTHER), (VALUE'),
    ('`ref mut x` is by ref', 'reading.py', '(BY_REF_MUT, OTHER))', '(BY_REF, OTHER))'),
    ('the type of a binding by ref is its target', 'reading.py', 'if mode != VALUE:', 'if False:'),
    ('the pattern behind `@` starts at value', 'reading.py', 'self.pattern(sub, type_, mode)', 'self.pattern(sub, type_, VALUE)'),
    ("a literal's references stay", 'reading.py', '        type_, derefs, _ = self.crossed(type_, mode)\n        return self.add(LIT', '        derefs = 0\n        return self.add(LIT'),
    ('fields behind a rest count from the front', 'reading.py', 'number if number < ellipsis else len(fields) - len(items) + number', 'number if number < ellipsis else number - 1'),
    ("a rest's array has all elements", 'reading.py', 'element, length - others,', 'element, length,'),
    ('a rest of a slice is an array', 'reading.py', 'if kind == ARRAY else type_', 'if length is not None else type_'),
    ('an alternative starts at value', 'reading.py', 'numbers = [self.pattern(a, type_, mode)', 'numbers = [self.pattern(a, type_, VALUE)'),
    ('an argument past the fields is dropped', 'reading.py', 'fields[field] if 0 <= field < len(fields) else None', 'fields[field] if 0 <= field < len(fields) else 0'),
    ('any variant is a part of any type', 'reading.py', 'if kind != ADT or not first <= v < first + count:', 'if False:'),
    ('a minus is left out', 'reading.py', "self.m.add_integer(-value, INT) if first[0] == 'minus' else", 'self.m.add_integer(value, INT) if False else'),
    ('`..` includes its end', 'reading.py', 'self.ends(t[1], t[3], int(not t[2]), type_, mode)', 'self.ends(t[1], t[3], 0, type_, mode)'),
    ('a name is bound anew each time', 'reading.py', 'if name not in self.bound:', 'if True:'),
    ('a constant may be bound', 'reading.py', 'return self.fail(self.token_at(own)) if flags or sub else self.named', 'return self.named'),
    ("a record's fields by their places", 'reading.py', 'return number, self.pattern(t[2], fields[number], mode)', 'return number, self.pattern(t[2], fields[0], mode)'),
    ('suffix items are none', 'reading.py', 'before, len(numbers) - before, rest)', 'len(numbers), 0, rest)'),
    ('the last 20 is told', 'reading.py', '20, min(reader.failed), 0', '20, max(reader.failed), 0'),
    ('limits before 20', 'reading.py', '    if reader.failed:\n', '    if past_a_limit(reader.m):\n        return 1, ABSENT, 0\n    if reader.failed:\n'),
    ('names before the sheet', 'reading.py', '    if not is_sheet(sheet):\n', "    if not names:\n        return 2, ABSENT, 0\n    if not is_sheet(sheet):\n"),
    ('a seventeenth deref', 'reading.py', 'LONGEST_TEXT, MOST_DEREFS = 16384, 16', 'LONGEST_TEXT, MOST_DEREFS = 16384, 17'),
    ('a pattern too many', 'reading.py', "('patterns', 512)", "('patterns', 513)"),
    ('`&1..=2` is a range behind `&`', 'grammar.py', "        if token[0] in LITERALS:\n            return self.literal()\n", "        if token[0] in LITERALS:\n            return self.no_top_alt(None, 0)\n"),
    ('`&mut x` has a `mut x`', 'grammar.py', "            mutable = bool(self.maybe('mut'))\n            return ('ref', token[0] == 'and-and'", "            mutable = False\n            return ('ref', token[0] == 'and-and'"),
    ('`x @ a | b` binds both', 'grammar.py', "self.no_top_alt(where, depth + 1), at)", "self.pattern(None), at)"),
    ('a leading `|` in an item is refused', 'grammar.py', "        lead = self.maybe('or')\n", "        lead = None if where else self.maybe('or')\n"),
    ('`P { .., }` is taken', 'grammar.py', "            if dots:\n                break\n", "            if dots:\n                self.maybe('comma')\n                break\n"),
    ('`(p,)` is a group', 'grammar.py', 'len(found) == 1 and not comma and', 'len(found) == 1 and'),
)
JUDGES = (('the corners', ('samples/reading.py', '--corners')), ('the stored list', ('samples/reading_list.py', '--check')), ('rustc', ('harness/texts.py', 'few')))


def finders(file, old, new):
    """who finds the change"""
    with tempfile.TemporaryDirectory() as room:
        for folder in ('samples', 'scripts'):
            shutil.copytree(HERE.parent / folder, Path(room, folder))
        shutil.copytree(HERE / 'texts', Path(room, 'harness', 'texts'))
        for name in ('texts.py', 'typed_texts.py'):
            shutil.copy(HERE / name, Path(room, 'harness'))
        path = Path(room, 'samples', file)
        assert path.read_text().count(old) == 1, old
        path.write_text(path.read_text().replace(old, new))
        return [judge for judge, call in JUDGES if subprocess.run([sys.executable, *call], cwd=room, capture_output=True).returncode]


def main():
    missed = 0
    for name, *change in CHANGES:
        found = finders(*change)
        missed += not found
        print(f"{name}: {', '.join(found) or 'not found'}", flush=True)
    print(f'{len(CHANGES)} changes, {missed} not found')
    return 1 if missed else 0


if __name__ == '__main__':
    sys.exit(main())
