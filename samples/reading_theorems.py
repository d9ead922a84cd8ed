#!/usr/bin/env python3
"""reading_theorems.py: writes crates/reading_samples/proofs, in which the definitions of reading a text are computed.
reading_theorems.py --check: writes nothing, and fails if a file is not what it would write.

A row has a text, a sheet, a name table, the expected type, and what the judge of reading.py answers: a refusal by its
number and position; for the sample classes what is added to the sheet, row by row; for the other sheets the image by
its length and a sum over its bytes."""
import re
import sys
from pathlib import Path

sys.dont_write_bytecode = True

from images import decode
from reading import read
from reading_corners import HERE, class_tables
from reading_list import calls

CRATES = HERE.parent / 'crates'
ROWS = CRATES / 'reading_samples' / 'proofs'
# The crates whose definitions are computed, and their files.
OPENED = {
    'image': ('Bytes', 'Rows', 'Lists', 'Operands', 'Rules', 'Subpatterns', 'Patterns'),
    'text_chars': ('Bytes', 'Scalars', 'Gaps'),
    'pattern_words': ('Words',),
    'pattern_tokens': ('Literals', 'Tokens'),
    'decimal_values': ('Values',),
    'pattern_grammar': ('Lexemes', 'Trees', 'Admitted', 'Machine', 'Parsed'),
    'pattern_syntax': ('Written', 'Reduced'),
    'name_tables': ('Names',),
    'type_sheets': ('Sheets',),
    'pattern_typing': ('Crossing', 'Contexts', 'Making', 'Resolving', 'Failing'),
    'pattern_images': ('Drafts', 'Emitting', 'Imaging'),
    'pattern_reading': ('Reads',),
}
# Printers of trees, and what two files call alike: these are not computed, or are opened by their whole name.
LEFT_OUT = re.compile(r'\w*_t$')
CLASSES = ('text', 'laser', 'mixed')
LONGEST, LARGEST, A_FILE, CHANCE = 300, 1200, 60, 15
# What the rows' own file computes with.
OWN = 'total, told, types_told, patterns_told, bindings_told, draft_told, drafted, answered'
OPENED_OWN = OWN.replace(',', '')
MODULUS, FACTOR = 2 ** 61 - 1, 1_000_003


def opened():
    """the names to unfold, whole"""
    names = []
    for crate, files in OPENED.items():
        for file in files:
            text = (CRATES / crate / 'specs' / f'{file}.antt').read_text()
            for block in re.split(r'^(?=\S)', text, flags=re.M):
                if not block.startswith('unfoldable'):
                    continue
                if block.startswith('unfoldable mutual'):
                    found = re.findall(r'^  pub (\S+) :', block, re.M)
                else:
                    found = re.findall(r'^unfoldable pub (\S+) :', block)
                names += [f'Rattle.{crate}.specs.{file}.{name}' for name in found if not LEFT_OUT.fullmatch(name)]
    return ' '.join(names)


def numbers(data):
    return ' ∷ '.join(map(str, data)) + ' ∷ []' if data else '[]'


def quoted(text):
    if text and all(32 <= b < 127 and b not in b'"\\' for b in text):
        return f'(ascii "{text.decode()}")'
    return f'({numbers(text)})'


def total(data):
    """a sum over bytes in which each place counts"""
    h = 0
    for b in data:
        h = (h * FACTOR + b + 1) % MODULUS
    return h


def wanted(answer, sheet, whole):
    if isinstance(answer, tuple):
        return numbers([0, answer[0], answer[1]])
    if whole:
        return numbers([1, len(answer), total(answer)])
    m, s, said = decode(answer), decode(sheet), [1]
    for table in ('types', 'patterns', 'bindings'):
        rows = getattr(m, table)[len(getattr(s, table)):]
        said += [len(rows)] + [word for row in rows for word in row]
    return numbers(said + [len(m.list) - len(s.list)] + m.list[len(s.list):] + list(m.data[len(s.data):]))


HEAD = '''use Prim.Native.Nat.{ℕ, ◌+◌, ◌*◌, ◌%◌}
use mathlib.Core.Path.{◌≡◌, refl}
use mathlib.Core.List.{List, [], ◌∷◌, map}
use Rattle.text_chars.specs.Bytes.{ascii}
'''


def tables(named):
    """the file of the sheets and name tables, and of what a row is"""
    lines = ['-- The sheets and name tables of the rows, and what a row asks for. Assumes nothing.', HEAD.rstrip()]
    lines += ['use mathlib.Core.Bool.{cond}', 'use mathlib.Core.Option.{Option, none, some}', 'use mathlib.Core.List.{◌++◌}', 'use lib.ListN.{length}',
              'use Rattle.image.specs.declared.rows.TypeRow.{TypeRow}', 'use Rattle.image.specs.declared.rows.PatRow.{PatRow}',
              'use Rattle.image.specs.declared.rows.BindingRow.{BindingRow}', 'use Rattle.pattern_grammar.specs.Parsed.{parsed}',
              'use Rattle.pattern_syntax.specs.Written.{Written}', 'use Rattle.pattern_syntax.specs.Reduced.{reduced}',
              'use Rattle.pattern_typing.specs.Contexts.{typed}', 'use Rattle.pattern_typing.specs.Failing.{refused_in}',
              'use Rattle.pattern_images.specs.Drafts.{Draft}', 'use Rattle.pattern_images.specs.Imaging.{within_image_limits}',
              'use Rattle.pattern_reading.specs.Reads.{Answer, image_of, refused_with, Outcome, tree_is, fails_at, outcome, draft_of, read_pattern}', '']
    for data, name in named.items():
        lines += [f'abbrev pub {name} : List ℕ', f'{name} = {numbers(data)}', '']
    lines += ['-- a sum over bytes in which each place counts', 'unfoldable pub total : ℕ → List ℕ → ℕ', 'total h [] = h',
              f'total h (b ∷ bs) = total ((h * {FACTOR} + b + 1) % {MODULUS}) bs', '']
    lines += ['-- an answer in numbers: a refusal by its number and position, an image by its length and sum', 'unfoldable pub told : Answer → List ℕ',
              'told (image_of bytes) = 1 ∷ length bytes ∷ total 0 bytes ∷ []', 'told (refused_with number at) = 0 ∷ number ∷ at ∷ []', '']
    for table, row, words in (('types', 'TypeRow', 'kind a b c copy'), ('patterns', 'PatRow', 'kind ty derefs a b c d'), ('bindings', 'BindingRow', 'ty picked')):
        lines += [f'unfoldable pub {table}_told : List {row} → List ℕ', f'{table}_told [] = []',
                  f"{table}_told (r ∷ rs) = {' ∷ '.join('r.' + word for word in words.split())} ∷ {table}_told rs", '']
    lines += ['-- what is added to a sheet, in numbers', 'unfoldable pub draft_told : Draft → List ℕ',
              'draft_told d =', '    length d.types ∷ (types_told d.types',
              '    ++ (length d.patterns ∷ (patterns_told d.patterns',
              '    ++ (length d.bindings ∷ (bindings_told d.bindings ++ (length d.words ∷ (d.words ++ d.bytes)))))))', '']
    lines += ['pub record Row : Type 0 where', '  pub text : List ℕ', '  pub sheet : List ℕ', '  pub names : List ℕ', '  pub expected : ℕ', '  pub wanted : List ℕ', '',
              'abbrev pub row : List ℕ → List ℕ → List ℕ → ℕ → List ℕ → Row',
              'row t s n e w = record { text = t; sheet = s; names = n; expected = e; wanted = w }', '',
              '-- reading over a sheet, a name table and a type that are known to hold', 'unfoldable pub drafted : Row → Option ℕ → Draft → List ℕ',
              'drafted r (some at) d = 0 ∷ 20 ∷ at ∷ []',
              'drafted r none d = cond (within_image_limits r.sheet d) (1 ∷ draft_told d) (0 ∷ 1 ∷ 65535 ∷ [])', '',
              'abbrev pub drafted_tree : Row → Written → List ℕ',
              'drafted_tree r w = drafted r (refused_in r.sheet r.names w (typed r.expected 0)) (draft_of r.sheet r.names r.expected w)', '',
              'unfoldable pub answered : Row → Outcome → List ℕ',
              'answered r (fails_at at) = 0 ∷ 19 ∷ at ∷ []', 'answered r (tree_is p) = drafted_tree r (reduced r.text p)', '',
              'abbrev pub given : Row → List ℕ', 'given r = answered r (outcome (parsed r.text))', '',
              '-- reading as a whole', 'abbrev pub given_whole : Row → List ℕ',
              'given_whole r = told (read_pattern r.text r.sheet r.names r.expected)', '',
              'abbrev pub wants : Row → List ℕ', 'wants r = r.wanted', '']
    return '\n'.join(lines)


def held(named):
    """the file that says that the classes' tables hold"""
    lines = ["-- The classes' sheets and name tables hold their rules. Assumes nothing.", HEAD.rstrip(), 'use mathlib.Core.Bool.{true}',
             'use Rattle.type_sheets.specs.Sheets.{sheet_holds}', 'use Rattle.name_tables.specs.Names.{names_hold}',
             f'use Rattle.reading_samples.proofs.Tables.{{{", ".join(named[data] for name in CLASSES for data in class_tables(name))}}}', '']
    for name in CLASSES:
        lines += [f'pub {name}_holds : sheet_holds {name}_sheet ≡ true', f'unfolding {opened()}', f'{name}_holds = refl', '',
                  f'pub {name}_names_hold : names_hold {name}_sheet {name}_names ≡ true', f'unfolding {opened()}', f'{name}_names_hold = refl', '']
    return '\n'.join(lines)


def file_of(called, given, rows, tables_of):
    """the file of some rows"""
    called = called.lower()
    lines = ['-- Texts read over sheets and name tables: the definitions, computed. Assumes nothing.', HEAD.rstrip(),
             f'use Rattle.reading_samples.proofs.Tables.{{Row, row, {given}, wants, {OWN}, {", ".join(sorted(tables_of))}}}', '',
             f'unfoldable pub rows_{called} : List Row', f'rows_{called} =', '    ' + '\n    ∷ '.join(rows) + '\n    ∷ []', '',
             f'pub as_judged_{called} : map {given} rows_{called} ≡ map wants rows_{called}', f'unfolding rows_{called} {OPENED_OWN} {opened()}',
             f'as_judged_{called} = refl', '']
    return '\n'.join(lines)


def is_spare(name):
    """of the texts by chance the first of each class are enough"""
    sort, _, number = name.partition(':')
    return sort in CLASSES and int(number) > CHANCE


def files():
    """each file's text by its name"""
    named, made, rows = {}, {}, {'given': [], 'given_whole': []}
    classes = {class_tables(name) for name in CLASSES}
    for name in CLASSES:
        for what, data in zip(('_sheet', '_names'), class_tables(name)):
            named[data] = name + what
    for name, text, sheet, names, expected in calls():
        if len(text) > LONGEST or max(len(sheet), len(names)) > LARGEST or is_spare(name):
            continue
        own = [named.setdefault(data, f'{what}{len(named)}') for what, data in (('sheet', sheet), ('names', names))]
        given = 'given' if (sheet, names) in classes and expected < len(decode(sheet).types) else 'given_whole'
        answer = wanted(read(text, sheet, names, expected), sheet, given == 'given_whole')
        rows[given].append((own, f"row {quoted(text)} {' '.join(own)} {expected} ({answer})"))
    for given, own_rows in rows.items():
        for first in range(0, len(own_rows), A_FILE):
            part, called = own_rows[first:first + A_FILE], f"{'Whole' if given == 'given_whole' else 'Typed'}{first // A_FILE + 1}"
            made[called] = file_of(called, given, [text for _, text in part], {table for own, _ in part for table in own})
    made['Tables'], made['Held'] = tables(named), held(named)
    made['Lib'] = ''.join(f'pub mod {name}\n' for name in sorted(made))
    return {f'{name}.antt': text for name, text in made.items()}


def main(arguments):
    made, wrong = files(), 0
    for name, text in made.items():
        path = ROWS / name
        if arguments == ['--check']:
            if not path.exists() or path.read_text() != text:
                print(f'{path.relative_to(HERE.parent)} is not what the script makes')
                wrong = 1
        else:
            path.parent.mkdir(parents=True, exist_ok=True)
            path.write_text(text)
    return wrong


if __name__ == '__main__':
    sys.exit(main(sys.argv[1:]))
