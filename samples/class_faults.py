#!/usr/bin/env python3
"""class_faults.py: tries class files with faults, and holds scripts/class_file to the line and the words that it tells each with."""
import subprocess
import sys
import tempfile
from pathlib import Path

SCRIPT = Path(__file__).resolve().parent.parent / 'scripts' / 'class_file'
# A class file, the line told, and the words.
FAULTS = (
    ('', 1, 'no `expect` tells the type that is matched'),
    ('struct A\n', 1, 'no `expect` tells the type that is matched'),
    ('expect u8\nexpect u8', 2, 'line 1 has an `expect` already'),
    ('enum A {\n}\nexpect A', 2, '`A` has 0 variants, and an enum has 1 to 64'),
    ('enum A { ' + ', '.join(f'V{n}' for n in range(65)) + ' }\nexpect A', 1, '`A` has 65 variants, and an enum has 1 to 64'),
    ('struct A { x: u8,\n x: u8 }', 2, '`A` has a field `x` already'),
    ('struct A { x: Foo }', 1, '`Foo` is no type here: integers are u8 to u128 and i8 to i128, and the file\'s own types have to be in it'),
    ('struct A\nstruct A', 2, '`A` is a type already'),
    ('struct A(u8', 1, '`,` is due, and not `the end`'),
    ('struct _', 1, 'the name of a struct is due, and not `_`'),
    ('struct S { r#type: u8, if: u8 }', 1, 'the name of a field is due, and not `if`'),
    ('union U(u8)', 1, '`{` is due behind a union\'s name, and not `(`'),
    ('struct A(&mut u8)\ncopy struct B(u8, A)', 2, 'a field of a `copy` type is not copied itself'),
    ('struct A([u8; 65535])', 1, "an array's length is at most 65534"),
    ('struct A([u8; n])', 1, "an array's length is due, and not `n`"),
    ('const X: u8 = 256', 1, '`256` is no value of its type'),
    ('const X: u8 = -0', 1, '`-0` is no value of its type'),
    ('const X: i8 = -128\nconst Y: i8 = -129', 2, '`-129` is no value of its type'),
    ('const X: i8 = 127\nconst Y: i8 = 128', 2, '`128` is no value of its type'),
    ('const X: u128 = 340282366920938463463374607431768211455\nconst Y: u128 = 340282366920938463463374607431768211456', 2,
     '`340282366920938463463374607431768211456` is no value of its type'),
    ('const X: i128 = -170141183460469231731687303715884105728\nconst Y: i128 = -170141183460469231731687303715884105729', 2,
     '`-170141183460469231731687303715884105729` is no value of its type'),
    ('const X: bool = 1', 1, '`true` or `false` is due, and not `1`'),
    ('const X: bool = -true', 1, 'only an integer has a minus'),
    ('const X: char = x', 1, 'a char is due, and not `x`'),
    ("const X: char = 'ab'", 1, "`'ab'` is no char"),
    ("const X: char = '\\u{D800}'", 1, "`'\\u{D800}'` is no char"),
    ('const X: [u8; 2] = 3', 1, 'a constant is an integer, a bool or a char'),
    ('use E::*\nenum E { A }', 1, '`E` is no enum that stands above'),
    ('enum E { A, B }\nuse E::C', 2, '`E` has no variant `C`'),
    ('enum E { A }\nenum F { A }\nuse E::*\nuse F::*', 4, '`A` is a name already, of line 3'),
    ('#[derive(Clone, Copy)]\nstruct A', 1, 'attributes are not read; `copy` before `struct`, `enum` or `union` is Rust\'s derived Copy'),
    ('fn f() {}', 1, '`enum`, `struct`, `union`, `const`, `use` or `expect` is due, and not `fn`'),
    ('struct A $', 1, 'no word begins with `$`'),
    ('struct Größe', 1, 'no word begins with `ö`'),
    ('struct A(' + 'u8, ' * 2049 + ')\nexpect A', 2, 'more than 2048 fields and constants'),
)
TAKEN = (
    "const Z: char = 'é' // a comment\nconst Y: char = '\\u{1_F6A9}'; const N: char = '\\n'\nconst Q: char = '\\''\nexpect (char,)",
    'struct A([u8; 65534], (u8), (u8,), (), &str, &mut [A]);\nstruct B;\nenum E {\n    X { r#type: B, },\n    Y(A,),\n}\nuse E::Y;\nexpect &E',
)


def told(source, room):
    """status, and what the script says of a class file"""
    path = Path(room, 'tried.class')
    path.write_text(source)
    ran = subprocess.run([SCRIPT, path, Path(room, 'made')], capture_output=True, text=True)
    return ran.returncode, ran.stderr.replace(f'{path}:', '')


def main():
    wrong = 0
    with tempfile.TemporaryDirectory() as room:
        wanted = [(source, (1, f'{line}: {words}\n')) for source, line, words in FAULTS] + [(source, (0, '')) for source in TAKEN]
        for source, answer in wanted:
            if told(source, room) != answer:
                wrong += 1
                print(f'{source[:60]!r}\n  wanted {answer}\n  told   {told(source, room)}')
    print(f'{len(wanted)} class files, {wrong} wrong')
    return 1 if wrong else 0


if __name__ == '__main__':
    sys.exit(main())
