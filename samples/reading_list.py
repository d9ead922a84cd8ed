#!/usr/bin/env python3
"""reading_list.py --check: fails if a class file's tables are not what scripts/class_file makes of it.

Its records are calls on texts for the stored lists (make.py): the sheet, as any record has its image (records.py); the name table behind
its length in four big-endian bytes; and, behind their number in four such bytes, texts, each of which has the expected type as a
big-endian word and its length in four bytes before it. For each text a line is printed: `image` and the image's bytes in hexadecimal, or
the refusal. readings.txt has for each its number from 1, its name, and the refusal or what is added to the sheet, cut at 160 characters."""
import struct
import subprocess
import sys
import tempfile
from pathlib import Path

sys.dont_write_bytecode = True

from images import decode
from reading import program, read
from reading_cases import all_cases
from reading_corners import HERE, added, class_tables, corners
from records import reading_records
from text_chance import chance_texts

LONGEST_LINE = 160
SEED, CHANCE = 1401, 60
CLASSES = {'text': 0, 'laser': 14, 'mixed': 2}


def calls():
    """name, text, sheet, name table and expected type of every call"""
    sheet, names = class_tables()
    for number, (text, expected, _) in enumerate(corners(), 1):
        yield f'corner:{number}', text, sheet, names, expected
    sheet, names = class_tables('laser')
    for number, rule in enumerate((HERE / 'laser.rules').read_bytes().splitlines(), 1):
        yield f'rule:{number}', rule, sheet, names, CLASSES['laser']
    yield from all_cases()
    for name in CLASSES:
        sheet, names = class_tables(name)
        for number, (text, expected) in enumerate(chance_texts(SEED, decode(sheet), names, CHANCE, 0.05), 1):
            yield f'{name}:{number}', text, sheet, names, expected


def text_records():
    """the records, the lines printed for them, and readings.txt"""
    asked, printed, listed, seen = [], [], [], set()
    for number, (name, *call) in enumerate(calls(), 1):
        assert name not in seen and ' ' not in name, name
        seen.add(name)
        answer = read(*call)
        refused = isinstance(answer, tuple)
        line = 'refused %d %d %d' % answer if refused else 'image ' + answer.hex()
        asked.append(call)
        printed.append(line + '\n')
        listed.append(f'{number} {name} {line if refused else added(answer, call[1])}'[:LONGEST_LINE] + '\n')
    return list(reading_records(asked)), printed, ''.join(listed)


def first_rule():
    """what the program read_pattern is run on, and what it writes"""
    sheet, names = class_tables('laser')
    text = (HERE / 'laser.rules').read_bytes().splitlines()[0]
    given = sheet + names + struct.pack('>HI', CLASSES['laser'], len(text)) + text
    return given, program(given)


def class_faults():
    """the class files whose tables are not what the script makes of them"""
    for name, expected in CLASSES.items():
        with tempfile.TemporaryDirectory() as room:
            subprocess.run([HERE.parent / 'scripts' / 'class_file', HERE / f'{name}.class', room], check=True)
            made = [Path(room, part).read_bytes() for part in ('sheet', 'names', 'expected')]
        if made != [*class_tables(name), struct.pack('>H', expected)]:
            yield f'{name}.class'


def main(arguments):
    if arguments != ['--check']:
        print(__doc__)
        return 2
    wrong = list(class_faults())
    for name in wrong:
        print(f'differs: samples/{name}')
    return 1 if wrong else 0


if __name__ == '__main__':
    sys.exit(main(sys.argv[1:]))
