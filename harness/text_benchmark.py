#!/usr/bin/env python3
"""text_benchmark.py REPLAY: what reading a pattern's text takes, and what rustc's own parse of it takes, in one run.

REPLAY is the program `replay_texts`, which replays stored calls on texts. Texts that are taken are read by it, with types and names and to
the image's bytes in hexadecimal, and matched by rustc as `$p:pat` in edition 2021; of each side's time with so many texts, its time with
none is taken away, so that neither starting nor the file's frame counts. The least of several runs, which take turns. A row for
docs/BENCHMARK.md is printed."""
import random
import subprocess
import sys
import tempfile
import time
from pathlib import Path

sys.dont_write_bytecode = True
HERE = Path(__file__).resolve().parent
sys.path.insert(0, str(HERE.parent / 'samples'))

from grammar import made_text
from reading import read
from reading_corners import class_tables
from records import reading_records
from reading_list import CLASSES
from texts import front, verdict

RUNS, EACH = 9, 4000


def taken_texts(seed):
    """texts of the grammar"""
    rng = random.Random(seed)
    found = set()
    while len(found) < EACH:
        text = made_text(rng).encode()
        if verdict(text) is None:
            found.add(text)
    return sorted(found)


def groups():
    """a name, and texts, each with a sheet, a name table and an expected type"""
    sheet, names = class_tables('laser')
    rules = (HERE.parent / 'samples' / 'laser.rules').read_bytes().splitlines()
    yield 'the rules of a class', [(rule, sheet, names, CLASSES['laser']) for rule in rules] * (EACH // len(rules))
    sheet, names = class_tables('text')
    yield 'texts made by the grammar', [(text, sheet, names, CLASSES['text']) for text in taken_texts(1851)]
    yield '8,191 parentheses', [(b'(' * 8191 + b'x' + b')' * 8191, sheet, names, CLASSES['text'])] * 20
    yield 'a tuple of 5,461 names', [(b'(' + b'ab,' * 5460 + b'c)', sheet, names, CLASSES['text'])] * 20


def seconds(command, given=None):
    began = time.perf_counter()
    subprocess.run(command, input=given, stdout=subprocess.DEVNULL, stderr=subprocess.PIPE, check=True)
    return time.perf_counter() - began


def rustc_file(room, name, texts):
    path = Path(room, f'{name}.rs')
    calls = ''.join('taken! {\n' + front(text).decode() + '\n}\n' for text in texts)
    path.write_text('#![recursion_limit = "65535"]\nmacro_rules! taken { ($p:pat) => {} }\n' + calls)
    return ['rustc', '--edition', '2021', '--crate-type', 'lib', '--emit', 'metadata', '-o', str(Path(room, 'made')), str(path)]


def measured(replay, calls):
    """nanoseconds for a text by rustc, or None where it fails, and by the program"""
    with tempfile.TemporaryDirectory() as room:
        none, all_ = rustc_file(room, 'none', []), rustc_file(room, 'all', [text for text, *_ in calls])
        given, empty = b''.join(reading_records(calls)), b''
        times = {'rustc': [], 'none': [], 'program': [], 'empty': []}
        parses = subprocess.run(all_, capture_output=True).returncode == 0
        for _ in range(RUNS):
            times['program'].append(seconds([replay], given))
            times['empty'].append(seconds([replay], empty))
            if parses:
                times['rustc'].append(seconds(all_))
                times['none'].append(seconds(none))
    per_text = lambda whole, frame: (min(times[whole]) - min(times[frame])) / len(calls) * 1e9
    return per_text('rustc', 'none') if parses else None, per_text('program', 'empty')


def main(replay):
    print('| texts | how many | bytes each | rustc, ns a text | read_pattern, ns a text | ratio |\n|---|---|---|---|---|---|')
    for name, calls in groups():
        answers = [read(*call) for call in calls[:50]]
        assert not any(isinstance(answer, tuple) and answer[0] == 19 for answer in answers)
        rustc, program = measured(replay, calls)
        size = sum(len(text) for text, *_ in calls) / len(calls)
        ratio = f'{rustc:,.0f} | {program:,.0f} | {program / rustc:.2f}' if rustc else f'fails | {program:,.0f} | '
        print(f'| {name} | {len(calls):,} | {size:,.0f} | {ratio} |')


if __name__ == '__main__':
    main(*sys.argv[1:])
