#!/usr/bin/env python3
"""texts.py [few|quick|full] [SEED] [REPLAY]: rustc and samples/reading.py as the judges of pattern texts.

REPLAY is the program `replay_texts`, which replays stored calls on texts: its answers are judged, or without it those of
samples/reading.py. First the grammar: texts made by the grammar, damaged ones and the corners are matched as `$p:pat` in edition 2021. What
is taken rustc must take, and what is refused with 19 rustc must refuse, but for the forms of LEFT_OUT. Then types: texts over the sample
classes stand in match arms over their declarations. rustc must accept those whose image fits, with the bindings' types that the image has,
and no others, but for the sorts of PARTED. The program's image and its refusals must be those of samples/reading.py, byte for byte. A
difference is printed and fails the run."""
import json
import random
import re
import subprocess
import sys
import tempfile
from collections import Counter
from pathlib import Path

sys.dont_write_bytecode = True
HERE = Path(__file__).resolve().parent
sys.path.insert(0, str(HERE.parent / 'samples'))

from grammar import Failed, Parser, made_text
from reading_corners import class_tables
from reading_program import Program
from typed_texts import typed
from tokens import token

# texts of the grammar, and typed texts of each class
COUNTS = {'few': (300, 400), 'quick': (4000, 1200), 'full': (30000, 8000)}
EXTRAS = ['"s"', "b'a'", 'b"s"', 'c"s"', '1u8', '0x1F', '1.5', '1e3', '1.', '...', 'A!()', 'A::<u8>', '<A>::B', '::A', 'self', 'Self::A',
          'super::A', 'crate::A', 'é', 'xé', 'box x', 'mut ref x', "'ab'", "'a", "''", '/* a */', '// a\n', '/** a */', '#', '$', '\\', '~',
          'if', 'r#if', 'r#self', "'\\u{D800}'", "'\\u{1_F6A9}'", '1_', '7é', '_x', '__', 'dyn', 'gen', '\u2028', '=>', '|=', '&=', '->',
          "'\\x7f'", "'\\x80'", '0b2', '0o8', "'a'b", "r#x'a'", 'const { 1 }', '1..', '..=1', '(1..)', 'ref', '-', '/*', '*/', '"', "'"]

# Forms that the request leaves out, which rustc takes as patterns: each with what stands at the refusal's place.
LEFT_OUT = {
    'a string, a byte string or a byte': rb'''(?:b|c|br|r|cr)?#*["]|b\'''',
    'a float, or an integer with a suffix or of another base': rb'[0-9][0-9_]*(?:[A-Za-z.]|_*[A-Za-z])',
    '`...`': rb'\.\.\.',
    'a macro': rb'!',
    'generic arguments or a qualified path': rb'<|>|::',
    '`self`, `Self`, `super`, `crate`': rb'(?:self|Self|super|crate)\b',
    'a name that is not ASCII': rb'[A-Za-z0-9_]*[\x80-\xff]',
    'an attribute, as a doc comment is one': rb'#|//[/!]|/\*[*!]',
}


# What rustc's parser takes and the Reference's grammar or its rules on patterns do not; rustc refuses it later, or as unstable.
PARSER_ONLY = {
    'a char with a suffix': rb"'(?:[^'\\]+|\\.[^']*)'[A-Za-z_]",
    'a box pattern': rb'box\b',
}
KINDS_OF_BOUND = re.compile(r'(?:(?:minus )?integer|true|false|char|name(?: path-sep name)*) dot-dot (?:comma|close-bracket)')


class Judge:
    """rustc over many texts in one file."""

    def __init__(self, room):
        self.room = Path(room)
        self.runs = 0
        self.rustc('--crate-type', 'proc-macro', '-o', str(self.room / 'libpattern_text.so'), str(HERE / 'texts' / 'pattern_text.rs'))

    def rustc(self, *arguments):
        """what rustc says, a message each"""
        self.runs += 1
        command = ['rustc', '--edition', '2021', '--error-format', 'json', *arguments]
        ran = subprocess.run(command, capture_output=True, text=True, cwd=self.room)
        found = [json.loads(line) for line in ran.stderr.splitlines() if line.startswith('{')]
        errors = [message for message in found if message.get('level', '').startswith('error')]
        assert ran.returncode == 0 or errors, ran.stderr[-2000:]
        return errors

    def errors(self, source):
        """code, message and lines of each error in a file"""
        path = self.room / 'given.rs'
        path.write_text(source)
        at = ['--emit', 'metadata', '-o', str(self.room / 'given.rmeta'), '--extern', f'pattern_text={self.room}/libpattern_text.so', str(path)]
        for message in self.rustc('--crate-type', 'lib', *at):
            code = (message['code'] or {}).get('code', '')
            lines = [own_line(span) for span in message['spans'] if span['is_primary']]
            if lines:
                yield code, message['message'], lines
            else:
                assert message['message'].startswith(('aborting', 'could not')), message

    def patterns(self, texts):
        """for each text what is wrong with it as `$p:pat`, or an empty string: by its tokens first, then what is left as it is written"""
        said = [''] * len(texts)
        for written in (tokens_of, itself):
            while True:
                asked = [number for number in range(len(texts)) if not said[number]]
                found = self.wrong([written(front(texts[number])) for number in asked])
                for place, message in found.items():
                    said[asked[place]] = message
                if not found:
                    break
        return said

    def wrong(self, calls):
        """the places of the calls that rustc finds fault with, with its message"""
        source = ['use pattern_text::text;\nmacro_rules! taken { ($p:pat) => {} }\n']
        places, line = {}, 3
        for place, call in enumerate(calls):
            source.append(call)
            for _ in range(call.count('\n')):
                places[line] = place
                line += 1
        return {places[line]: message for _, message, lines in self.errors(''.join(source)) for line in lines}


def tokens_of(text):
    """a text that may have no tokens, or brackets that do not match: one that has would spoil the file"""
    return f'text!("{text.hex()}");\n'


def itself(text):
    """a text that has tokens, with their places: rustc compares places where `mut` is repeated"""
    return 'taken! {\n' + text.decode() + '\n}\n'


def own_line(span):
    while span['expansion']:
        span = span['expansion']['span']
    return span['line_start']


def front(text):
    """a matcher does not begin with `..=`, which a pattern may; behind a `|` it does"""
    return b'| ' + text if token(text, 0)[0] == 'dot-dot-eq' else text


def verdict(text):
    """the position of 19, or None"""
    try:
        Parser(text).whole()
    except Failed as failed:
        return failed.args[0]
    return None


def spiced(rng, text):
    """a text with a form put before one of its tokens, or in its place"""
    spots = [t for t in (token(text.encode(), at) for at in range(len(text.encode()))) if t[2] > t[1]]
    raw, extra = text.encode(), rng.choice(EXTRAS).encode()
    if not spots:
        return raw + extra
    spot = rng.choice(spots)
    return raw[:spot[1]] + extra + raw[spot[1 if rng.random() < 0.3 else 2]:]


def grammar_texts(seed, count):
    """made and damaged texts, a fifth of them with a form of EXTRAS, and the corners"""
    from reading_cases import grammar_cases
    from reading_corners import corners
    rng = random.Random(seed)
    found = {text for text, _, _ in corners() if len(text) <= 16384} | {extra.encode() for extra in EXTRAS}
    found |= {call[0] for _, *call in grammar_cases()}
    while len(found) < count:
        text = made_text(rng)
        found.add(spiced(rng, text) if rng.random() < 0.2 else text.encode())
    return sorted(found)


def too_wide(text, at):
    """an integer over 16 bytes stands here"""
    digits = token(text, at)
    value = int(text[at:digits[2]].replace(b'_', b'')) if digits[0] == 'integer' else 0
    return value > (1 << 127 if text[:at].rstrip().endswith(b'-') else (1 << 128) - 1)


def kinds_from(text, at, most=24):
    """the kinds of the next tokens"""
    found = []
    while len(found) < most and (not found or found[-1][0] not in ('end', 'fails')):
        found.append(token(text, at))
        at = found[-1][2]
    return ' '.join(t[0] for t in found)


def kinds_before(text, at):
    """the kinds of the tokens before this place"""
    found = []
    while True:
        found.append(token(text, found[-1][2] if found else 0))
        if found[-1][1] >= at or found[-1][0] in ('end', 'fails'):
            return [t[0] for t in found[:-1]]


def parser_only(text, at):
    """what rustc's parser alone takes at this place, or None"""
    kinds, before = kinds_from(text, at), kinds_before(text, at)
    if kinds.startswith('dot-dot'):
        return 'a rest that is no list item, or the second'
    if too_wide(text, at):
        return 'an integer over 16 bytes'
    if KINDS_OF_BOUND.match(kinds):
        return '`a..` as a slice item'
    if before[-1:] == ['minus'] and kinds.startswith(('true', 'false', 'char')):
        return 'a minus before a bool or a char'
    if before[-1:] == ['integer'] and kinds.startswith(('comma', 'close-brace')) or before[-1:] in (['ref'], ['mut']) and kinds.startswith('integer'):
        return 'a tuple index without a colon'
    return next((name for name, form in PARSER_ONLY.items() if re.match(form, text[at:])), None)


def left_out(text, at):
    """why rustc takes what is refused at this place, or None"""
    form = next((name for name, form in LEFT_OUT.items() if re.match(form, text[at:])), None)
    if kinds_before(text, at)[-1:] == ['path-sep'] and text[at:at + 1] == b'(':
        form = 'generic arguments or a qualified path'
    if parser_only(text, at):
        return f"taken by rustc's parser alone: {parser_only(text, at)}"
    return form and f'left out by the request, and taken by rustc: {form}'


def failing_places(program, texts):
    """the position of 19, or None, for each text"""
    sheet, names = class_tables()
    answers = program.answers([(text, sheet, names, 0) for text in texts])
    return [answer[1] if isinstance(answer, tuple) and answer[0] == 19 else None for answer in answers]


def compare_grammar(judge, program, seed, count):
    """how many texts of each sort, and the differences"""
    texts = grammar_texts(seed, count)
    tally, differences = Counter(), []
    for text, at, said in zip(texts, failing_places(program, texts), judge.patterns(texts)):
        if at != verdict(text):
            differences.append((text, at, 'and by samples/grammar.py', verdict(text)))
        if at is None:
            sort = 'taken by both' if not said else None
        else:
            sort = 'refused by both' if said else left_out(text, at)
        tally[sort or 'differ'] += 1
        if sort is None:
            differences.append((text, at, said))
    return tally, differences


def told(title, tally, differences):
    print(title)
    for sort, count in sorted(tally.items()):
        print(f'  {sort}: {count}')
    for difference in differences[:20]:
        print('  differ:', *difference)
    print(f'{sum(tally.values())} texts, {len(differences)} differ')
    return len(differences)


def main(mode='quick', seed='1851', replay=None):
    if subprocess.run(['rustc', '--version'], capture_output=True).returncode:
        print(f'skipped: harness/texts.py {mode} (no rustc that runs)')
        return 0
    grammar, each = COUNTS[mode]
    program = Program(replay)
    with tempfile.TemporaryDirectory() as room:
        judge = Judge(room)
        wrong = told('texts as `$p:pat`', *compare_grammar(judge, program, int(seed), grammar))
        for name in ('text', 'laser', 'mixed'):
            wrong += told(f'texts over samples/{name}.class', *typed(judge, program, name, int(seed), each))
        print(f'{judge.runs} runs of rustc; {program.asked} texts read by {program.name}')
    return 1 if wrong else 0


if __name__ == '__main__':
    sys.exit(main(*sys.argv[1:]))
