#!/usr/bin/env python3
"""grammar.py TEXT..: what pattern texts are, one line a text: `failed POSITION`, or `read` and the tree's outline in numbers.
grammar.py --rows NAME SEED COUNT: random texts, whole and damaged, as rows of an antt file.
grammar.py --check FILE..: the rows of antt files, judged again.

Written from the Rust Reference's chapter on patterns (edition 2021) alone, as a second opinion on the definitions of the crate
pattern_grammar: a recursive descent, one function a production, over the tokens of tokens.py. It fails at the first token with which
nothing goes on; an `a..` that is a slice's item, an integer over 16 bytes and a rest that is no list item fail where they stand."""
import random
import re
import sys

from tokens import tokens


class Failed(Exception):
    """where a text fails, at which token that is known, and whether the grammar alone knows it"""
    def __init__(self, at, known, grammar):
        self.at, self.known, self.grammar = at, known, grammar


# A text of 16,384 bytes may have as many digits, and lie 16,383 deep.
sys.set_int_max_str_digits(0)
sys.setrecursionlimit(200_000)
LITERALS = ('true', 'false', 'char', 'integer', 'minus')
CLOSERS = {'(': 'close-paren', '[': 'close-bracket'}
NONE = 65535


class Parser:
    def __init__(self, text):
        self.text, self.tokens, self.at = text, tokens(text), 0

    def kind(self):
        return self.tokens[self.at][0]

    def fail(self, at=None):
        raise Failed(self.tokens[self.at][1] if at is None else at, self.at, at is None)

    def take(self, *kinds):
        if self.kind() not in kinds:
            self.fail()
        self.at += 1
        return self.tokens[self.at - 1]

    def maybe(self, kind):
        return self.take(kind) if self.kind() == kind else None

    def whole(self):
        tree = self.pattern(None)
        self.take('end')
        return tree

    # Pattern. `where` is None, or the list whose item this is: [its bracket, whether it has a rest]
    def pattern(self, where):
        lead = self.maybe('or')
        alternatives = [self.no_top_alt(None if lead else where, 0)]
        while self.maybe('or'):
            alternatives.append(self.no_top_alt(None, 0))
        return ('pattern', lead and lead[1], alternatives)

    # PatternNoTopAlt. `depth` counts the `@` before it
    def no_top_alt(self, where, depth):
        start = self.tokens[self.at][1]
        if self.kind() in ('dot-dot', 'dot-dot-eq'):
            dots = self.take('dot-dot', 'dot-dot-eq')
            if self.kind() in LITERALS + ('name',) or dots[0] == 'dot-dot-eq':
                return ('to', dots[0] == 'dot-dot-eq', self.bound(), dots[1])
            return self.rest(dots, where, depth)
        if self.kind() in LITERALS:
            low = self.literal()
            return self.range_from(low) or low
        if self.kind() == 'name':
            low = self.path()
            return self.range_from(low) or self.behind_path(low, where, depth)
        return self.without_range(where, depth)

    def range_from(self, low):
        if self.maybe('dot-dot-eq'):
            return ('range', low, True, self.bound())
        if self.maybe('dot-dot'):
            if self.kind() in LITERALS + ('name',):
                return ('range', low, False, self.bound())
            return ('from', low)
        return None

    def bound(self):
        return self.path() if self.kind() == 'name' else self.literal()

    def rest(self, dots, where, depth):
        allowed = where is not None and not where[1] and self.kind() != 'or'
        if not allowed or depth > (1 if where[0] == '[' else 0):
            self.fail(dots[1])
        where[1] = True
        return ('rest', dots[1])

    def literal(self):
        first = self.take(*LITERALS)
        digits = self.take('integer') if first[0] == 'minus' else first
        if digits[0] == 'integer':
            self.fits(digits, 2 ** 127 if first[0] == 'minus' else 2 ** 128 - 1)
        return ('literal', first[1], digits[2])

    def fits(self, digits, most):
        if int(self.text[digits[1]:digits[2]].replace(b'_', b'')) > most:
            self.fail(digits[1])

    def path(self):
        first = last = self.take('name')
        names = 1
        while self.maybe('path-sep'):
            last = self.take('name')
            names += 1
        return ('path', first[1], last[2], names, first[3])

    def without_range(self, where, depth):
        token = self.tokens[self.at]
        if token[0] in LITERALS:
            return self.literal()
        if token[0] == 'name':
            return self.behind_path(self.path(), where, depth)
        if self.maybe('dot-dot'):
            return self.rest(token, None, 0)
        if self.maybe('underscore'):
            return ('wild', token[1])
        if self.maybe('ref') or self.maybe('mut'):
            mutable = token[0] == 'mut' or bool(self.maybe('mut'))
            return self.ident((token[0] == 'ref') + 2 * mutable, self.take('name')[3], token[1], where, depth)
        if self.maybe('and') or self.maybe('and-and'):
            mutable = bool(self.maybe('mut'))
            return ('ref', token[0] == 'and-and', token[1], mutable, self.without_range(None, 0))
        if self.maybe('open-paren'):
            return self.items('(', token[1], None)
        if self.maybe('open-bracket'):
            return self.items('[', token[1], None)
        self.fail()

    # `at` is the pattern's first byte, `own` its name's behind `r#`
    def ident(self, flags, own, at, where, depth):
        if self.maybe('bind'):
            return ('at', flags, own, self.no_top_alt(where, depth + 1), at)
        return ('ident', flags, own, at)

    def behind_path(self, path, where, depth):
        if self.maybe('open-paren'):
            return self.items('(', path[1], path)
        if self.maybe('open-brace'):
            return self.record(path)
        return path if path[3] > 1 else self.ident(0, path[4], path[1], where, depth)

    def items(self, bracket, at, path):
        where, found, comma = [bracket, False], [], True
        while comma and self.kind() != CLOSERS[bracket]:
            start = self.tokens[self.at][1]
            found.append(self.pattern(where))
            if self.kind() not in ('comma', CLOSERS[bracket]):
                self.fail()
            if bracket == '[' and found[-1][1] is None and [a[0] for a in found[-1][2]] == ['from']:
                self.fail(start)
            comma = self.maybe('comma')
        self.take(CLOSERS[bracket])
        group = not path and bracket == '(' and len(found) == 1 and not comma and found[0][2][0][0] != 'rest'
        return ('group' if group else 'struct' if path else 'tuple' if bracket == '(' else 'slice', at, found)

    def record(self, path):
        fields, comma, dots = [], True, False
        while comma and self.kind() != 'close-brace':
            dots = bool(self.maybe('dot-dot'))
            if dots:
                break
            fields.append(self.field())
            if self.kind() not in ('comma', 'close-brace'):
                self.fail()
            comma = self.maybe('comma')
        self.take('close-brace')
        return ('record', path[1], dots, fields)

    def field(self):
        token = self.take('integer', 'name', 'ref', 'mut')
        if token[0] == 'integer':
            self.fits(token, 2 ** 128 - 1)
        if token[0] == 'integer' or token[0] == 'name' and self.kind() == 'colon':
            self.take('colon')
            return ('keyed', token[1], self.pattern(None))
        mutable = token[0] == 'mut' or token[0] == 'ref' and bool(self.maybe('mut'))
        own = token if token[0] == 'name' else self.take('name')
        return ('short', (token[0] == 'ref') + 2 * mutable, own[3], token[1])


def outline(t):
    """a tree in numbers: what is inside, then the tree itself"""
    kind = t[0]
    if kind == 'pattern':
        lead = [] if t[1] is None else [20, t[1]]
        return outline(t[2][0]) + lead + sum((outline(a) + [19] for a in t[2][1:]), [])
    if kind == 'wild':
        return [1, t[1]]
    if kind == 'literal':
        return [2, t[1], t[2]]
    if kind == 'ident':
        return [3, t[2], t[1]]
    if kind == 'at':
        return outline(t[3]) + [4, t[2], t[1]]
    if kind == 'rest':
        return [5, t[1]]
    if kind == 'ref':
        return outline(t[4]) + [7 if t[1] else 6, t[2], int(t[3])]
    if kind == 'path':
        return [8, t[1], t[2]]
    if kind in ('tuple', 'group', 'struct', 'slice'):
        code = {'tuple': 9, 'group': 10, 'struct': 11, 'slice': 12}[kind]
        return sum(map(outline, t[2]), []) + [code, t[1], len(t[2])]
    if kind == 'keyed':
        return outline(t[2]) + [13, t[1]]
    if kind == 'short':
        return [14, t[2], t[1]]
    if kind == 'record':
        return sum(map(outline, t[3]), []) + [15, t[1], len(t[3]), int(t[2])]
    if kind == 'range':
        return [16, t[1][1], int(t[2]), t[3][1]]
    if kind == 'from':
        return [17, t[1][1]]
    return [18, int(t[1]), t[2][1]]


def verdict(text):
    """[0, position], or 1 and the outline"""
    if len(text) > 16384:
        return [0, 16384]
    try:
        return [1] + outline(Parser(text).whole())
    except Failed as failed:
        return [0, failed.at]


NAMES = ['x', 'y', 'A', 'r#if', 'Foo', '__', 'gen']
INTEGERS = ['0', '7', '1_0', '007', '340282366920938463463374607431768211455', '340282366920938463463374607431768211456',
            '170141183460469231731687303715884105728', '170141183460469231731687303715884105729']


def made_path(r):
    return '::'.join(r.choice(NAMES) for _ in range(r.choice([1, 1, 1, 2, 3])))


def made_literal(r):
    integer = r.choice(INTEGERS) if r.random() < 0.1 else r.choice(INTEGERS[:3])
    return r.choice(['true', 'false', "'c'", integer, integer, '- ' + integer, '-' + integer])


def made_bound(r):
    return made_path(r) if r.random() < 0.4 else made_literal(r)


def made_pattern(r, n):
    lead = '| ' if r.random() < 0.08 else ''
    return lead + r.choice([' | ', '|']).join(made_alt(r, n - 1) for _ in range(r.choice([1, 1, 1, 1, 2, 3])))


def made_alt(r, n):
    pick = r.random()
    if pick < 0.08:
        return made_bound(r) + r.choice(['..', '..=']) + made_bound(r)
    if pick < 0.14:
        return made_bound(r) + '..'
    if pick < 0.2:
        return r.choice(['..', '..=']) + made_bound(r)
    return made_plain(r, n)


def made_name(r):
    return r.choice(['', '', '', 'ref ', 'mut ', 'ref mut ']) + r.choice(NAMES)


def made_items(r, n):
    found = [r.choice(['..', 'x @ ..', 'ref x @ ..']) if r.random() < 0.18 else made_pattern(r, n) for _ in range(r.choice([0, 1, 1, 2, 2, 3]))]
    return r.choice([', ', ',']).join(found) + (',' if found and r.random() < 0.2 else '')


def made_field(r, n):
    if r.random() < 0.4:
        return made_name(r)
    return r.choice(NAMES + INTEGERS[:3]) + r.choice([':', ': ']) + made_pattern(r, n)


def made_plain(r, n):
    pick = r.randrange(5 if n <= 0 else 12)
    if pick == 0:
        return made_literal(r)
    if pick == 1:
        return made_name(r)
    if pick == 2:
        return '_'
    if pick == 3:
        return made_path(r)
    if pick == 4:
        return '..' if r.random() < 0.1 else '_'
    if pick == 5:
        return made_name(r) + r.choice([' @ ', '@']) + made_alt(r, n - 1)
    if pick == 6:
        return r.choice(['&', '& ', '&&', '&mut ', '&&mut ']) + made_plain(r, n - 1)
    if pick == 7:
        return made_path(r) + '(' + made_items(r, n - 1) + ')'
    if pick == 8:
        return '(' + made_items(r, n - 1) + ')'
    if pick == 9:
        return '[' + made_items(r, n - 1) + ']'
    if pick == 10:
        return '(' + made_pattern(r, n - 1) + ')'
    fields = [made_field(r, n - 1) for _ in range(r.choice([0, 1, 1, 2]))]
    last = r.choice(['', '', ',', ', ..']) if fields else r.choice(['', '..'])
    return made_path(r) + ' { ' + ', '.join(fields) + last + ' }'


MARKS = ['(', ')', '[', ']', '{', '}', ',', '|', '&', '&&', '@', '-', ':', '::', '..', '..=', 'ref', 'mut', '_', 'x', '7', "'c'",
         'true', '!', '"', 'self', '||', '...']


def damaged(r, text):
    found = [t for t in tokens(text.encode()) if t[2] > t[1]]
    if not found:
        return text
    t = r.choice(found)
    how = r.randrange(4)
    if how == 0:
        return text[:t[1]] + text[t[2]:]
    if how == 1:
        return text[:t[1]] + r.choice(MARKS) + ' ' + text[t[1]:]
    if how == 2:
        return text[:t[1]] + r.choice(MARKS) + text[t[2]:]
    return text[:t[1]]


def made_text(r):
    text = made_pattern(r, r.choice([1, 2, 2, 3, 3, 4]))
    for _ in range(r.choice([0, 0, 1, 1, 2])):
        text = damaged(r, text)
    return text


def quoted(text):
    """bytes as antt writes them"""
    if all(32 <= b < 127 for b in text):
        return 'ascii "' + text.decode().replace('\\', '\\\\').replace('"', '\\"') + '"'
    return '(' + ' ∷ '.join('0x%02X' % b for b in text) + ' ∷ [])'


def print_rows(name, texts):
    print(f'unfoldable pub {name}_rows : List Row\n{name}_rows =')
    for k, text in enumerate(texts):
        wanted = ' ∷ '.join(map(str, verdict(text)))
        print(f'    {"∷ " if k else ""}row ({quoted(text)}) ({wanted} ∷ [])')
    print('    ∷ []')


def random_texts(seed, count):
    r, found = random.Random(seed), []
    while len(found) < count:
        text = made_text(r)
        if len(text) <= 48 and text not in found:
            found.append(text)
    return [t.encode() for t in found]


def rows_of(path):
    """the rows of an antt file: a text's bytes and what is wanted"""
    for line in open(path):
        found = re.match(r'\s*(?:∷ )?row \((?:ascii "(.*)"|\((.*) ∷ \[\]\))\) \((.*) ∷ \[\]\)$', line)
        if found:
            plain, numbers, wanted = found.groups()
            text = bytes(int(b, 0) for b in numbers.split(' ∷ ')) if numbers else re.sub(r'\\(.)', r'\1', plain).encode()
            yield text, [int(w) for w in wanted.split(' ∷ ')]


def check(paths):
    rows = [row for path in paths for row in rows_of(path)]
    wrong = [text for text, wanted in rows if verdict(text) != wanted]
    for text in wrong:
        print('wrong:', text)
    print(len(rows), 'rows,', len(wrong), 'wrong')
    return 1 if wrong or not rows else 0


if __name__ == '__main__':
    if sys.argv[1] == '--check':
        sys.exit(check(sys.argv[2:]))
    elif sys.argv[1] == '--rows':
        print_rows(sys.argv[2], random_texts(int(sys.argv[3]), int(sys.argv[4])))
    else:
        for argument in sys.argv[1:]:
            found = verdict(argument.encode('utf-8', 'surrogateescape'))
            print('read' if found[0] else 'failed', *found[1:])
