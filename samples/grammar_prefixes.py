#!/usr/bin/env python3
"""grammar_prefixes.py SEED COUNT: random texts, whole and damaged, held to the grammar's productions alone.

A third opinion: the Reference's productions stand here as a table, and a chart (Earley's) tells the first token with which no text of
the grammar begins as the text does so far. grammar.py must fail there, unless it fails before for what is no matter of the grammar: an
`a..` as a slice's item, an integer over 16 bytes, a rest that is no list item."""
import random
import sys

from grammar import Failed, Parser, made_text
from tokens import tokens

MARKS = {'(': 'open-paren', ')': 'close-paren', '[': 'open-bracket', ']': 'close-bracket', '{': 'open-brace', '}': 'close-brace',
         ',': 'comma', '|': 'or', '&': 'and', '&&': 'and-and', '@': 'bind', '-': 'minus', ':': 'colon', '::': 'path-sep',
         '..': 'dot-dot', '..=': 'dot-dot-eq', '_': 'underscore'}
GRAMMAR = """
Text: Pattern end
Pattern: Lead NoTopAlt Alternatives
Lead: | '|'
Alternatives: | '|' NoTopAlt Alternatives
NoTopAlt: WithoutRange | Range
Range: Bound '..' Bound | Bound '..=' Bound | Bound '..' | '..' Bound | '..=' Bound
Bound: Literal | Path
Literal: true | false | char | integer | '-' integer
WithoutRange: Literal | Identifier | '_' | '..' | Reference | Struct | TupleStruct | Tuple | Grouped | Slice | Path
Identifier: Ref Mut name | Ref Mut name '@' NoTopAlt
Ref: | ref
Mut: | mut
Reference: And Mut WithoutRange
And: '&' | '&&'
Struct: Path '{' Elements '}'
Elements: | Fields | Fields ',' | Fields ',' '..' | '..'
Fields: Field | Fields ',' Field
Field: integer ':' Pattern | name ':' Pattern | Ref Mut name
TupleStruct: Path '(' Items ')'
Items: | Patterns | Patterns ','
Patterns: Pattern | Patterns ',' Pattern
Tuple: '(' ')' | '(' Pattern ',' ')' | '(' '..' ')' | '(' Patterns ',' Pattern ')' | '(' Patterns ',' Pattern ',' ')'
Grouped: '(' Pattern ')'
Slice: '[' Items ']'
Path: name | Path '::' name
"""


def productions():
    table = {}
    for line in GRAMMAR.strip().split('\n'):
        left, right = line.split(':', 1)
        table[left] = []
        for choice in right.replace("'|'", "'or'").split('|'):
            symbols = choice.replace("'or'", "'|'").split()
            table[left].append(tuple(MARKS[s.strip("'")] if s.startswith("'") else s for s in symbols))
    return table


TABLE = productions()


def closed(items, chart, at):
    """the items of a place, with what they predict and complete"""
    found, waiting = set(items), list(items)
    while waiting:
        left, right, dot, start = waiting.pop()
        new = []
        if dot < len(right) and right[dot] in TABLE:
            new = [(right[dot], choice, 0, at) for choice in TABLE[right[dot]]]
            if () in TABLE[right[dot]]:
                new.append((left, right, dot + 1, start))
        elif dot == len(right):
            before = found if start == at else chart[start]
            new = [(l, r, d + 1, s) for l, r, d, s in before if d < len(r) and r[d] == left]
        for item in new:
            if item not in found:
                found.add(item)
                waiting.append(item)
    return found


def failing(kinds):
    """the number of the first token with which no text begins so, or None"""
    chart = [closed([('Text', choice, 0, 0) for choice in TABLE['Text']], [], 0)]
    for at, kind in enumerate(kinds):
        items = [(l, r, d + 1, s) for l, r, d, s in chart[at] if d < len(r) and r[d] == kind]
        if not items:
            return at
        chart.append(closed(items, chart, at + 1))
    return None


def agrees(text):
    first = failing([t[0] for t in tokens(text)])
    try:
        Parser(text).whole()
    except Failed as failed:
        return first == failed.known if failed.grammar else first is None or first >= failed.known
    return first is None


if __name__ == '__main__':
    r = random.Random(int(sys.argv[1]))
    wrong = [text for text in (made_text(r).encode() for _ in range(int(sys.argv[2]))) if not agrees(text)]
    for text in wrong:
        print('wrong:', text)
    print(sys.argv[2], 'texts,', len(wrong), 'wrong')
    sys.exit(1 if wrong else 0)
