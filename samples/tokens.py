#!/usr/bin/env python3
"""tokens.py TEXT..: the tokens of pattern texts, one line a text, each token as kind:from:to, the last one `end` or `fails`.

Written from the Rust Reference alone (its chapters on input, whitespace, comments, identifiers, keywords and tokens, edition 2021), as a
second opinion on the definitions of the crates text_chars and pattern_tokens. The Reference's productions stand here as regular
expressions over bytes; a token is the longest that any of them takes. Names are ASCII: a byte of 128 or more outside chars and comments
fails where it stands."""
import re
import sys

WHITESPACE = [9, 10, 11, 12, 13, 32, 0x85, 0x200E, 0x200F, 0x2028, 0x2029]
SPACE = re.compile(b'|'.join(re.escape(chr(c).encode()) for c in WHITESPACE))
KEYWORDS = set('''as async await break const continue crate dyn else enum extern false fn for if impl in let loop match mod move mut pub
ref return self Self static struct super trait true type unsafe use where while abstract become box do final macro override priv try
typeof unsized virtual yield'''.split())
OWN_WORDS = {'_': 'underscore', 'ref': 'ref', 'mut': 'mut', 'true': 'true', 'false': 'false'}
OWN_MARKS = {'(': 'open-paren', ')': 'close-paren', '[': 'open-bracket', ']': 'close-bracket', '{': 'open-brace', '}': 'close-brace',
             ',': 'comma', '|': 'or', '&': 'and', '&&': 'and-and', '@': 'bind', '-': 'minus', ':': 'colon', '::': 'path-sep',
             '..': 'dot-dot', '..=': 'dot-dot-eq'}
PUNCTUATION = '''... ..= <<= >>= != %= && &= *= += -= -> .. /= :: <- << <= == => >= >> ^= |= || ! # $ % & ( ) * + , - . / : ; < = > ? @
[ ] ^ { | } ~'''.split()

WORD = rb'[A-Za-z_][A-Za-z0-9_]*'
SUFFIX = rb'(?:(?!_(?![A-Za-z0-9_]))' + WORD + rb')'
DEC = rb'[0-9][0-9_]*(?![0-9_])'
ESCAPE = rb'''\\['"]|\\x[0-7][0-9a-fA-F]|\\[nrt\\0]|\\u\{(?:[0-9a-fA-F]_*){1,6}\}'''
PRODUCTIONS = {
    'name': WORD,
    'raw': rb'r#' + WORD,
    'reserved prefix': WORD + rb'''[#'"]''',
    'integer': DEC,
    'suffixed': rb'(?:0b_*[01][01_]*|0o_*[0-7][0-7_]*|0x_*[0-9a-fA-F][0-9a-fA-F_]*|' + DEC + rb')' + SUFFIX,
    'based': rb'0b[0-9_]*|0o[0-9_]*|0x[0-9a-fA-F_]*',
    'float': DEC + rb'(?:\.' + DEC + rb')?[eE][+-]?_*(?:[0-9][0-9_]*)?(?:' + SUFFIX + rb')?',
    'fraction': DEC + rb'\.' + DEC + rb'(?:' + SUFFIX + rb')?',
    'point': DEC + rb'\.(?![._A-Za-z])',
    'char': rb"'(?:[^'\\\n\r\t\x80-\xff]|[\xc2-\xf4][\x80-\xbf]{1,3}|" + ESCAPE + rb")'",
    'lifetime': rb"'" + WORD + rb"(?!')",
    'string': rb'"',
    'mark': b'|'.join(re.escape(p.encode()) for p in PUNCTUATION),
}
PRODUCTIONS['suffixed char'] = PRODUCTIONS['char'] + SUFFIX
PRODUCTIONS = {k: re.compile(v, re.S) for k, v in PRODUCTIONS.items()}


def utf8(b):
    try:
        return b.decode('utf-8')
    except UnicodeDecodeError:
        return None


def block(text, at):
    """behind the block comment that opens at `at`; None if it is not finished"""
    depth = 0
    for mark in re.finditer(rb'/\*|\*/', text[at:]):
        depth += 1 if mark.group() == b'/*' else -1
        if depth == 0:
            return at + mark.end()
    return None


def comment(text, at):
    """(behind it, whether it is one that may stand between tokens), or None"""
    if text.startswith(b'//', at):
        end = text.find(b'\n', at)
        end = len(text) if end < 0 else end
        doc = re.match(rb'//!|///(?!/)', text[at:])
    elif text.startswith(b'/*', at):
        end = block(text, at)
        doc = re.match(rb'/\*!|/\*\*(?![*/])', text[at:])
    else:
        return None
    return end, end is not None and not doc and utf8(text[at:end]) is not None


def char_value(body):
    simple = {b'\\n': 10, b'\\r': 13, b'\\t': 9, b'\\\\': 92, b'\\0': 0, b"\\'": 39, b'\\"': 34}
    if body in simple:
        return simple[body]
    if body.startswith(b'\\x'):
        return int(body[2:], 16)
    if body.startswith(b'\\u'):
        v = int(body[3:-1].replace(b'_', b''), 16)
        return v if v < 0xD800 or 0xE000 <= v < 0x110000 else None
    s = utf8(body)
    return ord(s) if s is not None and len(s) == 1 else None


def token(text, at):
    """(kind, from, to) with a name's own start or a char's value behind them"""
    while at < len(text):
        space = SPACE.match(text, at)
        gap = comment(text, at)
        if space:
            at = space.end()
        elif gap is None:
            break
        elif gap[1]:
            at = gap[0]
        else:
            return ('fails', at, at)
    if at >= len(text):
        return ('end', at, at)
    found = [(m.end(), k) for k, p in PRODUCTIONS.items() for m in [p.match(text, at)] if m]
    fails = ('fails', at, at)
    if not found:
        return fails
    end = max(found)[0]
    kinds = {k for e, k in found if e == end}
    word = text[at:end].decode('latin-1')
    if kinds == {'mark'}:
        return (OWN_MARKS[word], at, end) if word in OWN_MARKS else fails
    if kinds == {'name'}:
        if word in OWN_WORDS:
            return (OWN_WORDS[word], at, end)
        return fails if word in KEYWORDS else ('name', at, end, at)
    if kinds == {'raw'}:
        return fails if word[2:] in ('_', 'crate', 'self', 'Self', 'super') else ('name', at, end, at + 2)
    if kinds == {'integer'}:
        return ('integer', at, end)
    if kinds == {'char'}:
        value = char_value(text[at + 1:end - 1])
        return fails if value is None else ('char', at, end, value)
    return fails


def tokens(text):
    found = [token(text, 0)]
    while found[-1][0] not in ('end', 'fails'):
        found.append(token(text, found[-1][2]))
    return found


if __name__ == '__main__':
    for argument in sys.argv[1:]:
        print(' '.join(':'.join(map(str, t)) for t in tokens(argument.encode('utf-8', 'surrogateescape'))))
