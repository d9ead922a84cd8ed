"""Random pattern texts over a sheet and its names: most follow their types, and some slip."""
import random

from images import ADT, ARRAY, BOOL, CHAR, INTEGER, REFERENCE, SLICE_TYPE, TUPLE_TYPE
from name_tables import CONSTANT_ROW, FIELD_ROW, VARIANT_ROW, name_of, rows

CHARS = ["'a'", "'z'", "'é'", r"'\n'", r"'\u{1F6A9}'", r"'\x41'", r"'\''"]
GAPS = [' ', ' ', ' ', '  ', '\n', '\t', ' /* a /* b */ */ ', ' // é\n']


class Texts:
    """`slip` is how often a part is made for another type or with another count."""

    def __init__(self, rng, m, names, slip):
        self.rng, self.m, self.slip, self.made, self.quiet = rng, m, slip, 0, 0
        found = [(row, name_of(names, row).decode()) for row in rows(names)]
        self.constants = [name for row, name in found if row[0] == CONSTANT_ROW]
        self.variants, self.fields = {}, {}
        for row, name in found:
            if row[0] == VARIANT_ROW:
                self.variants.setdefault(row[1], []).append(name)
            if row[0] == FIELD_ROW:
                self.fields[row[2], row[1]] = name

    def often(self, share):
        return self.rng.random() < share

    def slips(self):
        return self.often(self.slip)

    def gap(self):
        return self.rng.choice(GAPS) if self.often(0.1) else ' '

    def text(self, type_, depth):
        lead = '| ' if self.often(0.03) else ''
        return lead + self.pattern(type_, depth)

    def pattern(self, type_, depth):
        """a Pattern, of which one alternative or more"""
        if depth > 0 and self.often(0.12):
            return self.alternatives(type_, depth - 1)
        return self.one(type_, depth)

    def alternatives(self, type_, depth):
        """alternatives without bindings, or the same one twice"""
        if self.often(0.3):
            same = self.one(type_, depth)
            return same + ' | ' + same
        self.quiet += 1
        found = [self.one(type_, depth) for _ in range(self.rng.choice([2, 2, 3]))]
        self.quiet -= 1
        return (self.gap() + '|' + self.gap()).join(found)

    def one(self, type_, depth):
        """an alternative, in parentheses now and then"""
        if self.slips():
            type_ = self.rng.randrange(len(self.m.types))
        pick = self.rng.random()
        if pick < 0.08:
            return '_'
        if pick < 0.25:
            return '_' if self.quiet and self.often(0.95) else self.binding(type_, depth)
        if pick < 0.3 and depth > 0:
            return '(' + self.pattern(type_, depth - 1) + ')'
        return self.typed(type_, depth)

    def binding(self, type_, depth):
        self.made += 1
        name = 'x' if self.often(0.03) else f'v{self.made}'
        text = self.rng.choice(['', '', '', 'ref ', 'mut ', 'ref mut ']) + ('r#' if self.often(0.05) else '') + name
        if depth > 0 and self.often(0.35):
            below = self.one(type_, depth - 1)
            return f'{text} @ {below}' if '|' not in below else f'{text} @ ({below})'
        return text

    def typed(self, type_, depth):
        """a pattern by the kind of its type"""
        kind, a, b, _, flag = self.m.types[type_]
        if kind == REFERENCE:
            if self.often(0.5):
                return self.typed(a, depth)
            flag = flag if not self.slips() else not flag
            below = self.one(a, depth - 1)
            plain = not any(mark in below for mark in ('|', '@', '..')) and not below.startswith('mut')
            return ('&' if flag else '&mut ') + (below if plain else f'({below})')
        if kind in (INTEGER, BOOL, CHAR):
            return self.scalar(type_)
        if depth <= 0:
            return '_' if self.quiet else self.binding(type_, 0)
        if kind == TUPLE_TYPE:
            return self.listed('(', self.m.list[a:a + b], ')', depth)
        if kind == ADT:
            return self.adt(self.rng.randrange(a, a + b), depth)
        if kind in (ARRAY, SLICE_TYPE):
            return self.slice([a] * (b if kind == ARRAY else self.rng.randrange(4)), depth)
        return '_'

    def scalar(self, type_):
        if self.often(0.25):
            low, high = self.bound(type_), self.bound(type_)
            low, high = (high, low) if self.later(low, high) else (low, high)
            return self.rng.choice([f'{low}..={high}', f'{low}..{high}', f'{low}..', f'..{high}', f'..={high}'])
        if self.constants and self.often(0.12):
            return self.rng.choice(self.constants)
        return self.literal(type_)

    def later(self, low, high):
        """two integers stand in the wrong order"""
        try:
            return int(low) > int(high)
        except ValueError:
            return False

    def bound(self, type_):
        return self.rng.choice(self.constants) if self.constants and self.often(0.15) else self.literal(type_)

    def literal(self, type_):
        kind, size, signed = self.m.types[type_][:3]
        if kind == BOOL:
            return self.rng.choice(['true', 'false'])
        if kind == CHAR:
            return self.rng.choice(CHARS)
        if kind != INTEGER:
            return '7'
        least, most = (-(1 << 8 * size - 1), (1 << 8 * size - 1) - 1) if signed == 1 else (0, (1 << 8 * size) - 1)
        value = self.rng.choice([0, 1, 2, 3, 7, 40, 100, least, most, least, -1 if signed else 5])
        if self.slips():
            value = self.rng.choice([-1, most + 1, least - 1])
        return str(min(max(value, -(1 << 127)), (1 << 128) - 1))

    def adt(self, v, depth):
        """a variant by one of its names, with its fields as they are declared or as a record"""
        if self.slips():
            v = self.rng.randrange(len(self.m.variants))
        path = self.rng.choice(self.variants[v])
        path = path.replace('::', self.gap().strip(' ') + '::') if self.often(0.1) else path
        at, count, _ = self.m.variants[v]
        types = self.m.list[at:at + count]
        tuple_like = count > 0 and self.fields[v, 0] == '0'
        if count == 0 or self.often(0.02):
            return path + self.rng.choice(['', '', '', '', ' {}', '()'] if self.slips() else [''])
        if tuple_like and self.often(0.85) or self.often(0.02):
            return self.listed(path + '(', types, ')', depth)
        return path + ' { ' + self.record(v, types, depth) + ' }'

    def record(self, v, types, depth):
        order = list(range(len(types)))
        self.rng.shuffle(order)
        kept = order if self.often(0.4) else order[:self.rng.randrange(len(order) + 1)]
        found = [self.field(self.fields[v, i], types[i], depth) for i in kept]
        if len(kept) < len(order) and self.often(0.97):
            found.append('..')
        return ', '.join(found)

    def field(self, name, type_, depth):
        if not name.isdigit() and not self.quiet and self.often(0.2):
            return self.rng.choice(['', '', 'ref ', 'mut ']) + name
        return f'{name}:{self.gap()}{self.pattern(type_, depth - 1)}'

    def listed(self, head, types, tail, depth):
        items = [self.pattern(t, depth - 1) for t in types]
        if self.slips():
            items.append('_')
        if self.often(0.25):
            at = self.rng.randrange(len(items) + 1)
            items[at:at + self.rng.randrange(3)] = ['..']
        return self.joined(head, items, tail, head == '(')

    def joined(self, head, items, tail, one_needs_comma):
        last = ',' if items and (one_needs_comma and len(items) == 1 and items != ['..'] or self.often(0.1)) else ''
        return head + (',' + self.gap()).join(items) + last + tail

    def slice(self, types, depth):
        items = [self.pattern(t, depth - 1) for t in types]
        items = [f'({item})' if item.endswith('..') and '@' not in item else item for item in items]
        if self.slips():
            items = items[1:]
        if self.often(0.4):
            at = self.rng.randrange(len(items) + 1)
            self.made += 1
            rest = '..' if self.quiet or self.often(0.5) else self.rng.choice(['', '', 'ref ', 'mut ', 'ref mut ']) + f'v{self.made} @ ..'
            items[at:at + self.rng.randrange(3)] = [rest]
        return self.joined('[', items, ']', False)


def chance_texts(seed, m, names, count, slip=0.03):
    """texts with the types that they are made for, none twice"""
    rng, seen = random.Random(seed), set()
    while len(seen) < count:
        maker = Texts(rng, m, names, rng.choice([0, 0, slip, 2 * slip]))
        type_ = rng.randrange(len(m.types))
        text = maker.text(type_, rng.choice([1, 2, 2, 3, 3, 4]))
        if (text, type_) not in seen and len(text) < 400:
            seen.add((text, type_))
            yield text.encode(), type_
