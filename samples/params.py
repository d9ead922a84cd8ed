"""Judges lists of parameters: lowers them as `lower_params_and_bindings` of lower.rs does.

Written from lower.rs, from document 01 and from S-4, S-5 and S-13 of document 02 alone. `called` judges a
call: an image's bytes, the receiver and the words of a list. `PARAM_CORNERS` has the corners
of document 01 on parameters, and those of S-13: name, image, receiver, parameters and values
of each. A value is a number, or a list: "tuple" or the number of a variant, and then its
fields.

`python3 samples/params.py` prints the listing of each corner, with the bindings' locals.
`python3 samples/params.py -` answers the calls on standard input, one after the other. A call
is a byte, four big-endian bytes n, four big-endian bytes z, n bytes (the image is these and z
zero bytes), four big-endian bytes k, and k big-endian words: how many scopes are open (0 or 1), 1
or 0 for self or none, self's binding and type, and the list, a pattern and a type for each
parameter; fewer than four words name nothing. The start is block 0, open, no local, and no binding with a local. Further words:
`locals N`, N locals of type 0 are there before; `visits`, a line of visits behind the others;
`drop`, `drop_until_scope` of scope 0 comes after; `pop`, `pop_and_drop` comes after.
"""

import struct
import sys

sys.dont_write_bytecode = True

from accepted import BY_REF, VALUE, literal7
from builder import MOST_ENTRIES, MOST_LOCALS, Body, Refused
from images import (
    ABSENT, BIND, NAMES_VARIANT, PATH, REFERENCE, TUPLE, TUPLE_STRUCT, WILD, broken, decode,
)
from lowering import BIND_MODE, CHECK, Walk, body_lines
from refusals import option, with_u8

UNANNOTATED, MUTABLE, ANNOTATED = range(3)
MOST_PARAMS = 64


def plain_binding(m, p):
    """The binding of a parameter that is a Bind with no subpattern and annotation 0 or 1."""
    kind, _, _, binding, item, _, annotation = m.patterns[p]
    plain = kind == BIND and item == ABSENT and annotation in (UNANNOTATED, MUTABLE)
    return binding if plain else None


def binds_again(m, receiver, patterns):
    """S-13: some parameter is itself such a Bind of the receiver's binding."""
    return receiver is not None and any(plain_binding(m, p) == receiver[0] for p in patterns)


class Params(Walk):
    """lower_params_and_bindings, and the two calls that leave its scope."""

    def new_local(self, type_):
        """A local; no pattern is visited when it is made."""
        if len(self.body.locals) == MOST_LOCALS:
            raise Refused(11)
        self.body.locals.append(type_)
        return len(self.body.locals) - 1

    def param_local(self, type_):
        """A local, entered into the last scope."""
        local = self.new_local(type_)
        if not self.body.scopes:
            raise Refused(14)
        if self.body.entries() == MOST_ENTRIES:
            raise Refused(11)
        self.body.scopes[-1].append(local)
        self.body.params.append(local)
        return local

    def declare(self, receiver, params):
        """Locals for the receiver, the parameters and the bindings that are left."""
        if receiver:
            self.body.binding_locals[receiver[0]] = self.param_local(receiver[1])
        for p, type_ in params:
            local = self.param_local(type_)
            binding = plain_binding(self.m, p)
            if binding is not None:
                self.body.binding_locals[binding] = local
        for binding, (type_, picked) in enumerate(self.m.bindings):
            if picked == 1 and self.body.binding_locals[binding] is None:
                self.body.binding_locals[binding] = self.new_local(type_)

    def shut(self, following, other):
        """A parameter does not fail."""
        if other is not None:
            self.end(other, "unreachable")
        return following

    def lower(self, receiver, params):
        """All of it, from block 0 on."""
        self.declare(receiver, params)
        current, locals_ = 0, list(self.body.params)
        if receiver:
            locals_.pop(0)
        for local, (p, _) in zip(locals_, params):
            kind, binding = self.m.patterns[p][0], self.m.patterns[p][3]
            if kind == BIND and self.binding_local(binding, p) == local:
                continue
            place = local, ()
            current, other = self.inner(current, None, place, p, CHECK)
            current, other = self.inner(current, other, place, p, BIND_MODE)
            current = self.shut(current, other)
        return current

    def leave(self, block, entries):
        """The drop and the dead mark of each local, the last one first."""
        for local in reversed(entries):
            type_ = self.body.locals[local]
            if isinstance(type_, int) and self.m.types[type_][4] != 1:
                before, block = block, self.new_block(ABSENT)
                self.end(before, "drop", local, block)
            self.push(block, ("dead", local), ABSENT)
        return block

    def drop(self, block):
        """drop_until_scope of scope 0"""
        return self.leave(block, [local for scope in self.body.scopes for local in scope])

    def pop(self, block):
        """pop_and_drop"""
        if not self.body.scopes:
            raise Refused(14)
        return self.leave(block, self.body.scopes.pop())


def lower_params(m, receiver, params, before=0, scopes=1, after=None):
    """The body, from block 0 open and no binding with a local.

    `before` is how many locals of type 0 there are, `after` the name of a call that follows.
    """
    body = Body(m, 0, scopes=scopes)
    body.locals, body.binding_locals, body.params = [0] * before, [None] * len(m.bindings), []
    walk = Params(m, body)
    try:
        body.then = walk.lower(receiver, params)
        if after:
            body.then = getattr(walk, after)(body.then)
    except Refused as refused:
        body.refusal = refused.numbers
    return body


def list_holds(m, receiver, words):
    """At most 64 parameters, each of which names a pattern and a type; none binds self again."""
    return (len(words) % 2 == 0 and len(words) // 2 <= MOST_PARAMS
            and all(p < len(m.patterns) for p in words[::2])
            and all(type_ < len(m.types) for type_ in words[1::2])
            and not binds_again(m, receiver, words[::2]))


def called(image, scopes, receiver, words, **handed):
    """The image and the body of a call, or its three numbers, for 1 and 2."""
    if broken(image) or not list_holds(decode(image), receiver, words):
        return None, (1, ABSENT, 0)
    m = decode(image)
    if receiver and not (receiver[0] < len(m.bindings) and receiver[1] < len(m.types)):
        return None, (2, ABSENT, 0)
    params = list(zip(words[::2], words[1::2]))
    body = lower_params(m, receiver, params, scopes=scopes, **handed)
    return body, body.refusal


def lines_of(body, visits):
    """The lines of a body that is accepted."""
    yield from body_lines(body)
    yield " ".join(["params", *map(str, body.params)])
    yield " ".join(["bindings", *("-" if local is None else str(local)
                                  for local in body.binding_locals)])
    yield " ".join(["entries", *(str(local) for scope in body.scopes for local in scope)])
    if visits:
        yield " ".join(["visits", *map(str, body.visits)])


def answered(given, visits=False, **handed):
    """The answers to the calls of a list of bytes."""
    place = 0
    while place < len(given):
        _, kept, zeros = struct.unpack_from(">BII", given, place)
        image = given[place + 9:place + 9 + kept] + bytes(zeros)
        place += 9 + kept
        count, = struct.unpack_from(">I", given, place)
        words = struct.unpack_from(f">{count}H", given, place + 4)
        place += 4 + 2 * count
        if count < 4:
            yield f"refused {1 if broken(image) else 2} 65535 0"
            continue
        scopes, own, binding, type_, *words = words
        receiver = (binding, type_) if own else None
        body, refusal = called(image, scopes, receiver, words, **handed)
        yield from ("refused {} {} {}".format(*refusal),) if refusal else lines_of(body, visits)


def plain():
    """`x`."""
    m, u8 = with_u8()
    x = m.add_pattern(BIND, u8, m.add_binding(u8), ABSENT, VALUE, UNANNOTATED)
    return m, None, [(x, u8)], [5]


def mutable():
    """`mut x`."""
    m, u8 = with_u8()
    x = m.add_pattern(BIND, u8, m.add_binding(u8), ABSENT, VALUE, MUTABLE)
    return m, None, [(x, u8)], [5]


def some_in(m, u8, maybe, some):
    """`Some(_)`."""
    inner = m.add_pattern(WILD, u8)
    return m.add_pattern(TUPLE_STRUCT, maybe, m.add_words(inner), 1, ABSENT, some)


def bound_some():
    """`x @ Some(_)`."""
    m, u8, maybe, some, _ = option()
    item = some_in(m, u8, maybe, some)
    x = m.add_pattern(BIND, maybe, m.add_binding(maybe), item, VALUE, UNANNOTATED)
    return m, None, [(x, maybe)], [[some, 5]]


def by_reference():
    """`ref x`."""
    m, u8 = with_u8()
    x = m.add_pattern(BIND, u8, m.add_binding(m.add_type(REFERENCE, u8)), ABSENT, BY_REF, ANNOTATED)
    return m, None, [(x, u8)], [5]


def refutable():
    """`7`: a parameter that can fail."""
    m = literal7()
    return m, None, [(len(m.patterns) - 1, m.patterns[-1][1])], [7]


def two_enums():
    """`Some(_)` and `None`: two parameters that can fail, each with a discriminant local of its own."""
    m, u8, maybe, some, none = option()
    first = some_in(m, u8, maybe, some)
    second = m.add_pattern(PATH, maybe, NAMES_VARIANT, none)
    return m, None, [(first, maybe), (second, maybe)], [[some, 5], [none]]


def receiver_and_pair():
    """`self`, `(a, _)` and `b`: the tuple alone is lowered."""
    m, u8 = with_u8()
    pair, me = m.add_tuple_type(u8, u8), m.add_binding(u8)
    items = [m.add_pattern(BIND, u8, m.add_binding(u8), ABSENT, VALUE, UNANNOTATED),
             m.add_pattern(WILD, u8)]
    first = m.add_pattern(TUPLE, pair, m.add_words(*items), 2, ABSENT)
    second = m.add_pattern(BIND, u8, m.add_binding(u8), ABSENT, VALUE, UNANNOTATED)
    return m, (me, u8), [(first, pair), (second, u8)], [9, ["tuple", 2, 3], 4]


def receiver_and(*makes):
    """`self` of a u8, and parameters of its type, each made from image, type and self's binding."""
    m, u8 = with_u8()
    me = m.add_binding(u8)
    params = [(make(m, u8, me), u8) for make in makes]
    return m, (me, u8), params, [9] + [4] * len(params)


def wild(m, u8, _):
    """`_`"""
    return m.add_pattern(WILD, u8)


def bind(item=None, mode=VALUE, annotation=UNANNOTATED, derefs=0):
    """A Bind of self's binding, of this shape."""
    def make(m, u8, me):
        below = ABSENT if item is None else item(m, u8, me)
        return m.add_pattern(BIND, u8, me, below, mode, annotation, derefs=derefs)
    return make


def bound_twice():
    """`self` and `x` with one binding: number 1."""
    return receiver_and(bind())


def bound_first():
    """`self`, `x` and `_`, self and x with one binding: number 1."""
    return receiver_and(bind(), wild)


def bound_last():
    """`self`, `_` and `mut x` with one binding: the last parameter is looked at too."""
    return receiver_and(wild, bind(annotation=MUTABLE))


def bound_by_mode():
    """`self` and an `x` whose mode is by reference: the mode is not asked for."""
    return receiver_and(bind(mode=BY_REF))


def bound_behind():
    """`self` and an `x` behind a reference: the derefs are not asked for."""
    m, u8 = with_u8()
    there = m.add_type(REFERENCE, u8)
    me = m.add_binding(there)
    x = m.add_pattern(BIND, u8, me, ABSENT, BY_REF, UNANNOTATED, derefs=1)
    return m, (me, there), [(x, there)], [9, 4]


def bound_annotated():
    """`self` and `ref x` with one binding: taken, and self's local is filled."""
    return receiver_and(bind(mode=BY_REF, annotation=ANNOTATED))


def bound_at():
    """`self` and `x @ _` with one binding: taken."""
    return receiver_and(bind(item=wild))


def bound_below():
    """`self` and `(x, _)` with one binding: taken, for x is no parameter itself."""
    m, u8 = with_u8()
    pair, me = m.add_tuple_type(u8, u8), m.add_binding(u8)
    items = [bind()(m, u8, me), m.add_pattern(WILD, u8)]
    first = m.add_pattern(TUPLE, pair, m.add_words(*items), 2, ABSENT)
    return m, (me, u8), [(first, pair)], [9, ["tuple", 2, 3]]


def bound_without_self():
    """`x` and `x` with one binding, and no self: the last one's local wins."""
    m, _, params, values = receiver_and(bind(), bind())
    return m, None, params, values[1:]


# These bind one binding twice, and do not fit.
UNFIT = ("bound_twice", "bound_first", "bound_last", "bound_by_mode", "bound_behind",
         "bound_annotated", "bound_at", "bound_below", "bound_without_self")

PARAM_CORNERS = [(make.__name__, *make()) for make in (
    plain, mutable, bound_some, by_reference, refutable, two_enums, receiver_and_pair,
    bound_twice, bound_first, bound_last, bound_by_mode, bound_behind, bound_annotated, bound_at,
    bound_below, bound_without_self)]


def corners():
    """Prints each corner."""
    for name, m, receiver, params, _ in PARAM_CORNERS:
        assert not broken(m.encode()), name
        if binds_again(m, receiver, [p for p, _ in params]):
            print(name, "refused 1")
            continue
        body = lower_params(m, receiver, params)
        print(name, "bindings", body.binding_locals, "visits", body.visits)
        print("".join(f"  {line}\n" for line in body_lines(body)), end="")


def main():
    """Prints the corners, or the answers to the calls on standard input."""
    words = sys.argv[1:]
    if not words:
        corners()
        return
    before = int(words[words.index("locals") + 1]) if "locals" in words else 0
    after = next((word for word in words if word in ("drop", "pop")), None)
    given = sys.stdin.buffer.read()
    for line in answered(given, "visits" in words, before=before, after=after):
        print(line)


if __name__ == "__main__":
    main()
