"""The corners of document 01 and of document 02: what they say of each is checked.

`CORNERS` has name and image of each: those of accepted.py, then those of refusals.py.
`python3 samples/corners.py` prints each name with its listing's first line, and then how
many there are.
"""

import sys

sys.dont_write_bytecode = True

import accepted as on
from accepted import FIRST_LINES
from counts import differences
from images import broken
from lowering import assign, listing, lower, root_type, statement_text, terminator_text
from refusals import REFUSALS

CORNERS = [(make.__name__.rstrip("_"), make()) for make in [*FIRST_LINES, *REFUSALS]]

LITERAL_7 = """\
then 1 else 2
local 0 t0
local 1 bool
bb 0
live 1
set 1 eq 07 copy 0
switch 1 1 1 2
bb 1
open
bb 2
open
"""

# What `[_, rest @ .., a, b]` binds.
REST_BOUND = ["live 1", "set 1 ref 0.s1-2", "live 2", "set 2 copy 0.e1", "live 3", "set 3 copy 0.e0"]


def lowered(make):
    """The body of a corner's last pattern."""
    m = make()
    return lower(m, len(m.patterns) - 1)


def sizes(make):
    """New blocks and new statements."""
    body = lowered(make)
    return len(body.terminators) - 1, len(body.created)


def statements(body):
    """All statements in the order they were made."""
    return [statement_text(statement) for _, statement in body.created]


def ends(make):
    """The terminator of every block."""
    return [terminator_text(terminator) for terminator in lowered(make).terminators]


def check_document():
    """What document 01 says of its own corners, beyond then and else."""
    assert sizes(on.wild) == (0, 0)
    assert listing(on.literal7().encode()) == LITERAL_7
    assert sizes(on.range_) == (3, 4)
    assert sizes(on.or_1_2) == (11, 8)
    assert ends(on.or_1_2)[11] == "unreachable"
    assert sizes(on.wild_or_2) == (2, 0) and lowered(on.wild_or_2).visits == [3, 0, 2]
    assert sizes(on.or_none) == (3, 0) and ends(on.or_none)[1] == "unreachable"
    assert ends(on.slice_two) == ["switch 2 2 2 1", "open", "open"]
    assert sizes(on.array) == (0, 2)
    assert statements(lowered(on.slice_any)) == [
        "live 1", "set 1 len 0", "live 2", "set 2 le 0000000000000000 copy 1"]
    assert ends(on.slice_any) == ["switch 2 1 2 1", "open", "open"]
    assert statements(lowered(on.tuple_ellipsis)) == [
        "live 1", "set 1 copy 0.f0", "live 3", "set 3 copy 0.f3",
        "live 2", "set 2 copy 0.f2"]
    assert lowered(on.tuple_ellipsis).visited == [3, 0, 2, 1] * 2
    assert lowered(on.ellipsis_2).visits == [2, 2, 2]
    assert lowered(on.surplus).visits == [2, 2, 0, 2]


def check_variants():
    """Each test of an enum has a discriminant local of its own, live in the test's block."""
    body = lowered(on.enum_twice)
    assert body.locals == [1] + ["i128"] * 4
    assert statements(body) == [
        line for local in range(1, 5) for line in (f"live {local}", f"set {local} discr 0")]
    assert [body.scopes, body.visits] == [[[1, 2, 3, 4]], [3, 3, 3, 2]]
    assert ends(on.enum_twice)[0] == "switch 1 1 2 3"
    assert ends(on.enum_twice)[3] == "switch 2 0 4 5"
    body = lowered(on.bind_some)
    assert body.statements == [[("live", 2), ("set", 2, ("discr", (0, ())))],
                               [("live", 1), ("set", 1, ("copy", (0, ())))], []]
    assert statements(lowered(on.record)) == [
        "live 2", "set 2 eq 07 copy 0.f0", "live 1", "set 1 mut 0.f1"]
    assert statements(lowered(on.struct_ellipsis))[-3:] == [
        "set 3 eq 01 copy 0.v0.f0", "live 1", "set 1 ref 0.v0.f2"]
    assert ends(on.struct_ellipsis)[0] == f"switch 2 {'f' * 32} 1 2"


def check_others():
    """Strings, constants, ranges, rests, derefs and the scope."""
    assert statements(lowered(on.string))[1] == f"set 1 eq {'00' * 8}03{'00' * 7} copy 0"
    assert statements(lowered(on.c_string))[1] == f"set 1 eq {'00' * 8}03{'00' * 7} copy 0"
    assert statements(lowered(on.constant)) == [
        "live 1", "set 1 05", "live 2", "set 2 eq copy 1 copy 0"]
    assert sizes(on.half_open) == (2, 2) and sizes(on.half_open_end) == (3, 4)
    assert statements(lowered(on.slice_rest_binding)) == [
        "live 4", "set 4 len 0", "live 5", "set 5 le 0300000000000000 copy 4"] + REST_BOUND
    assert statements(lowered(on.array_rest_binding)) == REST_BOUND
    assert statements(lowered(on.deref_1))[1] == "set 1 eq 01 copy 0.deref"
    assert lowered(on.deref_1).locals[0] == 1 and lowered(on.deref_lowest).locals[0] == 2
    assert lowered(on.nested_or).visits == [3, 4, 4, 3, 2, 2]
    assert lowered(on.or_of_binds).scopes == [[2, 3, 4, 1, 5]]
    assert len(lowered(on.blocks_512).terminators) == 512
    assert len(lowered(on.locals_512).locals) == 512
    assert len(lowered(on.statements_1024).created) == 1024
    assert len(lowered(on.test_locals_512).locals) == 512
    assert len(lowered(on.test_statements_1024).created) == 1024


def tests(make):
    """What is compared, measured or set to a place, in order, without the local that is set."""
    sets = [text.split(" ", 2) for text in statements(lowered(make)) if text.startswith("set ")]
    return [what for _, _, what in sets]


def check_reference():
    """What document 02 takes from the Reference: half-open ranges leave out their end, and items
    at the end of a slice pattern stand in the order of the text."""
    assert tests(on.half_open_end) == ["le 01 copy 0", "gt 03 copy 0"]
    assert tests(on.first_three) == ["le 01 copy 0", "gt 04 copy 0"]
    assert tests(on.half_open_to) == ["gt ff copy 0"]
    assert tests(on.half_open_char) == ["le 61000000 copy 0", "gt 64000000 copy 0"]
    assert tests(on.half_open_nothing) == ["le 03 copy 0", "gt 03 copy 0"]
    assert tests(on.flag_2) == tests(on.range_) == ["le 01 copy 0", "ge 03 copy 0"]
    assert tests(on.last_two)[2:] == ["copy 0.e1", "copy 0.e0"]
    assert tests(on.suffix_three)[2:] == [
        "eq 01 copy 0.i0", "eq 02 copy 0.e2", "le 03 copy 0.e0", "gt 05 copy 0.e0", "copy 0.e1"]
    assert tests(on.suffix_in_suffix) == ["eq 07 copy 0.e1.e1", "copy 0.e1.e2", "copy 0.e1.e0"]


def check_assignment():
    """pattern_match_assignment: no test but an Or's, and local bindings are assigned."""
    def assigned(name):
        m = dict(CORNERS)[name]
        return assign(m, len(m.patterns) - 1)
    assert statements(assigned("path_binding")) == ["set 1 copy 0.f0"]
    assert statements(assigned("path_other")) == [] == statements(assigned("lit_float"))
    assert statements(assigned("literal7")) == [] == statements(assigned("range"))
    assert statements(assigned("slice_rest_binding")) == REST_BOUND
    assert len(assigned("or_1_2").created) == 4 and assigned("or_1_2").then == 1
    refused = {"expr": 10, "unresolved": 13, "lit_other": 6, "missing": 3, "box": 6}
    for name, number in refused.items():
        assert assigned(name).refusal == (number, 0, 0), name


def check_handed():
    """9 and 14, which a call can meet and the listing program cannot."""
    m = on.slice_rest_binding()
    root = len(m.patterns) - 1
    assert lower(m, root, binding_locals=[None, 2, 3]).refusal == (9, 1, 0)
    assert lower(m, root, binding_locals=[1, None, 3]).refusal == (9, 3, 0)
    assert lower(m, root, scopes=0).refusal == (14, root, 0)
    m = on.array_rest_binding()
    assert lower(m, root, scopes=0).refusal == (14, root, 0)
    assert lower(m, root, binding_locals=[None, 2, 3], scopes=0).refusal == (9, 1, 0)
    assert lower(on.wild(), 0, scopes=0).refusal is None


def check():
    """Checks every corner, and answers how many there are."""
    for (name, image), line in zip(CORNERS, [*FIRST_LINES.values(), *REFUSALS.values()]):
        first = listing(image.encode()).splitlines()[0]
        assert first == line, (name, first, line)
        root = len(image.patterns) - 1
        if first.startswith("then"):
            body = lower(image, root)
            assert not differences(image, root, root_type(image, root), body), name
        else:
            assert listing(image.encode()) == line + "\n", name
            assert bool(broken(image.encode())) == (name == "invalid"), name
    check_document()
    check_variants()
    check_others()
    check_reference()
    check_assignment()
    check_handed()
    return len(CORNERS)


def main():
    """Prints each corner's first line, and how many were checked."""
    for name, image in CORNERS:
        print(f"{name}: {listing(image.encode()).splitlines()[0]}")
    print(check())


if __name__ == "__main__":
    main()
