"""Scripts of calls on one drop per local: what a live mark records where a scope holds its local.

Each has a name, what it shows, its commands in the notation of `call_notation.py`, and the
answers to its calls. Those of `HELD` are on the image of `match_corners.py`, those of `NAME_LIST`
on the sample `name_list`.
"""

from match_corners import BEGUN, HANDED

# The bindings' locals are 0, the boat, which is not copy, and 2.
BOAT = f"{BEGUN}; binding 0: 0"

HELD = [
    ("held_last", "A local that the last scope holds before the call is not recorded again, and leaves once.",
     f"{BOAT}; entries=1; match bind 0 1; self x 0 6; until 0 0; pop 2; pop 0",
     "now, then 0 else 1, then 0 else -, block 2, block 3, refused 14"),
    ("held_outer", "One that an outer scope holds leaves with that one, not with the scope of its last live mark.",
     f"{BOAT}; entries=1; push; match bind 0 1; until 1 0; until 0 0; pop 2; pop 2",
     "now, now, then 0 else 1, block 0, block 2, block 2, block 3"),
    ("held_outermost", "The first of four scopes holds one local, the third the other: both are found.",
     f"{BOAT}; entries=1; push; push; entries=2; entry 1: 2; push; place 3; match row 0 1; self x 2 6; until 3 2; pop 2; "
     "until 2 2; pop 2; pop 2; until 0 2; pop 3",
     "now, now, now, now, then 2 else 1, then 2 else -, block 2, block 2, block 2, block 2, block 2, block 3, block 4"),
    ("held_again", "Marked live twice in a scope, recorded once; in a later scope it is recorded again.",
     f"{BOAT}; match bind 0 1; match bind 0 1; pop 0; push; match bind 2 1; pop 2",
     "now, then 0 else 1, then 0 else 1, block 2, now, then 2 else 1, block 3"),
    ("held_assumed", "A scope that is assumed dropped no longer holds a local.",
     f"{BOAT}; push; match bind 0 1; assume; match bind 0 1; pop 0",
     "now, now, then 0 else 1, now, then 0 else 1, block 2"),
    ("held_twice", "Scopes that hold a local twice are taken, and stay so: it leaves twice.",
     f"{BOAT}; entries=1; push; entries=3; match bind 0 1; until 0 0; pop 4; pop 0",
     "now, now, then 0 else 1, block 4, block 6, block 7"),
    ("held_between", "Other entries stand before and behind the one that is found.",
     f"{BOAT}; entries=5; entry 0: 3 4 0 7 8; match bind 0 1; self y 0 6; until 0 0",
     "now, then 0 else 1, then 0 else -, block 3"),
    ("held_full", "A full table of entries refuses the live mark of a local that no scope holds, and no other one.",
     f"{BEGUN}; entries=1024; self x 0 6; entry 1023: 1; self x 0 6; match bind 0 1; self y 0 6; match seven 0 1; "
     "entry 1023: 0; push; match bind 0 1; entry 0: 1; match bind 0 1; self y 0 6",
     "now, refused 11 65535, then 0 else -, then 0 else 1, refused 11 65535, refused 11 1, "
     "now, refused 11 3, then 0 else 1, refused 11 65535"),
    ("held_statements", "The 1,024th statement may be the live mark of a local that a scope holds; the next is 11.",
     f"{BEGUN}; local 0: u8; entries=1021; until 0 0; entries=1; entry 0: 1; self x 0 6; self x 0 6; match bind 0 1",
     "now, block 0, then 0 else -, refused 11 65535, refused 11 3"),
    ("held_no_scope", "Without a scope nothing is held, whatever lies above the counts: 14.",
     f"{HANDED}; entry 0: 1; self x 0 6; match bind 0 1; push; self x 0 6; pop 0",
     "refused 14 65535, refused 14 3, now, then 0 else -, block 0"),
    ("held_above", "What lies above the counts holds nothing.",
     f"{BOAT}; entry 0: 9 0; match bind 0 1; pop 0",
     "now, then 0 else 1, block 2"),
    ("held_one_local", "Two bindings of one local record it once.",
     f"{BEGUN}; binding 0: 0 0; self x 0 6; self y 0 6; pop 0",
     "now, then 0 else -, then 0 else -, block 2"),
    ("held_temporary", "A temporary is recorded whatever the scopes hold.",
     f"{BOAT}; entries=3; temp boat 0; push; temp boat 0; until 0 0",
     "now, local 9, now, local 10, block 6"),
]

# Local 0 a crew, local 1 the name list.
CREW = "blocks=1; locals=2; local 0: crew names; binding 0: 1; bound=1; place 0"

NAME_LIST = [
    ("name_list_once", "Two alternatives bind a name list that is not copy: it is dropped once.",
     f"{CREW}; push; match either 0 -; pop 7",
     "now, then 7 else 6, block 12"),
    ("name_list_outer", "The same in an inner scope, where an outer one holds it: it leaves with the outer one.",
     f"{CREW}; push; entries=1; entry 0: 1; push; match either 0 -; pop 7; pop 7",
     "now, now, then 7 else 6, block 7, block 12"),
    ("name_list_twice", "Matched again in a scope of its own, and all is left from the end.",
     f"{CREW}; push; match either 0 -; push; match either 7 6; until 0 17; until 1 22; pop 22; pop 6",
     "now, then 7 else 6, now, then 17 else 6, block 22, block 22, block 22, block 23"),
]
