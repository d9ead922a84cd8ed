"""Scripts of calls: document 01's corners, the limits, restoration, zeros above the counts.

Each has a name, what it shows, its commands in the notation of `call_notation.py`, and the
answers to its calls; `..` in front of these leaves out the first ones.
"""

from call_notation import rubbish, with_counts

CORNERS = [
    ("until_count", "An index equal to the scope count does nothing, one more is 14.",
     "blocks=1; push; push; temp boat 0; until 2 0; until 3 0; until 65535 0",
     "now, now, local 0, block 0, refused 14, refused 14"),
    ("until_none", "Without a scope the index 0 is the scope count.",
     "blocks=1; until 0 0; until 1 0",
     "block 0, refused 14"),
    ("drop_not_copy", "A local that is not copy makes a block: Drop, then StorageDead there.",
     "blocks=1; push; temp boat 0; pop 0",
     "now, local 0, block 1"),
    ("dead_copy", "A copy local is only marked dead, where it is: u8, a reference, the words.",
     "blocks=1; push; temp u8 0; temp ref 0; temp bool 0; temp usize 0; temp i128 0; pop 0",
     "now, local 0, local 1, local 2, local 3, local 4, block 0"),
    ("last_first", "Locals leave last first, of the last scope and of all.",
     "blocks=1; push; temp u8 0; temp boat 0; temp str 0; push; temp array 0; temp ref 0; "
     "temp wind 0; until 0 0; until 1 0; pop 5; pop 0",
     ".. block 4, block 6, block 8, block 10"),
    ("copy_flag", "Only the flag 1 says copy.",
     "blocks=1; push; temp array 0; pop 0",
     "now, local 0, block 1"),
    ("temp_slice", "A temporary of a slice is 8, copy or not, one of str is taken.",
     "blocks=1; push; temp slice 0; temp copySlice 0; temp str 0",
     "now, refused 8, refused 8, local 0"),
    ("kind_12", "A row of kind 12, gt, is taken with a constant and with a local, one of 13 is not.",
     "blocks=1; locals=2; statements=2; statement 0: 0 12 1 2 1 u8; statement 0.15: 0 1 3; "
     "statement 1: 0 12 1 1 1; statement 1.15: 0; push; temp u8 0; pop 0; statement 1.1: 13; push; "
     "statement 1.1: 12; statement 0.1: 13; push; statement 0.1: 12; push",
     "now, local 2, block 0, refused 2, refused 2, now"),
    ("place_16", "A place of 16 elements is taken, of 17 and of 65535 refused.",
     "blocks=1; locals=1; statements=1; statement 0: 0 3 0; statement 0.15: 0 16; push; "
     "statement 0.16: 17; push; statement 0.16: 65535; push",
     "now, refused 2, refused 2"),
    ("no_scope", "Without a scope: 14 for what needs one.",
     "blocks=1; temp u8 0; pop 0; assume; merge 0 -; push; temp u8 0; assume; assume",
     "refused 14, refused 14, refused 14, block 0, now, local 0, now, refused 14"),
    ("merge_two", "Two blocks go on at a new one.",
     "blocks=2; merge 0 1; merge 1 0; merge 2 3",
     "block 2, block 3, block 4"),
    ("merge_itself", "A block is merged with itself.",
     "blocks=1; merge 0 0; merge 1 1",
     "block 1, block 2"),
    ("merge_none", "One block, or none, stays what it is.",
     "blocks=2; merge 1 -; merge - 1; merge - -; merge 0 -",
     "block 1, block 1, block -, block 0"),
    ("merge_no_blocks", "A body of no blocks has none to merge.",
     "merge - -; merge 0 -; merge - 0; merge 0 0",
     "block -, refused 2, refused 2, refused 2"),
    ("over_switch", "A switch is overwritten whole: by a goto, by a Drop.",
     "blocks=3; locals=1; block 0: 2 0 1 2 1 2 3 4 5 6 7 8; "
     "block 1: 2 0 2 0 8 7 6 5 4 3 2 65535; merge 0 2; push; temp boat 1; pop 1",
     "block 3, now, local 1, block 4"),
    ("over_others", "Goto, unreachable and Drop are overwritten too; a copy local leaves them.",
     "blocks=4; locals=1; block 0: 1 0 3; block 1: 3; block 2: 4 0 3; push; temp u8 1; "
     "pop 1; merge 0 1; push; temp boat 2; pop 2; merge 1 3",
     "now, local 1, block 1, block 4, now, local 2, block 5, block 6"),
    ("same_twice", "A local that stands twice in a scope leaves twice.",
     "blocks=1; locals=1; local 0: 3; push; entries=3; pop 0",
     "now, block 3"),
    ("scopes_keep", "Scopes stay open when their locals leave, and may be left again.",
     "blocks=1; push; temp boat 0; until 0 0; until 0 1; temp u8 2; pop 2; pop 0",
     "now, local 0, block 1, block 2, local 1, block 3, refused 14"),
    ("empty_scopes", "Scopes without entries close and leave without a trace.",
     "blocks=1; 3 x push; temp u8 0; 2 x push; until 3 0; pop 0; assume; until 2 0; pop 0; "
     "pop 0; assume; pop 0",
     ".. now, block 0, block 0, now, block 0, block 0, block 0, now, refused 14"),
    ("assume_entries", "A scope whose locals have left goes with its entries.",
     "blocks=1; push; temp u8 0; push; temp boat 0; temp u8 0; assume; temp u8 0; pop 0",
     "now, local 0, now, local 1, local 2, now, local 3, block 0"),
    ("other_block", "A temporary is live, and leaves, in the block that the call names.",
     "blocks=3; push; temp u8 2; temp boat 1; temp u8 0; until 0 1",
     "now, local 0, local 1, local 2, block 3"),
    ("unused_words", "Words that a row's kind does not use are not looked at.",
     "blocks=2; locals=1; statements=3; block 0: 0 9 9 9 9; block 1: 3 9 9 9 9; "
     "statement 0: 0 1 0 9 9 9 9; statement 0.15: 9 99 7 7; statement 1: 0 3 0 9 9 9; "
     "statement 1.15: 0 1 0 0 7; statement 2: 0 8 0 2 1 0; statement 2.15: 9 99 7 7; "
     "push; merge 0 1",
     "now, block 2"),
]

LIMITS_REACHED = [
    ("block_512", "The 512th block is taken, the next is 11.",
     "blocks=511; merge 0 510; merge 0 510; merge 511 -; merge - -",
     "block 511, refused 11, block 511, block -"),
    ("statement_1024", "The 1,024th statement is taken, the next is 11: marked live.",
     "blocks=1; locals=1; scopes=1; entries=1023; until 0 0; entries=0; temp u8 0; temp u8 0; "
     "push; temp u8 0; statements=1025; push",
     "block 0, local 1, refused 11, now, refused 11, refused 2"),
    ("dead_1024", "The 1,024th statement is taken, the next is 11: marked dead.",
     "blocks=1; locals=1; scopes=1; entries=1024; until 0 0; until 0 0; until 1 0; entries=1; "
     "until 0 0; pop 0; statements=1023; pop 0",
     "block 0, refused 11, block 0, refused 11, refused 11, block 0"),
    ("local_512", "The 512th local is taken, the next is 11.",
     "blocks=1; scopes=1; locals=511; temp boat 0; temp u8 0; pop 0",
     "local 511, refused 11, block 1"),
    ("entry_1024", "The 1,024th entry is taken, the next is 11.",
     "blocks=1; locals=1; scopes=1; entries=1023; temp u8 0; temp u8 0; push; temp u8 0; "
     "assume; assume; push; temp u8 0",
     "local 1, refused 11, now, refused 11, now, now, now, local 2"),
    ("scope_32", "The 32nd scope is taken, the next is 11.",
     "scopes=31; push; push; assume; push",
     "now, refused 11, now, now"),
    ("drop_512", "The 512th block by a Drop is taken, the next is 11.",
     "blocks=511; push; temp boat 3; until 0 3; until 0 511; pop 511; assume",
     "now, local 0, block 511, refused 11, refused 11, now"),
    ("all_blocks", "Block by block to the limit.",
     "blocks=1; 512 x merge 0 0",
     ".. block 510, block 511, refused 11"),
    ("all_scopes", "Scope by scope to the limit, and back.",
     "33 x push; 33 x assume",
     ".. now, now, refused 14"),
    ("all_locals", "Local by local to the limit; they leave, and again: 1,536 are too many.",
     "blocks=1; push; 513 x temp u8 0; until 0 0; until 0 0; assume",
     ".. local 511, refused 11, block 0, refused 11, now"),
    ("all_dropped", "So many locals that are not copy leave as there are blocks for.",
     "blocks=1; push; locals=1; local 0: 3; entries=511; until 0 0; pop 511; entries=0; pop 0",
     "now, block 511, refused 11, block 0"),
    ("order_temp", "temp: 2, then 8, then 11 for locals, then 14, then 11 for statements.",
     "blocks=1; locals=512; temp slice 1; temp slice 0; temp u8 0; locals=511; temp slice 0; "
     "temp u8 0; scopes=1; entries=1024; until 0 0; scopes=0; entries=0; temp u8 0; scopes=1; "
     "temp u8 0; statements=1023; temp u8 0; temp u8 0",
     "refused 2, refused 8, refused 11, refused 8, refused 14, block 0, refused 14, "
     "refused 11, local 511, refused 11"),
    ("order_drop", "pop_and_drop and drop_until_scope: 2 before 14.",
     "blocks=1; pop 1; pop 0; assume; until 1 1; until 1 0; until 0 1",
     "refused 2, refused 14, refused 14, refused 2, refused 14, refused 2"),
]

SWITCH = "block 0: 2 0 1 2 1 2 3 4 5 6 7 8"
RESTORED = [
    ("pop_blocks", "Blocks run out after some locals left: the switch is there again.",
     f"blocks=510; locals=3; local 0: 3 0 3; {SWITCH}; push; entries=7; entry 0: 0 1 2 0 1 2; "
     "pop 0; until 0 0; blocks=508; pop 0; until 0 0; blocks=507; pop 0",
     "now, refused 11, refused 11, refused 11, refused 11, block 511"),
    ("pop_statements", "Statements run out behind a Drop; two locals less just fit.",
     f"blocks=3; locals=2; local 0: 0 3; {SWITCH}; push; entries=1020; until 0 0; entries=6; "
     "entry 0: 0 1 0 1 1 0; pop 0; until 0 0; entries=4; entry 0: 0 1 0 1; pop 0",
     "now, block 0, refused 11, refused 11, block 4"),
    ("until_blocks", "Blocks run out in the outer scope: nothing of the inner one stays.",
     f"blocks=510; push; temp boat 0; temp u8 0; push; temp wind 0; temp u8 0; temp str 0; "
     f"{SWITCH}; until 0 0; until 1 0; until 0 511; until 2 511",
     ".. local 4, refused 11, block 511, refused 11, block 511"),
    ("until_statements", "Statements run out in the outer scope; the inner one just fits.",
     f"blocks=3; locals=2; local 0: 0 3; {SWITCH}; push; entries=1021; until 0 0; entries=1; "
     "push; entries=4; entry 0: 1 1 0 1; until 0 0; until 1 0; until 2 4; until 1 4",
     "now, block 0, now, refused 11, block 4, block 4, refused 11"),
    ("temp_statement", "temp has a local and an entry when the statement is refused.",
     "blocks=1; locals=1; scopes=1; entries=1022; until 0 0; entries=2; until 0 0; "
     "temp u8 0; temp boat 0; push; temp i128 0",
     "block 0, block 0, refused 11, refused 11, now, refused 11"),
    ("temp_entry", "temp has a local when the scope or the entry is refused.",
     "blocks=1; locals=1; temp boat 0; scopes=1; entries=1024; temp boat 0; temp i128 0",
     "refused 14, refused 11, refused 11"),
]

# Counts, a call on such a body with words above the counts, and its answer.
ABOVE = [
    ((2, 0, 1, 1, 0), "temp u8 0", "local 1"),
    ((2, 0, 1, 1, 0), "merge 0 1", "block 2"),
    ((2, 0, 1, 1, 0), "merge 0 -", "block 0"),
    ((0, 0, 0, 0, 0), "merge - -", "block -"),
    ((0, 0, 0, 0, 0), "push", "now"),
    ((2, 0, 1, 2, 3), "assume", "now"),
    ((2, 0, 1, 2, 3), "pop 1", "block 1"),
    ((2, 0, 1, 1, 3), "local 0: 3; pop 1", "block 4"),
    ((2, 0, 1, 1, 3), "until 0 1", "block 1"),
    ((2, 0, 1, 1, 3), "until 1 1", "block 1"),
    ((2, 0, 1, 1, 3), "temp slice 0", "refused 8"),
    ((1, 0, 512, 1, 3), "temp u8 0", "refused 11"),
    ((1, 0, 1, 1, 1024), "temp u8 0", "refused 11"),
    ((512, 0, 1, 1, 3), "merge 0 1", "refused 11"),
    ((510, 0, 1, 1, 3), "local 0: 3; pop 0", "refused 11"),
    ((510, 0, 1, 1, 3), "local 0: 3; until 0 0", "refused 11"),
    ((2, 0, 1, 32, 3), "push", "refused 11"),
    ((1, 0, 1, 0, 0), "temp u8 0", "refused 14"),
    ((1, 0, 1, 0, 0), "assume", "refused 14"),
    ((1, 0, 1, 0, 0), "pop 0", "refused 14"),
    ((1, 0, 1, 1, 3), "until 2 0", "refused 14"),
    ((2, 0, 1, 1, 3), "temp 99 0", "refused 2"),
    ((2, 0, 1, 1, 3), "temp slice 2", "refused 2"),
    ((2, 0, 1, 1, 3), "merge 2 0", "refused 2"),
    ((2, 0, 1, 1, 3), "pop 2", "refused 2"),
    ((2, 0, 1, 1, 3), "until 2 2", "refused 2"),
    ((2, 0, 0, 1, 3), "assume", "refused 2"),
    ((2, 0, 0, 1, 3), "push", "refused 2"),
]


def above_scripts():
    """Words that lie above the counts: cleared, but not by a refusal of 2."""
    for number, (counts, call, answer) in enumerate(ABOVE):
        what = "stays" if answer == "refused 2" else "becomes 0"
        yield (f"above_{number}", f"What lies above the counts {what}: {call}.",
               f"{with_counts(counts)}; {rubbish(counts)}; {call}", answer)


SCRIPTS = CORNERS + LIMITS_REACHED + RESTORED + list(above_scripts())
