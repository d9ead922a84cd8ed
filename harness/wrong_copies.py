#!/usr/bin/env python3
"""Does the comparison find errors of the Rattle code? Changes it in one place, and compares.

`wrong_copies.py [NAME..]` copies the crates to a temporary folder, makes one change there,
compiles replay without a proof and makes the quick run's comparison of listings, of
parameters or of calls on patterns with it, or has it replay the stored lists. A line for each
change says how many images, calls or lines differ; it fails if a change is not found. The
harness must be built. NAMEs choose changes. Before anything is compiled each text that a change
is of is looked for: it must stand exactly once in its file. With `--check` nothing else is done.
"""

import shutil
import subprocess
import sys
import tempfile
from itertools import zip_longest
from pathlib import Path

HERE = Path(__file__).resolve().parent
REPOSITORY = HERE.parent
COMPARE = HERE / "target/release/compare"

# What the program answers is compared with these words of `compare`.
LISTINGS, PARAMETERS = ("run", "--counts"), ("parameters",)
# What it prints is compared with what is stored, and what it prints for scripts on patterns with the
# lines of samples/calls.py and with what the Rust makes of each call.
STORED, SCRIPTS = (), ("calls",)
# So many scripts, from this seed.
SCRIPT_COUNT, SCRIPT_SEED = 400, 1851

# Edits that the prover must refuse, of crates that the program stands on, whose effect a listing
# shows: crates/CRATE/must-fail/LABEL.edit.
REFUSED = (
    "pattern_switching/switch_turned_round",
    "pattern_ranges/then_before_else",
    "pattern_range_ends/gt_on_a_closed_range",
    "pattern_range_ends/le_for_a_half_open_end",
    "listing_terminators/switch_exchanged",
    "pattern_items/an_arrays_length_tested",
    "pattern_items/suffix_item_from_the_front",
    "pattern_items/suffix_item_one_too_far",
    "pattern_items/suffix_items_reversed",
    "pattern_alternatives/an_alternative_after_a_sure_one",
    "pattern_idle/a_range_not_tested",
    "refusal_numbers/reason_of_a_type_error_lost",
    "listing_start/bindings_from_local_two",
    "listing_start/type_zero_not_tried",
    "literals/integer_of_any_size",
    "literals/lower_half_twice",
    "body_temps/str_for_slice",
    "body_temps/an_earlier_local_used_again",
    "body_live_marks/live_in_the_next_block",
    "mir/next_block_terminated",
    "read_image/one_pattern_more",
    "marks/second_use",
    "scalar_values/char_that_is_no_scalar_value",
)

# The same of what the calls on parameters stand on besides.
REFUSED_OF_PARAMETERS = (
    "param_plain/ref_x_by_the_parameters_own_local",
    "param_lists/only_the_first_parameter_looked_at",
    "param_plain/annotation_2_binds_self_again",
    "param_plain/a_subpattern_binds_self_again",
    "param_entries/local_missing_from_its_scope",
    "param_shutting/else_left_open",
    "params_lines/bindings_and_entries_exchanged",
    "params_start/a_scope_where_none_is_asked",
    "params_start/scope_by_the_word_of_self",
    "params_start/self_not_counted",
)

# The same of what only calls on patterns show: with an else, a projection, visits, several scopes.
REFUSED_OF_MATCHES = (
    "handed/seventeen_elements",
    "handed/else_equal_to_the_start",
    "self_param_call/self_by_reference",
    "pattern_entering/a_visit_not_counted",
    "place_parts/variant_behind_the_last",
)

# Where it is looked whether a scope holds a local: a file and its text.
HELD = "body_live_marks/src/lib.rt", "    let held = is_held(body, counts, l);\n"
LOOKED_AT = "body_locals/src/lib.rt", "    for entry in &entries[..count] {\n"

# What a call on a pattern answers where the walk is done.
MATCHED = "        Ok((c, then, other)) => Ok((c, then, other)),\n"
# Further changes that only these show: a name, the file below crates/, the text, and what it becomes.
OF_MATCHES = (
    ("the else that is supplied is not taken", "pattern_passes/src/lib.rt",
     "        MatchingMode::Check,\n        p,\n        current,\n        els,\n",
     "        MatchingMode::Check,\n        p,\n        current,\n        None,\n"),
    ("the projection that is handed in is dropped", "pattern_match_call/src/lib.rt",
     "    match_step(\n        image, tables, bindings, body, visits, counts, p, current, els, place,\n",
     "    match_step(\n        image, tables, bindings, body, visits, counts, p, current, els, Place { local: place.local, len: 0, elems: [0u32; 16] },\n"),
    ("what is live enters the scope before the last", "pattern_match_call/src/lib.rt", MATCHED,
     "        Ok((c, then, other)) => {\n"
     "            if 1 < counts.scopes {\n                body[body_tables::SCOPES + ((counts.scopes - 1) as usize)] = c.entries;\n            }\n"
     "            Ok((c, then, other))\n        }\n"),
    ("the visits of an assignment are not counted", "pattern_assignment_call/src/lib.rt", MATCHED,
     "        Ok((c, then, other)) => {\n"
     "            clear_from(visits, 0);\n            Ok((c, then, other))\n        }\n"),
    ("an assignment is always refused", "pattern_assignment_call/src/lib.rt",
     "p, current, None, place) {\n", "p, current, Some(current), place) {\n"),
    ("the start stays ended after a refusal", "pattern_match_call/src/lib.rt",
     "            put_back(body, current, row);\n", ""),
    ("a part of an array has no last element", "place_types/src/lib.rt",
     "ProjectionElem::IndexFromEnd(_) => PlaceTy::Ty(t),",
     "ProjectionElem::IndexFromEnd(_) => PlaceTy::Inapplicable,"),
    ("a held local is recorded again", *HELD, "    let held = false;\n"),
    ("no binding's local is recorded", *HELD, "    let held = true;\n"),
    ("the last entry alone is looked at", *LOOKED_AT, "    for entry in &entries[count.saturating_sub(1)..count] {\n"),
    ("the first entry alone is looked at", *LOOKED_AT, "    for entry in &entries[..count.min(1)] {\n"),
    ("the last entry is not looked at", *LOOKED_AT, "    for entry in &entries[..count.saturating_sub(1)] {\n"),
    ("entries above the count are looked at", "body_locals/src/lib.rt",
     "    let count = (counts.entries as usize).min(entries.len());\n", "    let count = (counts.entries as usize + 1).min(entries.len());\n"),
    ("no live mark of a held local", "body_live_marks/src/lib.rt",
     "    let c2 = push_live(body, c1, block, l).ok_or(MirLowerError::Limit)?;\n",
     "    let live = if held { Some(c1) } else { push_live(body, c1, block, l) };\n"
     "    let c2 = live.ok_or(MirLowerError::Limit)?;\n"),
    ("a full table of entries refuses a held local", "body_live_marks/src/lib.rt",
     "    if held {\n", "    if held && counts.entries < 1024 {\n"),
    ("a temporary is not recorded", "body_temps/src/lib.rt",
     "mark_live(body, c1, l, block, false)", "mark_live(body, c1, l, block, true)"),
)

# Where the local of a test of an enum is made: a file and its text.
TEST_LOCAL = "body_temps/src/lib.rt", "    temp(image, tables, body, counts, I128, block)\n"

# Further changes: a name, the file below crates/, the text, and what it becomes.
CHANGES = (
    ("a match left open", "pattern_walk/src/sub.rt",
     "set_goto(body, then, join);",
     "set_goto(body, here, join);"),
    ("a binding passed beyond Check", "pattern_walk/src/entering.rt",
     "    if !is_check(mode) {",
     "    if is_check(mode) {"),
    ("then and else of a test's switch exchanged", "pattern_switching/src/lib.rt",
     "Terminator::Switch(l, 1, 0, then, other)",
     "Terminator::Switch(l, 1, 0, other, then)"),
    ("no live mark of a binding's local", "pattern_parts/src/bindings.rt",
     "        Ok(l) => match push_storage_live_for_local(body, counts, l, current) {\n",
     "        Ok(l) => match Ok(counts) {\n"),
    ("no live mark of a temporary", "body_temps/src/lib.rt",
     "    let c2 = mark_live(body, c1, l, block, false)?;\n",
     "    let c2 = c1;\n"),
    ("fields in another order", "pattern_items/src/lib.rt",
     "ArgumentRow::Fields => ProjectionElem::Field(i),",
     "ArgumentRow::Fields => ProjectionElem::Field(fields - 1 - i),"),
    ("a record's field by its place in the pattern", "pattern_items/src/lib.rt",
     "ProjectionElem::Field(list_at(image, tables, from + 2 * i))",
     "ProjectionElem::Field(i)"),
    ("Bind with a new else", "pattern_passes/src/lib.rt",
     "        MatchingMode::Bind,\n"
     "        p,\n"
     "        then,\n"
     "        other,\n",
     "        MatchingMode::Bind,\n"
     "        p,\n"
     "        then,\n"
     "        None,\n"),
    ("a rest leaves out what the other side has", "pattern_parts/src/bindings.rt",
     "ProjectionElem::Subslice(front, end)",
     "ProjectionElem::Subslice(end, front)"),
    ("the last deref is left out", "pattern_entering/src/lib.rt",
     "    for _ in 0..derefs {",
     "    for _ in 1..derefs {"),
    ("ref mut for ref", "pattern_parts/src/bindings.rt",
     "BindingMode::Ref => PlaceRvalue::Ref,",
     "BindingMode::Ref => PlaceRvalue::Mut,"),
    ("a CString's closing zero is not counted", "literals/src/lib.rt",
     "(row.count as u64) + 1",
     "(row.count as u64) + 0"),
    ("all tests of enums share one local", *TEST_LOCAL,
     "    let mut i = 0;\n"
     "    while i < counts.locals {\n"
     "        if body_tables::locals::local_word(body, place::LocalId(i)) == I128 {\n"
     "            return Ok((counts, place::LocalId(i)));\n"
     "        }\n"
     "        i += 1;\n"
     "    }\n"
     f"{TEST_LOCAL[1]}"),
    ("a test of an enum uses an earlier one's local again", *TEST_LOCAL,
     "    let mut i = 0;\n"
     "    while i < counts.locals && body_tables::locals::local_word(body, place::LocalId(i)) != I128 {\n"
     "        i += 1;\n"
     "    }\n"
     "    match temp(image, tables, body, counts, I128, block) {\n"
     "        Err(e) => Err(e),\n"
     "        Ok((c, _)) => Ok((c, place::LocalId(i))),\n"
     "    }\n"),
    ("the local of a test of an enum is live in the next block", "pattern_tests/src/discriminants.rt",
     "discr_temp_place(image, tables, body, counts, current)",
     "discr_temp_place(image, tables, body, counts, BasicBlockId(counts.blocks))"),
    ("the local of a test of an enum is not marked live", *TEST_LOCAL,
     "    match new_local(body, counts, I128) {\n"
     "        None => Err(MirLowerError::Limit),\n"
     "        Some((c, l)) => match body_scope_tables::push_entry(body, c, l) {\n"
     "            None => Err(MirLowerError::Limit),\n"
     "            Some(c1) => Ok((c1, l)),\n"
     "        },\n"
     "    }\n"),
    ("a half-open range takes its end", "pattern_range_ends/src/lib.rt",
     "        return BinOp::Gt;",
     "        return BinOp::Ge;"),
    ("a range of any flag but 0 is half-open", "pattern_range_ends/src/lib.rt",
     "    if half_open == 1 {",
     "    if half_open != 0 {"),
    ("gt printed as ge", "listing_statements/src/lib.rt",
     '12 => put_binary(out, pen, b"gt ", row),',
     '12 => put_binary(out, pen, b"ge ", row),'),
    ("suffix items reversed beyond Check", "pattern_walk/src/adt.rt",
     "argument_elem(image, tables, row, from, fields, i)",
     "argument_elem(image, tables, row, from, fields, match row { ArgumentRow::LastItems => match mode "
     "{ MatchingMode::Check => i, _ => count - 1 - i }, _ => i })"),
    ("suffix items reversed in Check alone", "pattern_walk/src/adt.rt",
     "argument_elem(image, tables, row, from, fields, i)",
     "argument_elem(image, tables, row, from, fields, match row { ArgumentRow::LastItems => match mode "
     "{ MatchingMode::Check => count - 1 - i, _ => i }, _ => i })"),
    ("a block less", "mir/src/blocks.rt",
     "    if 512 <= n {",
     "    if 511 <= n {"),
    ("a statement less", "mir_statements/src/lib.rt",
     "    if 1024 <= n {",
     "    if 1023 <= n {"),
)

# Changes of what a handed-in body may have in it, which document 01 alone judges.
OF_BODIES = (
    ("a row of kind 12 is refused", "body_statement_rules/src/lib.rt",
     "    if 12 < kind {",
     "    if 11 < kind {"),
    ("a row of kind 13 is taken", "body_statement_rules/src/lib.rt",
     "    if 12 < kind {",
     "    if 13 < kind {"),
)


def must_fail(label):
    """The changes of a must-fail edit, as file, text and what it becomes."""
    crate, name = label.split("/")
    changes, file, old = [], None, None
    for line in (REPOSITORY / "crates" / crate / "must-fail" / f"{name}.edit").read_text(encoding="utf-8").splitlines():
        if line.startswith("file: "):
            file = f"{crate}/{line[6:]}"
        elif line.startswith("old: "):
            old = line[5:]
        elif line.startswith("new:"):
            changes.append((file, old, line[4:].removeprefix(" ")))
    return changes


def all_changes():
    """How each is compared, and names, with the changes."""
    yield from ((LISTINGS, name, [(file, old, new)]) for name, file, old, new in CHANGES)
    yield from ((LISTINGS, label, must_fail(label)) for label in REFUSED)
    yield from ((PARAMETERS, label, must_fail(label)) for label in REFUSED_OF_PARAMETERS)
    yield from ((STORED, name, [(file, old, new)]) for name, file, old, new in OF_BODIES)
    yield from ((SCRIPTS, name, [(file, old, new)]) for name, file, old, new in OF_MATCHES)
    yield from ((SCRIPTS, label, must_fail(label)) for label in REFUSED_OF_MATCHES)


def made(changes):
    """What the files of changes become, and a line for each text that does not stand exactly once in its file."""
    files, misplaced = {}, []
    for file, old, new in changes:
        path = REPOSITORY / "crates" / file
        text = files[file] if file in files else path.read_text(encoding="utf-8") if path.is_file() else ""
        if text.count(old) != 1:
            misplaced.append(f"{file} has it {text.count(old)} times: {old!r}")
        files[file] = text.replace(old, new)
    return files, misplaced


def changed_copy(folder, changes):
    """A copy of the crates in which texts are others."""
    shutil.copytree(REPOSITORY / "crates", folder / "crates", ignore=shutil.ignore_patterns("proofs", "must-fail", "out"))
    shutil.copy(REPOSITORY / "crates.txt", folder)
    for file, text in made(changes)[0].items():
        (folder / "crates" / file).write_text(text, encoding="utf-8")


def against_stored(program):
    """How many lines are others than those stored, and whether any is."""
    stored = REPOSITORY / "crates/replay"
    printed = subprocess.run([program], input=(stored / "stdin").read_bytes(), capture_output=True,
                             check=False).stdout.splitlines()
    wanted = (stored / "stdout").read_bytes().splitlines()
    differing = sum(line != want for line, want in zip_longest(printed, wanted))
    return f"{len(wanted)} lines compared, {differing} differ", differing > 0


def against_scripts(program, folder):
    """How many lines of scripts on patterns are others than those of samples/calls.py and of the Rust, and whether any is."""
    given, printed, replayed = (folder / name for name in ("given", "printed", "replayed"))
    subprocess.run([sys.executable, HERE / "chance_calls.py", str(SCRIPT_SEED), "0", str(SCRIPT_COUNT), given, printed], check=True)
    lines = subprocess.run([program], input=given.read_bytes(), capture_output=True, check=False).stdout
    replayed.write_bytes(lines)
    wanted = printed.read_bytes().splitlines()
    differing = sum(line != want for line, want in zip_longest(lines.splitlines(), wanted))
    rust = subprocess.run([COMPARE, "calls", given, replayed], capture_output=True, text=True, check=False)
    told = rust.stdout.rstrip().rsplit("\n", 1)[-1]
    return f"{len(wanted)} lines compared, {differing} differ; with the Rust: {told}", differing > 0 or rust.returncode != 0


def found(how, changes):
    """What the comparison says last of the changed program, and whether it differs."""
    with tempfile.TemporaryDirectory() as folder:
        folder = Path(folder)
        changed_copy(folder, changes)
        program = folder / "replay"
        subprocess.run([HERE / "build_unproved", "replay", program, folder], check=True)
        if how == STORED:
            return against_stored(program)
        if how == SCRIPTS:
            return against_scripts(program, folder)
        done = subprocess.run([COMPARE, *how, "--other", program, "--count", "1500", "--stored",
                               REPOSITORY / "crates/replay/stdin"], capture_output=True, text=True, check=False)
    return done.stdout.rstrip().rsplit("\n", 1)[-1], done.returncode == 1


def main():
    """Looks for the texts of all changes, and tries these, or those that are named."""
    every = list(all_changes())
    misplaced = [f"{name}: {line}" for _, name, changes in every for line in made(changes)[1]]
    if misplaced:
        sys.exit("\n".join(misplaced))
    if sys.argv[1:] == ["--check"]:
        print(f"{len(every)} changes, each text once in its file")
        return 0
    tried = missed = 0
    for how, name, changes in every:
        if sys.argv[1:] and name not in sys.argv[1:]:
            continue
        told, differs = found(how, changes)
        tried += 1
        missed += not differs
        print(f"{name}: {told}", flush=True)
    print(f"{tried} changes, {missed} not found")
    return 1 if missed or not tried else 0


if __name__ == "__main__":
    sys.exit(main())
