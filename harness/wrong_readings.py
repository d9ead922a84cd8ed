#!/usr/bin/env python3
"""Do the rows hold the definitions of reading a text? Changes a definition in one place, and computes the rows.

`wrong_readings.py [WORD..]` copies the definitions that crates/reading_samples stands on, without the proofs over them, to a
temporary folder, makes there one change of a line after the other, and computes the rows. A row of a table says what was
changed, and how many rows come out differently; the script fails if a change leaves all rows as they are. WORDs choose
changes by what they say. `rt` must be there. Nothing is written to the checkout.
"""

import re
import shutil
import sys
import tempfile
from pathlib import Path

sys.dont_write_bytecode = True

from wrong_definitions import REPOSITORY, changed, check, dependencies, take

ROWS = "reading_samples"
# What is wrong, the crate and the file, the line as it is, and the wrong one.
CHANGES = (
    ("`&&` is one reference", "pattern_syntax", "Reduced", "    written q.from (reference_node false) (only (written (suc q.from) (reference_node (is_there m)) (only w)))",
     "    written q.from (reference_node (is_there m)) (only w)"),
    ("`..=` is read as `..`", "pattern_syntax", "Reduced", "is_exclusive (inclusive q) = false", "is_exclusive (inclusive q) = true"),
    ("a group begins behind its parenthesis", "pattern_syntax", "Reduced", "      cond (is_group h is p) (begun_at (head_at h) (one_of (alternatives text p)))",
     "      cond (is_group h is p) (one_of (alternatives text p))"),
    ("a leading `|` is no part of a pattern", "pattern_syntax", "Reduced", "  alternatives text (alone (some q) a) = only (begun_at q.from (written_alt text a))",
     "  alternatives text (alone (some q) a) = only (written_alt text a)"),
    ("a constant serves as a variant", "name_tables", "Names", "serves as_variant row = eqb row.kind 1", "serves as_variant row = eqb row.kind 1 || eqb row.kind 3"),
    ("a variant serves as a bound", "name_tables", "Names", "serves as_constant row = eqb row.kind 3", "serves as_constant row = eqb row.kind 1 || eqb row.kind 3"),
    ("a constant is no value", "name_tables", "Names", "serves as_value row = eqb row.kind 1 || eqb row.kind 3", "serves as_value row = eqb row.kind 1"),
    ("a field of any variant serves", "name_tables", "Names", "serves (as_field_of v) row = eqb row.kind 2 && eqb row.owner v", "serves (as_field_of v) row = eqb row.kind 2"),
    ("a field's number is not looked at", "name_tables", "Names",
     "    (cond (eqb row.kind 2) (ltb row.owner (variant_count sheet) && ltb row.number (variant_at sheet row.owner).count)",
     "    (cond (eqb row.kind 2) (ltb row.owner (variant_count sheet))"),
    ("`&mut` makes the mode ref mut in any case", "pattern_typing", "Crossing", "behind_reference shared mode = cond (shared || eqb mode by_ref) by_ref by_ref_mut",
     "behind_reference shared mode = cond shared by_ref by_ref_mut"),
    ("`&` is written for every reference", "pattern_typing", "Crossing",
     "is_written_as sheet mutable t = is_reference sheet t && cond mutable (not (is_set (type_at sheet t).copy)) (is_set (type_at sheet t).copy)",
     "is_written_as sheet mutable t = is_reference sheet t"),
    ("`&` leaves a mode behind", "pattern_typing", "Contexts", "target_context sheet mutable t = cond (is_written_as sheet mutable t) (typed (type_at sheet t).a by_value) partless",
     "target_context sheet mutable t = cond (is_written_as sheet mutable t) (typed (type_at sheet t).a 1) partless"),
    ("arguments behind `..` count from the front", "pattern_typing", "Contexts", "stands_before (some before) i = ltb i before", "stands_before (some before) i = true"),
    ("a rest counts itself among the others", "pattern_typing", "Contexts", "    cond (is_rest_item before i) (rest_among t (many - 1) mode)",
     "    cond (is_rest_item before i) (rest_among t many mode)"),
    ("`mut` keeps the default mode", "pattern_typing", "Resolving", "mode_of m mode = cond m.reference (cond m.mutable by_ref_mut by_ref) (cond m.mutable by_value mode)",
     "mode_of m mode = cond m.reference (cond m.mutable by_ref_mut by_ref) mode"),
    ("`ref` is annotated as `mut`", "pattern_typing", "Resolving", "annotation_of m = cond m.reference 2 (cond m.mutable 1 0)",
     "annotation_of m = cond m.reference 1 (cond m.mutable 1 0)"),
    ("a variant may stand before `@`", "pattern_typing", "Resolving",
     "    cond (m.reference || m.mutable || leb 1 many) (refused_here m.called.at) (resolved_path names (some row) m.called (crossed sheet t mode))",
     "    cond (m.reference || m.mutable) (refused_here m.called.at) (resolved_path names (some row) m.called (crossed sheet t mode))"),
    ("a rest of an array that is too short is bound", "pattern_typing", "Resolving", "rest_holds sheet t others = is_slice sheet t || is_array sheet t && leb others (type_at sheet t).b",
     "rest_holds sheet t others = is_slice sheet t || is_array sheet t"),
    ("the last refused position is told", "pattern_typing", "Failing", "lower a b = cond (ltb b a) b a", "lower a b = cond (ltb b a) a b"),
    ("an integer behind a minus is a Uint", "pattern_images", "Drafts", "operand_kind_of (minus_value v) = 1", "operand_kind_of (minus_value v) = 2"),
    ("a minus is not looked at", "pattern_images", "Drafts", "literal_bytes (minus_value v) = little_endian_bytes 16 (2 ^ 128 - v)", "literal_bytes (minus_value v) = little_endian_bytes 16 v"),
    ("types alike whatever their copy flags", "pattern_images", "Drafts", "    && same_flag (is_set row.copy) (is_set other.copy)", "    && true"),
    ("arrays alike whatever their lengths", "pattern_images", "Drafts", "    && (eqb row.kind 7 || eqb row.b other.b)", "    && true"),
    ("an empty list starts where the next word goes", "pattern_images", "Emitting", "list_from sheet [] d = 0", "list_from sheet [] d = next_word sheet d"),
    ("a suffix counts the rest", "pattern_images", "Emitting", "suffix_count (some before) many = many - suc before", "suffix_count (some before) many = many - before"),
    ("a name bound again makes another binding", "pattern_images", "Emitting", "with_binding sheet (some b) mode name at d = d", "with_binding sheet (some b) mode name at d = new_binding sheet mode name at d"),
    ("17 derefs are taken", "pattern_images", "Imaging", "derefs_within (r ∷ rs) = leb r.derefs 16 && derefs_within rs", "derefs_within (r ∷ rs) = leb r.derefs 17 && derefs_within rs"),
    ("a sheet has a pattern", "type_sheets", "Sheets", "    && leb (pattern_count sheet) 512", "    && (leb 1 (pattern_count sheet) && leb (pattern_count sheet) 512)"),
    ("a sheet's types are not looked at", "type_sheets", "Sheets", "    ∷ all_below (type_holds sheet) (type_count sheet)", "    ∷ all_below (type_holds sheet) 0"),
    ("a missing type is taken", "pattern_reading", "Reads", "    (cond (ltb expected (type_count sheet) && names_hold sheet names) (read_typed sheet names expected w) (refused_with 2 absent))",
     "    (cond (names_hold sheet names) (read_typed sheet names expected w) (refused_with 2 absent))"),
    ("a limit is told before a name", "pattern_reading", "Reads", "    unless_refused (refused_in sheet names w (typed expected by_value)) (imaged sheet (draft_of sheet names expected w))",
     "    cond (within_image_limits sheet (draft_of sheet names expected w)) (unless_refused (refused_in sheet names w (typed expected by_value)) (imaged sheet (draft_of sheet names expected w))) (refused_with 1 absent)"),
)
ERROR = re.compile(r"^(?:\./)?proofs/(\w+)\.antt:\d+:\d+: error", re.MULTILINE)


def prepare(folder):
    """A copy of the definitions below the rows, with no proof and no code over them but what declares types."""
    below = dependencies()[ROWS]
    for name in below:
        shutil.copytree(REPOSITORY / "crates" / name, folder / "crates" / name, ignore=shutil.ignore_patterns("must-fail", "out"))
    lines = [line for line in (REPOSITORY / "crates.txt").read_text().splitlines() if line.split(":")[0] in below]
    (folder / "crates.txt").write_text("\n".join(lines) + "\n")
    for name in {change[1] for change in CHANGES}:
        shutil.rmtree(folder / "crates" / name / "proofs", ignore_errors=True)
    declarations(folder)
    for name in below:
        take(name, REPOSITORY, folder)
    proved, printed = check(folder, ROWS)
    if not proved:
        sys.exit(f"the rows as they are, are refused:\n{printed}")


def declarations(folder):
    """Of the code of the crates whose definitions are changed, only the structs, enums and constants of lib.rt stay, with what these name."""
    for name in {change[1] for change in CHANGES}:
        source = folder / "crates" / name / "src"
        for path in source.glob("*.rt"):
            if path.name != "lib.rt":
                path.unlink()
        text = (source / "lib.rt").read_text()
        kept = "".join(re.findall(r"^(?:#\[derive\([^\n]*\n)?pub (?:struct|enum) [^{]*\{.*?^\}\n|^pub const .*?;\n", text, re.M | re.S))
        named = [(path, use) for path, many, one in re.findall(r"^use ([\w:]+)::(?:\{([^}]*)\}|(\w+));\n", text, re.M) for use in re.findall(r"\w+", many or one)]
        uses = [f"use {path}::{use};\n" for path, use in named if re.search(rf"\({use}\)|: {use}\b", kept)]
        (source / "lib.rt").write_text("".join(uses) + kept or "// no declaration\n")


def main():
    """Tries each change, and prints the table."""
    chosen = [change for change in CHANGES if not sys.argv[1:] or any(word in change[0] for word in sys.argv[1:])]
    if not chosen:
        sys.exit("no change says any of these words")
    accepted = []
    with tempfile.TemporaryDirectory() as folder:
        prepare(Path(folder))
        print("| the wrong definition | where | the files of rows that refuse it |\n|---|---|---|", flush=True)
        for change in chosen:
            path, text = changed(Path(folder), (*change, ""))
            proved, printed = check(Path(folder), ROWS)
            path.write_text(text)
            files = sorted(set(ERROR.findall(printed)))
            if proved or not files:
                accepted.append(change[0])
            print(f"| {change[0]} | `{change[1]}/specs/{change[2]}` | {', '.join(f'`{file}`' for file in files) or 'none'} |", flush=True)
    if accepted:
        sys.exit(f"left all rows as they are, or broke a definition: {'; '.join(accepted)}")
    print(f"\n{len(chosen)} wrong definitions, each refused")


if __name__ == "__main__":
    main()
