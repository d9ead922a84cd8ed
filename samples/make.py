"""Writes the samples and the stored lists of images, of calls, of listings, of parameters, of fits and of texts.

`python3 samples/make.py` writes every file; `python3 samples/make.py --check`
writes none, and fails if a file is not what it would write.
"""

import sys
from pathlib import Path

sys.dont_write_bytecode = True

from call_list import call_records
from chance import chance_cases
from faults import fault_cases
from fit_list import fit_records
from images import RULES, broken, read_counts
from listing_list import listing_records
from lowering import listing
from params_list import params_records
from readable import sample_files
from reading_list import first_rule, text_records
from records import IMAGE, record
from whole import valid_images

ROOT = Path(__file__).resolve().parent.parent
REFUSED = "refused 1 65535 0"
LARGEST_FILE = 2_000_000

README = """# Sample images

Each file holds one image as document 01 describes it. The last pattern is the root;
its subpatterns stand before it. Behind the name stands what it holds and how the image
is answered: the counts of types, variants, patterns, bindings, list words and data
bytes, or the refusal.

{samples}
## The stored lists

Two programs replay them, `replay_texts` the calls on texts and `replay` all others:
`crates/replay/stdin` and `crates/replay_texts/stdin` have the records, one behind the other,
and `stdout` beside them what is printed for them. A record is a byte, its sort; four
big-endian bytes n, four big-endian bytes z, and n bytes, the image being these n bytes and
z zero bytes; and what its sort has besides:

| sort | record | printed |
|---|---|---|
| 1 | an image | a line: its counts, or its refusal |
| 2 | an image | its listing, or its refusal |
| 3 | a script: four big-endian bytes m, and m commands of four big-endian words | a line for each call |
| 4 | a call on parameters: four big-endian bytes k, and k big-endian words | the listing and the locals, or the refusal |
| 5 | a question whether a pattern fits: the same, with other words | `fits`, `does not fit` or the refusal |
| 6 | a type sheet in the image's place, a name table, and texts with expected types | a line for each text: `image` and its bytes in hexadecimal, or the refusal |

`list.txt` has one line for each record of sort 1: its number from 1, its name, and `valid`
or the names of the rules that it breaks. The names follow the order of the document; they
are all in `images.py`, as `RULES`. `crates/check_image/stdin` and `crates/listing/stdin`
are `enum_fields.img`.

## How they are made

`python3 samples/make.py`, run at the root, writes all of these files again, always the
same; with `--check` it writes none and fails if one differs.

- `images.py`: builds images, and judges them by the rules alone.
- `readable.py`: the samples above.
- `bases.py`: two valid images, and a short notation for edits of them.
- `whole.py`: valid images, at the edges and limits too.
- `faults.py`: images that break rules; every rule is broken alone at least once.
- `chance.py`: random images and random damage, from a fixed seed.
- `records.py`: a record of the stored lists.
- `make.py`: puts them together and writes the files.
- `theorems.py`: prints the samples as theorems about the definitions, for `crates/samples/proofs/Samples.antt`.

## Listings

Written from the documents and the Rust alone, not from the definitions:

- `lowering.py`: what the listing program prints; the end of a half-open range, the offsets
  of suffix items, one entry for each local and a local for each discriminant test are
  document 02's, all else is the Rust's. `python3 samples/lowering.py FILE` prints the listing
  of an image. `builder.py` holds what lower.rs and mir.rs give it.
- `corners.py`: checks document 01's corners and document 02's on these three, which are in
  `accepted.py` and `refusals.py`: images at each limit and one past it are among them.
  `python3 samples/corners.py` prints each with its listing's first line.
- `judged.py`: whether patterns fit, which values match, what they bind and where a run comes,
  judged by hand from document 01 and the Reference; `sketch.py` is the short notation for
  their images. `corner_theorems.py` prints these and the corners as rows of theorems.
- `params.py`: the same for lists of parameters, and document 01's corners on them. With
  `-` it answers the harness's calls.
- `params_list.py`: the stored calls on parameters: the corners, and random calls from a
  fixed seed. `params.py` says what the words are. `params.txt` has for each its number
  from 1, its name, and the first line printed.
- `counts.py`: visits, blocks and statements counted from the tree. `python3
  samples/counts.py N` compares them with lowerings of N random images of each sort.
- `typed_chance.py`: random images whose patterns follow their types.
- `listing_list.py`: the images whose listings are stored: the samples, the corners, the
  largest images, random ones from a fixed seed, and those of `harness_images.txt`.
  `listings.txt` has for each its number from 1, its name, and the first line that is
  printed.
- `harness_images.txt`: images of every sort that the harness makes, each answer among them.
  `harness/run images` wrote it from the harness's generators, which `make.py` does not run;
  the answers in the stored list are those of `lowering.py`, and the harness's quick run
  compares them with the Rust's.

## The fit

- `fits.py`: judges whether a pattern fits, by document 01's paragraph "A pattern fits when"
  alone.
- `fit_list.py`: the stored questions, and what their words are: the corners, numbers that
  name nothing, what is refused behind a wildcard and before it, and random patterns with all
  sorts of locals. `fits.txt` has for each its
  number from 1, its name, and the answer.

## Calls

A command of a script is one of the six calls on a body and its scopes, one of the three calls
on a pattern, or sets a word of their tables, or a count:

| op | words a, b, c |
|---|---|
| 0 `temp` | type, block |
| 1 `merge_blocks` | two blocks, 65535 for none |
| 2 `push_drop_scope`, 3 `pop_assume_dropped` | |
| 4 `pop_and_drop` | block |
| 5 `drop_until_scope` | index, block |
| 6 a word is set | table, place in it, word |
| 7 `pattern_match` | pattern, block, else or 65535 |
| 8 `pattern_match_assignment` | pattern, block |
| 9 `match_self_param` | binding, block, local |

The tables are 0 to 4 as `docs/BODY.md` has them, 5 the five counts, 6 the bindings' locals, 256
words, and 7 what else a call on a pattern is handed, 35 words: the place's local, its count of
elements, 16 elements of two words as a row has them (0 where the count does not reach), and how
many of the bindings' words are handed in. All start as zeros.

For each call a line is printed: its answer, the five counts, and a checksum of each table. The
answer to a call on a pattern is `then N else N`, `-` for none, or the refusal; behind the five
checksums stand those of the visits' 512 words and of the bindings' locals. `calls.txt` has for
each script the number of its first line in `crates/replay/stdout`, its name, and what it shows.

- `calls.py`: answers the calls, by the documents and the rows of `docs/BODY.md` alone, and
  names the rules that number 2 is given for. `call_matches.py` has the calls on patterns, which
  `lowering.py` lowers on the body that is handed in.
- `call_notation.py`: the scripts' image, and a short notation for commands.
- `call_scripts.py`: document 01's corners, the limits, restoration, zeros above the counts.
- `match_corners.py`: the same for calls on patterns: an else that is supplied, places with a
  projection of every sort, of 16 and of 17 elements, several scopes, bindings without a local,
  discriminant tests at each limit; and number 2, every rule broken alone.
- `held_corners.py`: one drop per local: scopes that hold a binding's local before a call, the last
  one and an outer one, a full table of entries, and two alternatives that bind `name_list.img`'s.
- `call_faults.py`: numbers 1 and 2 on bodies; every rule is broken alone at least once. Of a
  statement's kinds 12 is the last one and 13 the first that there is not.
- `call_chance.py`, `match_chance.py`: random scripts, from a fixed seed.
- `call_list.py`: judges them all, and holds them to the answers that they state.

## Pattern texts

- `tokens.py`: the tokens of pattern texts, written from the Reference's chapters on the
  lexical structure alone. `python3 samples/tokens.py TEXT..` prints them, one line a text.
- `grammar.py`: what pattern texts are, tree or position, written from the Reference's chapter on
  patterns alone, over the tokens of `tokens.py`. It makes random texts as rows (`--rows`) and judges
  the rows of antt files again (`--check crates/grammar_samples/proofs/*.antt`).
- `grammar_prefixes.py`: a third opinion on where a text fails, from the grammar's productions as a
  table. `python3 samples/grammar_prefixes.py SEED COUNT` holds random texts to it.
- `reading.py`: judges the whole call from a text, a type sheet, a name table and an expected
  type to the image or the refusal; `name_tables.py` has the rules of name tables.
  `python3 samples/reading.py --corners` says how many of `text_corners.txt` it agrees with,
  which are over the class file `text.class`. `text_grammar.txt` has texts with the position at
  which each is refused with 19, stated by hand.
- `laser.class`, `laser.rules`: a sample class of finish records, and ten rules, one to a line,
  as a class writes them. `mixed.class` has references of all sorts, for the harness. Beside each
  class file stand its type sheet and its name table (`.sheet`, `.names`), as
  `scripts/class_file` makes them; that script says what a class file has, and
  `class_faults.py` holds it to what it tells of files with faults.
- `text_chance.py`: random texts that follow the types of a class, but for slips.
- `reading_cases.py`: calls at the edges: the order of the refusals, broken sheets and name
  tables, names and types alike, limits, texts that lie deep.
- `reading_list.py`: the stored calls on texts, records of sort 6: the sheet as the records above have
  their image, the name table behind its length in four big-endian bytes, and, behind their number
  in four such bytes, texts, each with the expected type as a big-endian word and its length in
  four bytes before it. `readings.txt` has for each text its number from 1, its name and what is
  added to the sheet, or the refusal.
- `reading_theorems.py`: writes `crates/reading_samples/proofs`, in which the definitions of reading
  are computed on 400 of these calls and held to the judge's answers.

The program `read_pattern` takes on standard input the type sheet and the name table, each
beginning with its own length in four big-endian bytes, as all in the house form do; the
expected type, a big-endian word; and the text behind its length in four big-endian bytes.
What is missing at the end counts as empty, and what follows is not looked at. It writes the
image's bytes, or a line `refused` with the three numbers. `crates/read_pattern/stdin` has the first
rule of `laser.rules`.
"""


def answer(image, rules):
    """The line that an image is answered with."""
    if rules:
        return REFUSED
    return "image " + " ".join(str(count) for count in read_counts(image))


def all_cases():
    """Name, bytes, zeros that follow and, where known, the rules broken."""
    for name, _, image in sample_files():
        yield f"sample:{name}", image, 0, None
    for name, tables in valid_images():
        yield name, tables.encode(), 0, []
    yield from fault_cases()
    yield from chance_cases()


def judged_cases():
    """Name, bytes, zeros that follow and broken rules of every case, checked."""
    judged, names, alone = [], set(), set()
    for name, head, zeros, known in all_cases():
        rules = broken(head + bytes(zeros))
        assert known is None or rules == known, (name, rules, known)
        assert name not in names and " " not in name, name
        names.add(name)
        alone.update(rules if len(rules) == 1 and known else ())
        judged.append((name, head, zeros, rules))
    assert alone == set(RULES), set(RULES) - alone
    return judged


def image_records():
    """The records of images, the line printed for each, and list.txt."""
    cases = judged_cases()
    given = [record(IMAGE, image, zeros) for _, image, zeros, _ in cases]
    printed = [answer(image, rules) + "\n" for _, image, _, rules in cases]
    listed = "".join(f"{number} {name} {' '.join(rules) or 'valid'}\n"
                     for number, (name, _, _, rules) in enumerate(cases, 1))
    return given, printed, listed


def replay_files():
    """What `crates/replay` and `crates/replay_texts` are run on and print, and the names of their records."""
    given, printed, listed = image_records()
    files = {"samples/list.txt": listed.encode()}
    for name, (more, lines, text) in (("calls", call_records(len(printed))), ("listings", listing_records()),
                                      ("params", params_records()), ("fits", fit_records())):
        given, printed = given + more, printed + lines
        files[f"samples/{name}.txt"] = text.encode()
    texts, answers, text = text_records()
    files["samples/readings.txt"] = text.encode()
    for program, records, lines in (("replay", given, printed), ("replay_texts", texts, answers)):
        files[f"crates/{program}/stdin"] = b"".join(records)
        files[f"crates/{program}/stdout"] = "".join(lines).encode()
    return files


def sample_lines():
    """The part of the README on each sample."""
    lines = []
    for name, text, image in sample_files():
        rules = broken(image)
        why = f" ({', '.join(rules)})" if rules else ""
        lines.append(f"- `{name}.img`: {text.rstrip('.')}. `{answer(image, rules)}`{why}\n")
    return "".join(lines)


def all_files():
    """The contents of every file by its path from the root."""
    files = {f"samples/{name}.img": image for name, _, image in sample_files()}
    files["samples/README.md"] = README.format(samples=sample_lines()).encode()
    sample = next(image for name, _, image in sample_files() if name == "enum_fields")
    files["crates/check_image/stdin"] = sample
    files["crates/check_image/stdout"] = (answer(sample, broken(sample)) + "\n").encode()
    files.update(replay_files())
    files["crates/listing/stdin"] = sample
    files["crates/listing/stdout"] = listing(sample).encode()
    files["crates/read_pattern/stdin"], files["crates/read_pattern/stdout"] = first_rule()
    assert all(len(content) < LARGEST_FILE for content in files.values())
    return files


def differing(files):
    """The paths of files that are missing, differ or are no longer made."""
    for path, content in files.items():
        found = ROOT / path
        if not found.is_file() or found.read_bytes() != content:
            yield path
    for found in sorted((ROOT / "samples").glob("*.img")):
        path = found.relative_to(ROOT).as_posix()
        if path not in files:
            yield path


def main():
    """Writes the files, or with --check compares them."""
    files = all_files()
    if sys.argv[1:] == ["--check"]:
        paths = list(differing(files))
        for path in paths:
            print(f"differs: {path}")
        return 1 if paths else 0
    if sys.argv[1:]:
        print("usage: python3 samples/make.py [--check]")
        return 2
    for path, content in files.items():
        target = ROOT / path
        target.parent.mkdir(parents=True, exist_ok=True)
        target.write_bytes(content)
    return 0


if __name__ == "__main__":
    sys.exit(main())
