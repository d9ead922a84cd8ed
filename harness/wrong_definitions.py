#!/usr/bin/env python3
"""Does the page hold its definitions? Changes a definition in one place, and checks the theorems.

`wrong_definitions.py [WORD..]` copies the crates and what is proved of them to a temporary
folder, makes there one change of a line of a crate's specs/ after the other, and checks the
crate and the theorem crates above it until one refuses the change. Where a row of the page is
what a change makes false, the rows are computed one by one over the changed definitions, with
no proof between them. A row of a table says what was changed, which statement is then false,
and what refused it; the script fails if a change is accepted by all. WORDs choose changes by
what they say. `rt` must be there; what the checkout has proved is not proved again. Nothing is
written to the checkout.
"""

import re
import shutil
import subprocess
import sys
import tempfile
from pathlib import Path

sys.dont_write_bytecode = True

from wrong_lines import CHANGES, ROWS

REPOSITORY = Path(__file__).resolve().parent.parent
# The crates of theorems, from the bottom to the page.
THEOREMS = ("counting", "growth", "named", "meaning", "correctness", "fitted", "room", "param_runs", "called", "audit")
# The crate of the page's rows alone, over the definitions that they are computed from.
ROWS_STAND_ON = "refusals row_tables image cases_spec place mir state literals lower_spec views pattern_matching counting meaning"
ERROR = re.compile(r"^(?:\./)?(specs|proofs)/([\w/+]+)\.antt:\d+:\d+: error: `([^`]+)`(.*)", re.MULTILINE)


def dependencies():
    """What each crate stands on, and what that stands on."""
    lines = (line.split("#")[0] for line in (REPOSITORY / "crates.txt").read_text().splitlines())
    direct = {name.split()[0]: below.split() for name, colon, below in (line.partition(":") for line in lines) if colon}

    def all_below(name):
        return {name}.union(*map(all_below, direct.get(name, ())))
    return {name: all_below(name) for name in direct}


def check(copy, crate):
    """Whether a crate and all below it are proved, and what was printed."""
    run = subprocess.run(["rt", "check"], cwd=copy / "crates" / crate, capture_output=True, text=True)
    if run.returncode not in (0, 1):
        sys.exit(f"rt check {crate} could not tell:\n{run.stdout}{run.stderr}")
    return run.returncode == 0, run.stdout + run.stderr


def take(name, source, target):
    """What is proved of a crate, from one folder of crates to another, if it is there."""
    proved, place = source / "crates" / name / "out/rlib", target / "crates" / name / "out/rlib"
    if (proved / "stamp").exists():
        shutil.rmtree(place, ignore_errors=True)
        shutil.copytree(proved, place)


def put_back(copy, saved):
    """What was proved of the crates as they are, where a check has proved them anew."""
    for crate in (saved / "crates").iterdir():
        stamp, anew = crate / "out/rlib/stamp", copy / "crates" / crate.name / "out/rlib/stamp"
        if not anew.exists() or anew.read_bytes() != stamp.read_bytes():
            take(crate.name, saved, copy)


def of_function(file):
    """The function whose proof a file is, if it is one's."""
    return Path(file).parent.name if Path(file).name in ("Proof", "Answers", "Invariants") else ""


def refusal(copy, crates):
    """Where the first of some crates is refused: the crate, what was refused in it, and what rests on that."""
    for crate in crates:
        proved, printed = check(copy, crate)
        if not proved:
            found = ERROR.findall(printed) or sys.exit(f"refused without a place:\n{printed}")
            below = re.search(r"the library (\w+) did not build", printed)
            if found[0][0] == "specs":
                sys.exit(f"no definition, but an error in {found[0][2]}")
            at = dict.fromkeys(of_function(file) or name for _, file, name, why in found if "was not admitted" not in why)
            with_it = dict.fromkeys(name for _, file, name, _ in found if name not in at and not of_function(file))
            return below[1] if below else crate, list(at), list(with_it)
    return None


def told(found):
    """A refusal, in a few words."""
    if found is None:
        return "nothing"
    crate, at, with_it = found
    if crate == "rows":
        return "the rows " + ", ".join(f"`{name[4:-4]}`" for name in at[:4])
    names = [f"`{name}`" for name in at[:4]] + [f"and so `{name}`" for name in with_it[-1:]]
    return f"`{crate}`: {', '.join(names)}"


def changed(folder, change):
    """Makes a change in a folder's crates, and answers the file and its text before."""
    _, crate, file, old, new, _ = change
    path = folder / "crates" / crate / "specs" / f"{file}.antt"
    text = path.read_text()
    wrong, lines = re.subn(rf"^( *){re.escape(old)}$", lambda line: line[1] + new, text, flags=re.MULTILINE)
    if lines != 1:
        sys.exit(f"{crate}/specs/{file}.antt has {lines} such lines: {old}")
    path.write_text(wrong)
    return path, text


def tried(folder, below, change):
    """Makes a change, and answers where it is refused."""
    if change[-1] == ROWS:
        copy, crates = folder / "rows", ["rows"]
    else:
        copy, crate = folder / "copy", change[1]
        crates = [crate, *(name for name in THEOREMS if crate in below[name] and name != crate)]
    path, text = changed(copy, change)
    answer = refusal(copy, crates)
    path.write_text(text)
    if change[-1] != ROWS:
        put_back(copy, folder / "saved")
    return answer


def one_by_one(text):
    """A file of rows with a theorem for each row in place of one for all."""
    unfolding = re.search(r"^unfolding .*$", text, re.MULTILINE)[0]
    names = re.findall(r"^abbrev (\S+_row) :", text, re.MULTILINE)
    each = [f"the_{name} : judged {name} ≡ {name}\n{unfolding}\nthe_{name} = refl\n" for name in names]
    return "\n".join([text[:text.index("-- each row's answers")], *each]).replace("Rattle.audit.", "Rattle.rows.")


def rows_alone(folder, below):
    """A copy of the definitions without the proofs over them, and a crate of the rows."""
    rows, page = folder / "rows", folder / "copy/crates/audit"
    shutil.copytree(folder / "copy/crates", rows / "crates", ignore=shutil.ignore_patterns("must-fail", "out"))
    shutil.rmtree(rows / "crates/meaning/proofs")
    lines = [line for line in (folder / "copy/crates.txt").read_text().splitlines() if line.split(":")[0] in below["meaning"]]
    (rows / "crates.txt").write_text("\n".join([*lines, f"rows: {ROWS_STAND_ON}"]) + "\n")
    for name in {path.name for path in (rows / "crates").iterdir()} - below["meaning"]:
        shutil.rmtree(rows / "crates" / name)
    shutil.copytree(page / "src", rows / "crates/rows/src")
    for part, files in (("specs", ("Started", "Call", "Judged")), ("proofs", ("Judged", "Clauses"))):
        (rows / "crates/rows" / part).mkdir()
        (rows / "crates/rows" / part / "Lib.antt").write_text("".join(f"pub mod {file}\n" for file in files))
        for file in files:
            text = (page / part / f"{file}.antt").read_text()
            text = one_by_one(text) if part == "proofs" else text.replace("Rattle.audit.", "Rattle.rows.")
            (rows / "crates/rows" / part / f"{file}.antt").write_text(text)
    for name in below["meaning"]:
        take(name, folder / "saved", rows)
    proved, printed = check(rows, "rows")
    if not proved:
        sys.exit(f"the rows as they are, are refused:\n{printed}")


def prepare(folder, below):
    """A copy of the crates with what is proved, all of which must be, and what is to be put back."""
    copy, saved = folder / "copy", folder / "saved"
    shutil.copytree(REPOSITORY / "crates", copy / "crates", ignore=shutil.ignore_patterns("out"))
    shutil.copy2(REPOSITORY / "crates.txt", copy)
    for name in below["audit"]:
        take(name, REPOSITORY, copy)
    proved, printed = check(copy, "audit")
    if not proved:
        sys.exit(f"the definitions as they are, are refused:\n{printed}")
    for name in below["audit"]:
        take(name, copy, saved)
    rows_alone(folder, below)


def main():
    """Tries each change, and prints the table."""
    below = dependencies()
    chosen = [change for change in CHANGES if not sys.argv[1:] or any(word in change[0] for word in sys.argv[1:])]
    if not chosen:
        sys.exit("no change says any of these words")
    accepted = []
    with tempfile.TemporaryDirectory() as folder:
        prepare(Path(folder), below)
        print("| the wrong definition | where | what is then false | what refused it |\n|---|---|---|---|", flush=True)
        for change in chosen:
            what, crate, file, _, _, false = change
            found = tried(Path(folder), below, change)
            if found is None:
                accepted.append(what)
            print(f"| {what} | `{crate}/specs/{file}` | {false} | {told(found)} |", flush=True)
    if accepted:
        sys.exit(f"accepted by all: {'; '.join(accepted)}")
    print(f"\n{len(chosen)} wrong definitions, each refused")


if __name__ == "__main__":
    main()
