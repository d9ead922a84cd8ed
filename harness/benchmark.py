#!/usr/bin/env python3
"""Measures lowerings: the Rattle's and the Rust text's, and prints the tables of docs/BENCHMARK.md.

`benchmark.py [FOLDER]` builds `bench` with the liblowering_c.a of FOLDER, by default
crates/lowering_c/out, where `rt lib` puts it. Instructions are counted where valgrind is
at hand. FITHONGU_RUST_TEXT is the folder of the Rust's text, by default `shared` beside the checkout.
"""

import os
import re
import shutil
import statistics
import subprocess
import sys
import tempfile
from pathlib import Path

HERE = Path(__file__).resolve().parent
BENCH = HERE / "bench/target/release/bench"
PARTS = ("rust", "rattle", "read", "lone", "lone_read")
# Times move from process to process, by where stack and tables lie: so many are run.
PROCESSES = 7
# With so many rounds more, the instructions that one lowering takes are the difference.
FEW, MANY = 1, 5
# memset and memcpy are loops, and not one instruction that counts as many.
LOOPS = "glibc.cpu.x86_rep_stosb_threshold=100000000:glibc.cpu.x86_rep_movsb_threshold=100000000"
TIMES_HEAD = "| patterns | images | Rust | Rattle | ratio | ratios from, to | reading | clearing | lowering |\n|---|---|---|---|---|---|---|---|---|"
HEAD = "| patterns | images | Rust | Rattle | ratio | reading | clearing | lowering |\n|---|---|---|---|---|---|---|---|"


def build(folder):
    """Builds the driver."""
    settings = dict(os.environ, FITHONGU_LIBRARY=str(folder))
    settings.setdefault("FITHONGU_RUST_TEXT", str(HERE.parent.parent / "shared"))
    subprocess.run(["cargo", "build", "--offline", "--release", "--quiet"], cwd=HERE / "bench", env=settings, check=True)


def time_lines():
    """A row for each group of images: the medians of the processes, and the least and the greatest ratio."""
    runs = [subprocess.run([BENCH, "times"], capture_output=True, text=True, check=True).stdout.splitlines() for _ in range(PROCESSES)]
    for lines in zip(*runs):
        cells = [[cell.strip() for cell in line.strip("|").split("|")] for line in lines]
        name, images = cells[0][:2]
        rust, rattle, _, read, clear, lowering = (statistics.median(map(float, column)) for column in list(zip(*cells))[2:])
        ratios = [float(row[3]) / float(row[2]) for row in cells]
        yield (f"| {name} | {images} | {rust:,.0f} | {rattle:,.0f} | {statistics.median(ratios):.2f} | {min(ratios):.2f}, {max(ratios):.2f} "
               f"| {read:,.0f} | {clear:,.0f} | {lowering:,.0f} |")


def counted(part, file, rounds):
    """How many instructions a run takes, and for how many images."""
    settings = dict(os.environ, GLIBC_TUNABLES=LOOPS)
    command = ["valgrind", "--tool=callgrind", "--callgrind-out-file=/dev/null", BENCH, "spend", part, file, str(rounds)]
    done = subprocess.run(command, capture_output=True, text=True, env=settings, check=True)
    return int(re.search(r"Collected : (\d+)", done.stderr)[1]), int(done.stdout)


def instructions(part, file):
    """Instructions for one image."""
    few, images = counted(part, file, FEW)
    many, _ = counted(part, file, MANY)
    return (many - few) / (MANY - FEW) / images, images


def instruction_lines(folder):
    """A row for each group of images."""
    subprocess.run([BENCH, "write", folder], check=True)
    for file in sorted(Path(folder).glob("*.list")):
        (rust, images), *others = [instructions(part, file) for part in PARTS]
        rattle, read, lone, lone_read = (spent for spent, _ in others)
        clear = lone - lone_read
        name = file.with_suffix(".name").read_text(encoding="utf-8")
        yield (f"| {name} | {images} | {rust:,.0f} | {rattle:,.0f} | {rattle / rust:.2f} | {read:,.0f} | {clear:,.0f} "
               f"| {rattle - read - clear:,.0f} |")


def main():
    """Prints the two tables."""
    build(Path(sys.argv[1] if sys.argv[1:] else HERE.parent / "crates/lowering_c/out").resolve())
    print(f"Nanoseconds for one lowering:\n\n{TIMES_HEAD}", flush=True)
    for line in time_lines():
        print(line, flush=True)
    if not shutil.which("valgrind"):
        print("\nskipped: instructions, no valgrind")
        return
    print(f"\nInstructions for one lowering:\n\n{HEAD}", flush=True)
    with tempfile.TemporaryDirectory() as folder:
        for line in instruction_lines(folder):
            print(line, flush=True)


if __name__ == "__main__":
    main()
