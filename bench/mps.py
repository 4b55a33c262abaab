#!/usr/bin/env python3
"""Measures how fast an MPS file is read, beside `glpsol --check` on the same file, and writes its part of
docs/performance.md.

usage: bench/mps.py      after 'rt run' in crates/reader_bench; needs glpsol (Debian's glpk-utils)
"""
import os
import pathlib
import random
import resource
import shutil
import subprocess
import sys
import tempfile
import time

from tables import built, machine, peak, put

SEED = 23
TERMS_OF_A_COLUMN = 10
SIZES = [250_000, 1_000_000]


def line(words):
    """A data line in the layout of fixed MPS files, with long names."""
    return f"    {words[0]:<20}  " + "  ".join(f"{word:<20}" for word in words[1:-1]) + f"  {words[-1]:>10}\n"


def write_terms(path, terms):
    """Writes a file with so many terms, a row for a hundred of them and a column for ten; its length in bytes."""
    draw = random.Random(SEED)
    rows = [f"capacity_{number:07}" for number in range(terms // 100)]
    parts = ["NAME          MEASURED\nROWS\n N  COST\n", *(f" L  {row}\n" for row in rows), "COLUMNS\n"]
    parts.append("    M         'MARKER'                 'INTORG'\n")
    for number in range(terms // TERMS_OF_A_COLUMN):
        column = f"flow_{number:07}"
        for row in draw.sample(rows, TERMS_OF_A_COLUMN):
            parts.append(line([column, row, f"{draw.randrange(-99, 100)}.{draw.randrange(1000)}"]))
    parts.append("    M         'MARKER'                 'INTEND'\nRHS\n")
    parts += [line(["RHS", row, str(draw.randrange(1000))]) for row in rows]
    parts.append("BOUNDS\n")
    bounded = range(terms // TERMS_OF_A_COLUMN)
    parts += [f" UP BND       flow_{number:07}  {draw.randrange(1, 50)}\n" for number in bounded]
    text = "".join(parts) + "ENDATA\n"
    path.write_text(text)
    return len(text)


def write_names(path, count):
    """Writes a file with so many rows and as many columns, each with one term; its length in bytes."""
    rows = [f"r{number}" for number in range(count)]
    text = "NAME\nROWS\n N C\n" + "".join(f" G {row}\n" for row in rows) + "COLUMNS\n"
    text += "".join(f" x{number} {row} 1\n" for number, row in enumerate(rows)) + "ENDATA\n"
    path.write_text(text)
    return len(text)


def run(program, words, folder, given):
    """Runs the program once: its wall clock seconds, its processor seconds, and its standard output."""
    output = pathlib.Path(folder) / "printed"
    before, start = resource.getrusage(resource.RUSAGE_CHILDREN), time.perf_counter()
    with open(given, "rb") as source, open(output, "wb") as sink:
        subprocess.run([str(program), *words], cwd=folder, stdin=source, stdout=sink, check=False)
    seconds, after = time.perf_counter() - start, resource.getrusage(resource.RUSAGE_CHILDREN)
    spent = after.ru_utime - before.ru_utime + after.ru_stime - before.ru_stime
    return seconds, spent, output.read_bytes()


def measured(program, words, folder, wanted, given=os.devnull):
    """The least seconds of three runs, the least processor seconds, and the peak of memory in KiB or None."""
    runs = [run(program, words, folder, given) for _ in range(3)]
    if wanted not in runs[0][2]:
        sys.exit(f"{program} prints {runs[0][2]}")
    return min(r[0] for r in runs), min(r[1] for r in runs), peak(program, words, folder, given)


def row(label, name, length, seconds, spent, held):
    """A line of the table."""
    shown = "-" if held is None else f"{held / 1024:.0f}"
    return f"| {label} | {name} | {seconds:.2f} | {spent:.2f} | {length / 1e6 / spent:.0f} | {shown} |"


def main():
    proved, other = built("reader_bench"), shutil.which("glpsol")
    if other is None:
        sys.exit("no glpsol")
    version = subprocess.run([other, "--version"], capture_output=True, text=True, check=True).stdout.split("\n")[0]
    cases = [*(("terms", write_terms, size) for size in SIZES), ("rows and columns", write_names, SIZES[-1])]
    table, times = [], []
    with tempfile.TemporaryDirectory() as folder:
        file = pathlib.Path(folder) / "model.mps"
        for label, write, count in cases:
            length = write(file, count)
            here = measured(proved, ["mps"], folder, b"variables", given=str(file))
            there = measured(other, ["--freemps", str(file), "--check"], folder, b"records were read")
            shown = f"{length / 1e6:.0f} MB, {count:,} {label}"
            table += [row(shown, "proved", length, *here), row(shown, "`glpsol --check`", length, *there)]
            times.append((length, here[1], there[1]))
    few, many = times[:2]
    text = f"""## Reading an MPS file

Written by `bench/mps.py`, on {machine()}.
The files have the layout of fixed MPS with long names: ten terms a column, a hundred a row, right-hand sides and bounds;
the last one has as many rows and columns as terms. Seconds are the least of three runs of a whole process, which makes
the whole draft and prints its sizes; beside it {version.removeprefix("GLPSOL--")}, which reads the file into its own
model and stops. Processor seconds count the process alone, whatever else the machine does; MB are millions of bytes, a
second of the processor; memory is the peak as `/usr/bin/time` tells it.

| File | Program | Seconds | Processor seconds | MB a second | Peak memory, MiB |
|---|---|---|---|---|---|
""" + "\n".join(table) + f"""

{many[0] / few[0]:.1f} times the bytes take {many[1] / few[1]:.1f} times as long here, and {many[2] / few[2]:.1f} times in \
glpsol: the time grows with the length of the file.
"""
    put("mps", text)
    print(text)


if __name__ == "__main__":
    main()
