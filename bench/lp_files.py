#!/usr/bin/env python3
"""Measures how fast an LP file is read, beside its tokens alone and `glpsol --check` on the same file, and writes its
part of docs/performance.md.

usage: bench/lp_files.py      after 'rt run' in crates/lp_bench; needs glpsol (Debian's glpk-utils)
"""
import pathlib
import random
import shutil
import subprocess
import sys
import tempfile

from mps import measured, row
from tables import built, machine, put

SEED = 29


def write_rows(path, mebibytes, count):
    """Writes a file as CPLEX lays it out, of rows with two to eight terms over so many names; its length in bytes."""
    draw = random.Random(SEED)
    names = [f"x{number}" for number in range(count)]
    parts = ["\\Problem name: measured\n\nMinimize\n obj: x0 + 2 x1\nSubject To\n"]
    length, limit = 0, mebibytes * 2**20
    while length < limit:
        chosen = draw.sample(names, draw.randrange(2, 9))
        text = " + ".join(f"{draw.randrange(1, 1000)}.{draw.randrange(10)} {name}" for name in chosen)
        parts.append(f" c{len(parts)}: {text} {draw.choice(['<=', '>=', '='])} {draw.randrange(1000)}\n")
        length += len(parts[-1])
    parts.append("Bounds\n" + "".join(f" 0 <= {name} <= 40\n" for name in names[:1000]))
    parts.append("Generals\n " + "\n ".join(names[:1000]) + "\nEnd\n")
    text = "".join(parts)
    path.write_text(text)
    return len(text)


def write_line(path, mebibytes, terms):
    """Writes a file whose objective is a single line of so many names, of 48 bytes a term; its length in bytes."""
    items = (f"{place % 9 + 1}.{place % 10} quantity_shipped_from_{place:07}_to_north" for place in range(terms))
    text = "Maximize\n obj: " + " + ".join(items) + "\nSubject To\n c: y >= 1\nEnd\n"
    path.write_text(text)
    return len(text)


# how each file is called, what writes it, its size in MiB, and its names
CASES = [
    ("of rows", write_rows, 8, 15_000),
    ("of rows", write_rows, 32, 15_000),
    ("of rows", write_rows, 32, 80_000),
    ("in one line", write_line, 60, 1_310_720),
]


def main():
    proved, other = built("lp_bench"), shutil.which("glpsol")
    if other is None:
        sys.exit("no glpsol")
    version = subprocess.run([other, "--version"], capture_output=True, text=True, check=True).stdout.split("\n")[0]
    table, ratios = [], []
    with tempfile.TemporaryDirectory() as folder:
        file = pathlib.Path(folder) / "model.lp"
        for label, write, size, names in CASES:
            length = write(file, size, names)
            shown = f"{length / 1e6:.0f} MB {label}, {names:,} names"
            here = measured(proved, ["count"], folder, b"variables", given=str(file))
            tokens = measured(proved, ["tokens"], folder, b"tokens", given=str(file))
            there = measured(other, ["--lp", str(file), "--check"], folder, b"lines were read")
            ratios.append((length, here[1], tokens[1], there[1]))
            table += [row(shown, name, length, *times) for name, times in
                      (("proved", here), ("its tokens alone", tokens), ("`glpsol --check`", there))]
    few, many, more, long = ratios
    text = f"""## Reading an LP file

Written by `bench/lp_files.py`, on {machine()}. The rows have two to eight
terms with decimals; the last file is an objective in one line, in which no name comes twice. Seconds are the least of
three runs of a whole process, which makes the whole draft and prints its sizes, or makes the list of the tokens alone;
beside it {version.removeprefix("GLPSOL--")}, which reads the file into its own model and stops. Processor seconds
count the process alone; MB are millions of bytes, a second of the processor; memory is the peak as `/usr/bin/time`
tells it.

| File | Program | Seconds | Processor seconds | MB a second | Peak memory, MiB |
|---|---|---|---|---|---|
""" + "\n".join(table) + f"""

{many[0] / few[0]:.1f} times the bytes take {many[1] / few[1]:.1f} times as long here, and \
{many[3] / few[3]:.1f} times in glpsol. The rows of {many[0] / 1e6:.0f} MB take {many[1] / many[2]:.2f} times
what their tokens take over 15,000 names, {more[1] / more[2]:.2f} times over 80,000, the line of names that are all new \
{long[1] / long[2]:.2f} times.
"""
    put("lp", text)
    print(text)


if __name__ == "__main__":
    main()
