#!/usr/bin/env python3
"""Compares the optimum of what reader_bench reads of MPS files with what glpsol (Debian's glpk-utils) finds for them.

usage: scripts/compare_glpsol.py [--files N] [--seed S]     after 'rt run' in crates/reader_bench

The files have integer columns in small boxes, whole coefficients, ranges of all signs, bounds of the kinds that close a
box, and both directions. What reader_bench prints of a file is solved by trying all points of its box. Each file whose
optima differ is shown. Status 0 where there is none, else 1. It stands beside the gate, and builds nothing.

Where the two formats differ, the files keep to what both have, or the script says so to glpsol:
- glpsol adds the right-hand side of the objective as it stands; here, as in CPLEX, minus it is the constant.
- glpsol has neither OBJSENSE nor INDICATORS nor SC: it is told the direction by its words, and the others aren't drawn.
- An integer column by markers with a lower bound alone ends at 1 there, and has no upper bound here: each gets one.
- A second bound on one side of a column is refused there, and replaces the first one here: none is drawn.
- A line of RHS, RANGES or BOUNDS without a set's name isn't always read there: each line has one.
"""
import argparse
import collections
import itertools
import os
import pathlib
import random
import shutil
import subprocess
import sys
import tempfile

TOP = pathlib.Path(__file__).resolve().parent.parent
PROGRAM = pathlib.Path(os.environ.get("READER_BENCH", TOP / "crates" / "reader_bench" / "out" / "reader_bench"))


def bounds_of(draw, column, marked):
    """Lines of BOUNDS that leave the column integer and in a small box."""
    low = draw.randrange(-3, 3)
    high = low + draw.randrange(5)
    high_at_least_0 = max(0, high)
    if marked:
        ways = [[("BV",)], [("FX", low)], [("LO", low), ("UP", high)], [("UP", high), ("LO", low)],
                [("UP", high_at_least_0)], []]
    else:
        ways = [[("BV",)], [("LI", low), ("UI", high)], [("LO", low), ("UI", high)], [("UP", high), ("LI", low)],
                [("UI", high_at_least_0)]]
    return [" ".join(["", kind, "BND", column, *map(str, value)]) for kind, *value in draw.choice(ways)]


def columns_of(draw, rows, columns, marked):
    """The lines of COLUMNS."""
    lines, opened = [], False
    for column in columns:
        if marked[column] != opened:
            opened = marked[column]
            lines.append(f" M 'MARKER' {chr(39)}{'INTORG' if opened else 'INTEND'}{chr(39)}")
        entries = [f"{row} {draw.randrange(-4, 5)}" for row in rows if draw.random() < 0.8] or [f"{rows[0]} 1"]
        while entries:
            taken = 2 if len(entries) > 1 and draw.random() < 0.5 else 1
            lines.append(f" {column} {' '.join(entries[:taken])}")
            entries = entries[taken:]
    return lines + ([" M 'MARKER' 'INTEND'"] if opened else [])


def random_file(draw):
    """The text of a file, and the right-hand side of its objective."""
    rows = [f"R{n}" for n in range(draw.randrange(1, 4))]
    columns = [f"X{n}" for n in range(draw.randrange(1, 5))]
    marked = {column: draw.random() < 0.6 for column in columns}
    kinds = {row: draw.choice("LGELGN") for row in rows}
    lines = ["NAME T", "ROWS", " N COST", *(f" {kinds[row]} {row}" for row in rows)]
    lines += ["COLUMNS", *columns_of(draw, ["COST", *rows], columns, marked)]
    constant = draw.choice([0, 0, 3, -2])
    sides = [f" RHS {row} {draw.randrange(-5, 6)}" for row in rows if draw.random() < 0.8]
    lines += ["RHS", f" RHS COST {constant}", *sides]
    ranges = [f" RNG {row} {draw.randrange(-4, 5)}" for row in rows if kinds[row] != "N" and draw.random() < 0.6]
    lines += ["RANGES", *ranges] if ranges else []
    bounds = [line for column in columns for line in bounds_of(draw, column, marked[column])]
    lines += ["BOUNDS", *bounds] if bounds else []
    return "\n".join(lines + ["ENDATA", ""]), constant


def whole(word):
    """A whole number that is printed as 'P/0', 'P/S' with S zeros behind, or is huge."""
    if word.endswith("huge"):
        return float(word.replace("huge", "inf"))
    digits, places = word.split("/")
    number, rest = divmod(int(digits), 10 ** int(places))
    if rest:
        sys.exit(f"{word} is no whole number")
    return number


def terms_of(words):
    """Pairs of a column's place and a coefficient."""
    return [(int(words[at]), whole(words[at + 1])) for at in range(0, len(words), 2)]


def held_to(words):
    """The least and the greatest sum of a row, and its terms."""
    if words[0] == "ranged":
        side, span = whole(words[2]), whole(words[3])
        below = words[1] == "L" or (words[1] == "E" and span < 0)
        low, high = (side - abs(span), side) if below else (side, side + abs(span))
        return low, high, terms_of(words[4:])
    side, none = whole(words[1]), float("inf")
    low, high = {"le": (-none, side), "ge": (side, none), "eq": (side, side)}[words[0]]
    return low, high, terms_of(words[2:])


def optimum_of(draft):
    """The optimum of a printed draft, None where no point is feasible."""
    maximize, boxes, cost, constant, rows = draft[0] == "maximize", [], [], 0, []
    for line in draft[1:]:
        sort, *words = line.split(" ")
        if sort == "var":
            if words[1] != "integer":
                sys.exit(f"{line}: it isn't integer")
            low, high = (whole(word) if word != "-" else 0 for word in words[2:4])
            boxes.append(range(low, high + 1))
        elif sort == "cost":
            cost += terms_of(words)
        elif sort == "constant":
            constant += whole(words[0])
        else:
            rows.append(held_to(words))
    best = None
    for point in itertools.product(*boxes):
        if all(low <= sum(a * point[j] for j, a in terms) <= high for low, high, terms in rows):
            value = constant + sum(a * point[j] for j, a in cost)
            if best is None or (value > best if maximize else value < best):
                best = value
    return best


def listed(data):
    """The draft that reader_bench prints of the bytes."""
    done = subprocess.run([str(PROGRAM), "mps-draft"], input=data, capture_output=True, check=True)
    return done.stdout.decode().splitlines()


def solved(text, direction, folder):
    """The optimum that glpsol finds, None where it finds no feasible point."""
    file, note = pathlib.Path(folder) / "model.mps", pathlib.Path(folder) / "found"
    file.write_text(text)
    note.unlink(missing_ok=True)
    words = ["glpsol", "--freemps", str(file), direction, "-w", str(note)]
    done = subprocess.run(words, capture_output=True, text=True, check=False)
    if not note.exists():
        sys.exit(f"glpsol doesn't solve\n{text}{done.stdout}")
    shown = [line.split() for line in note.read_text().splitlines() if line.startswith("s ")][0]
    # s mip ROWS COLUMNS STATUS VALUE: the status is o where it is optimal, n where there is no point
    return round(float(shown[5])) if shown[4] == "o" else None


def main():
    parser = argparse.ArgumentParser(description="Compares what reader_bench reads of MPS files with glpsol.")
    parser.add_argument("--files", type=int, default=200, help="how many random files (200)")
    parser.add_argument("--seed", type=int, default=1, help="what they are drawn from (1)")
    chosen = parser.parse_args()
    if not os.access(PROGRAM, os.X_OK):
        sys.exit(f"no program {PROGRAM}: build it first, by 'rt run' in crates/reader_bench")
    if shutil.which("glpsol") is None:
        sys.exit("no glpsol")
    draw, wrong, met = random.Random(chosen.seed), 0, collections.Counter()
    with tempfile.TemporaryDirectory() as folder:
        for _ in range(chosen.files):
            text, constant = random_file(draw)
            word, direction = draw.choice([("", "--min"), ("OBJSENSE MAX\n", "--max")])
            here = optimum_of(listed((word + text).encode()))
            there = solved(text, direction, folder)
            met["without a feasible point" if here is None else "with an optimum"] += 1
            if here != (None if there is None else there - 2 * constant):
                wrong += 1
                print(f"DIFFERS: {here} here, {there} there\n{word}{text}")
    counts = ", ".join(f"{count} {name}" for name, count in sorted(met.items()))
    print(f"{chosen.files} files, {wrong} differences: {counts}")
    sys.exit(1 if wrong else 0)


if __name__ == "__main__":
    main()
