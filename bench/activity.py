#!/usr/bin/env python3
"""Measures what it takes to change a range of a kept box, and to make all that is kept, and writes its part of
docs/performance.md.

usage: bench/activity.py     after 'rt run' in crates/activity_bench
"""
import os
import pathlib
import resource
import subprocess
import tempfile

from tables import built, machine, put

COLUMNS, SIZES = (1, 10, 100), (200, 2_000)
# the two numbers of rounds for each length of a column
CHANGES = {1: (500_000, 5_500_000), 10: (200_000, 2_200_000), 100: (50_000, 550_000)}
MADE = [(200, 100), (2_000, 10), (2_000, 100)]


def model(size, column):
    """The lines of a model of so many variables and rows, each row with as many terms as each variable has rows."""
    rows = [sorted(((row + step) % size, (7 * row + 13 * step) % 9 + 1) for step in range(column)) for row in range(size)]
    return ["var 0 9"] * size + [f"row 0 0 1 1000000 {column} " + " ".join(f"{var} {a}" for var, a in row) for row in rows]


def least(program, lines, wanted, file, runs=5):
    """The least seconds of the user's part of the processor in some runs on the lines."""
    file.write_text("\n".join(lines) + "\n")
    taken = []
    for _ in range(runs):
        before = resource.getrusage(resource.RUSAGE_CHILDREN).ru_utime
        with open(file, "rb") as source:
            printed = subprocess.run([str(program)], stdin=source, capture_output=True, check=True).stdout
        taken.append(resource.getrusage(resource.RUSAGE_CHILDREN).ru_utime - before)
        if printed != wanted.encode():
            raise SystemExit(f"printed {printed} in place of {wanted!r}")
    return min(taken)


def each(program, lines, question, answer, rounds, file):
    """Seconds a round, by the difference of two numbers of rounds."""
    few, many = (least(program, [*lines, question.format(count)], answer.format(count), file) for count in rounds)
    return (many - few) / (rounds[1] - rounds[0])


def main():
    program = built("activity_bench")
    with tempfile.TemporaryDirectory() as folder:
        file = pathlib.Path(folder) / "given"
        changes = [f"| {column} | " + " | ".join(
            f"{each(program, model(size, column), 'rounds {} 0 5 0 6', 'open {}' + chr(10), CHANGES[column], file) * 1e9:.0f}"
            for size in SIZES) + " |" for column in COLUMNS]
        made = [f"| {size * column:,} | {size:,} | "
                f"{each(program, model(size, column), 'make {}', 'made {}' + chr(10), (2, 42), file) * 1e3:.2f} |"
                for size, column in MADE]
    load = os.getloadavg()[0]
    text = f"""## A change of a kept box

Written by `bench/activity.py`, on {machine()}. Nanoseconds of the user's part of the processor for one change of a
greatest value by `Kept::set`, with the tests whether the range may be set and whether the box is closed then: the
difference between runs of two numbers of rounds, each the least of five. The model has as many rows as variables, and each
row has as many terms as each variable has rows; 100 variables are changed in turn.

| Rows that have the variable | ns, {SIZES[0]:,} variables and rows | ns, {SIZES[1]:,} variables and rows |
|---|---|---|
""" + "\n".join(changes) + """

A change looks at the rows, indicators, sets and cores that have the variable: its time grows with these alone, and not
with the model. It takes no memory.

Milliseconds for `Kept::new`, which makes all that is kept of a model over its closed box: copies of the rows, their
columns, their sums, and which items have a variable; measured in the same way.

| Terms | Variables and rows | ms |
|---|---|---|
""" + "\n".join(made) + f"""

{'The machine was loaded with other work' if load > 1.5 else 'The machine had little other work'}: its load was
{load:.1f} at the end, with {os.cpu_count()} processors.
"""
    put("activity", text)
    print(text)


main()
