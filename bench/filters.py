#!/usr/bin/env python3
"""Measures what a filter costs at a point and over a box, and writes its part of docs/performance.md.

usage: bench/filters.py     after 'rt run' in crates/filter_bench
"""
import os
import pathlib
import random
import resource
import subprocess
import sys
import tempfile

from tables import built, machine, put

SEED = 31
VARIABLES = 2_000
# held filters, filters that were removed before, and the terms of each
SIZES = [(1, 0, 100), (1, 0, 2_000), (1, 63, 2_000), (64, 0, 2_000)]


def least(program, lines, file, runs=3):
    """The least seconds of the user's part of the processor in some runs on the lines, and the lines that were printed."""
    file.write_text("\n".join(lines) + "\n")
    taken, printed = [], b""
    for _ in range(runs):
        before = resource.getrusage(resource.RUSAGE_CHILDREN).ru_utime
        with open(file, "rb") as source:
            printed = subprocess.run([str(program)], stdin=source, capture_output=True, check=True).stdout
        taken.append(resource.getrusage(resource.RUSAGE_CHILDREN).ru_utime - before)
    return min(taken), printed.decode().split("\n")


def filter_line(draw, kind, name, terms):
    """A filter over distinct variables that every point of the box passes."""
    chosen = draw.sample(range(VARIABLES), terms)
    reference = " 3" if kind == "diversity" else ""
    return f"{kind} {name} - 1000000000 " + " ".join(f"{var} {draw.randrange(1, 100)}{reference}" for var in chosen)


def seconds(program, file, lines, question, answer, rounds):
    """Seconds of one question: the difference between a run with so many rounds and one with a tenth of them."""
    times = []
    for count in (rounds // 10, rounds):
        taken, printed = least(program, [*lines, question.format(count)], file)
        if answer.format(count) not in printed:
            sys.exit(f"{printed[-3:]} without {answer.format(count)}")
        times.append(taken)
    return (times[1] - times[0]) / (rounds - rounds // 10)


def main():
    program, draw = built("filter_bench"), random.Random(SEED)
    model = "model " + " ".join("0 10" for _ in range(VARIABLES))
    point = " ".join("4" for _ in range(VARIABLES))
    table = []
    with tempfile.TemporaryDirectory() as folder:
        file = pathlib.Path(folder) / "given"
        for kind, held, gone, terms in [(k, *sizes) for k in ("range", "diversity") for sizes in SIZES]:
            lines = [model] + [filter_line(draw, kind, f"f{number}", terms) for number in range(held + gone)]
            lines += [f"remove f{number}" for number in range(gone)]
            rounds = 100_000_000 // (held * terms)
            at_point = seconds(program, file, lines, "point {} " + point, "passes Some({})", rounds)
            over_box = seconds(program, file, lines, "box {}", "closes Some(0) Some(false)", rounds) / held
            name = f"{held} {kind} of {terms:,} terms" + (f", {gone} more removed" if gone else "")
            table.append(f"| {name} | {at_point * 1e6:.2f} | {at_point / held / terms * 1e9:.2f} | "
                         f"{over_box * 1e6:.2f} | {over_box / terms * 1e9:.2f} |")
    load = os.getloadavg()[0]
    text = f"""## A filter

Written by `bench/filters.py`, on {machine()}. Microseconds of the user's part of the processor for `Filters::passes` at a
point that passes, which asks all held filters, and for `Filters::closed` of one held filter over a box that it doesn't
close: the difference between runs of two numbers of rounds, each the least of three. A run asks each held filter in turn.

| Held filters | µs, `passes` | ns a term | µs, `closed` | ns a term |
|---|---|---|---|---|
""" + "\n".join(table) + f"""

Both grow with the terms of the filters that are asked, and a filter that isn't held any more costs nothing. They take no memory. The terms of 64 long filters are more than a core keeps near, so that each takes longer.

{'The machine was loaded with other work' if load > 1.5 else 'The machine had little other work'}: its load was
{load:.1f} at the end, with {os.cpu_count()} processors.
"""
    put("filter", text)
    print(text)


if __name__ == "__main__":
    main()
