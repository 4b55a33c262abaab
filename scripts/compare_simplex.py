#!/usr/bin/env python3
"""Compares the bound of the finder's list with the linear optimum that glpsol (Debian's glpk-utils) finds exactly.

usage: scripts/compare_simplex.py [--programs N] [--seed S]     after 'rt run' in crates/simplex_bench

The programs are small and random: up to 14 variables and 10 rows, coefficients up to a million, ranges up to a
thousand, equalities among the rows. A list is close where its bound is within 1 of the linear optimum, and not above
the optimum rounded up; where no point satisfies the rows, where the raised list's bound is higher by a million. Each
program that is missed is shown. Status 0 where at least 95 of 100 are close, else 1. It stands beside the gate, and
builds nothing.
"""
import argparse
import math
import os
import pathlib
import random
import subprocess
import sys
import tempfile

TOP = pathlib.Path(__file__).resolve().parent.parent
PROGRAM = pathlib.Path(os.environ.get("SIMPLEX_BENCH", TOP / "crates" / "simplex_bench" / "out" / "simplex_bench"))
RISE = 1_000_000


def random_row(draw, box, inner, widest, density):
    """Coefficients and sides. Most rows hold at the inner point."""
    row = [draw.choice([-1, 1, 1]) * draw.randint(1, widest) if draw.random() < density else 0 for _ in box]
    if not any(row):
        row[0] = 1
    value = sum(a * x for a, x in zip(row, inner))
    if draw.random() < 0.1:
        value += draw.randint(-widest, widest)
    slack = draw.randint(0, widest)
    return row, *draw.choice([(None, value + slack), (value - slack, None), (value, value), (value - slack, value)])


def random_program(draw):
    """The range and the cost of each variable, and the rows."""
    width, widest = draw.choice([1, 1, 3, 10, 1000]), draw.choice([3, 10, 100, 1_000_000])
    lows = [draw.choice([0, 0, 0, -draw.randint(0, width)]) for _ in range(draw.randint(2, 14))]
    box = [(low, low + draw.randint(1, width)) for low in lows]
    inner = [draw.randint(low, high) for low, high in box]
    density = draw.choice([0.3, 0.6, 1])
    rows = [random_row(draw, box, inner, widest, density) for _ in range(draw.randint(1, 10))]
    return box, [draw.randint(-100, 100) for _ in box], rows


def text_of(box, costs, rows):
    """The program as simplex_bench reads it."""
    lines = [f"{len(box)} {len(rows)}", *(f"{low} {high} {cost}" for (low, high), cost in zip(box, costs))]
    for row, low, high in rows:
        lines.append(" ".join(map(str, [int(low is not None), low or 0, int(high is not None), high or 0, *row])))
    return "\n".join(lines + [""])


def sum_text(numbers):
    return " ".join(f"{'+' if a >= 0 else '-'} {abs(a)} x{j}" for j, a in enumerate(numbers) if a) or "0 x0"


def lp_of(box, costs, rows):
    """The program as an LP file."""
    lines = ["Minimize", f" obj: {sum_text(costs)}", "Subject To"]
    for row, low, high in rows:
        if low == high:
            lines.append(f" {sum_text(row)} = {low}")
        else:
            lines += [f" {sum_text(row)} >= {low}"] if low is not None else []
            lines += [f" {sum_text(row)} <= {high}"] if high is not None else []
    return "\n".join([*lines, "Bounds", *(f" {low} <= x{j} <= {high}" for j, (low, high) in enumerate(box)), "End", ""])


def optimum_of(box, costs, rows):
    """The linear optimum, None where no point satisfies the rows."""
    with tempfile.TemporaryDirectory() as folder:
        source, answer = pathlib.Path(folder, "a.lp"), pathlib.Path(folder, "a.txt")
        source.write_text(lp_of(box, costs, rows))
        subprocess.run(["glpsol", "--lp", source, "--exact", "-o", answer], stdout=subprocess.DEVNULL, check=True)
        fields = dict(line.split(":", 1) for line in answer.read_text().splitlines() if ":" in line)
    return float(fields["Objective"].split("=")[1].split()[0]) if "OPTIMAL" in fields["Status"] else None


def bounds_of(programs):
    """For each program how the search ended, the bound of the list, and that of the raised list."""
    text = "".join(text_of(*program) for program in programs)
    run = subprocess.run([PROGRAM], input=text, capture_output=True, text=True, check=True)
    for line in run.stdout.splitlines():
        outcome, *bounds = line.replace("Some(", "").replace(")", "").split()
        yield outcome, *(None if bound == "None" else int(bound) for bound in bounds)


def is_close(outcome, bound, raised, optimum):
    if bound is None:
        return False
    if optimum is None:
        return outcome == "Unmet" and raised is not None and bound + RISE <= raised
    return optimum - 1 - 1e-6 <= bound <= math.ceil(optimum - 1e-6)


def main():
    words = argparse.ArgumentParser(description=__doc__)
    words.add_argument("--programs", type=int, default=100)
    words.add_argument("--seed", type=int, default=1)
    words = words.parse_args()
    draw, close = random.Random(words.seed), 0
    programs = [random_program(draw) for _ in range(words.programs)]
    for number, (program, found) in enumerate(zip(programs, bounds_of(programs), strict=True)):
        optimum = optimum_of(*program)
        if is_close(*found, optimum):
            close += 1
        else:
            print(f"program {number}: {found}, optimum {optimum}\n{text_of(*program)}")
    print(f"{close} of {words.programs} are close")
    sys.exit(0 if close * 100 >= 95 * words.programs else 1)


if __name__ == "__main__":
    main()
