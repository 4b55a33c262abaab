#!/usr/bin/env python3
"""Measures runs to the proved optimum on the built search_bench, and writes its part of docs/performance.md.

usage: bench/search.py        after search_bench was built, by 'rt run' in crates/search_bench
"""
import pathlib
import re
import resource
import tempfile
import time

from families import Binary, assignment, demo, halves, queens
from tables import built, machine, peak, put, seconds_and_text

LIMIT = 2_000_000
MOST_RUNS = 2000
LEAST_RUNS = 3
MOST_SECONDS = 9
LEAST = 0.001


def sparse(count, rows):
    """Many variables in rows of four terms: a node's cost should not grow with their number."""
    weights = [(37 * j) % 11 + 1 for j in range(count)]
    lines = [([((i * count // rows + k) % count, weights[(i + 7 * k) % count]) for k in range(4)], "<=", 12)
             for i in range(rows)]
    return Binary(f"{count} binaries in {rows} rows of 4 terms", True, [(53 * j) % 17 + 1 for j in range(count)], lines)


def two_rows():
    """Two rows of 16 binaries, whose sum is maximised while three times the sum of each row is at most 25: both rows at
    once tell the optimum, and no single row does."""
    lines = [([(j, 3) for j in range(begin, begin + 16)], "<=", 25) for begin in (0, 16)]
    return Binary("2 rows of 16 binaries, three times their sum at most 25", True, [1] * 32, lines)


CASES = [(demo(24), LIMIT), (demo(32), LIMIT), (demo(40), LIMIT), (demo(60), LIMIT), (queens(6), LIMIT),
         (queens(8), LIMIT), (assignment(7), LIMIT), (halves(), 1000), (two_rows(), 1000), (sparse(200, 100), 20_000),
         (sparse(2000, 1000), 20_000)]


def lines_of(model):
    """The model as search_bench reads it, minimised."""
    def listed(terms):
        return " ".join(map(str, [len(terms), *(n for term in sorted(terms) for n in term)]))
    turn = -1 if model.maximised else 1
    lines = ["var 0 1"] * model.count + ["cost " + listed([(j, turn * c) for j, c in enumerate(model.cost) if c])]
    for terms, sign, side in model.rows:
        assert sign in ("<=", "="), sign
        least = "0 0" if sign == "<=" else f"1 {side}"
        lines.append(f"row {least} 1 {side} " + listed([term for term in terms if term[1]]))
    return "\n".join(lines) + "\n"


def spent(program, folder, given):
    """The processor seconds of a run, and what it printed."""
    before = resource.getrusage(resource.RUSAGE_CHILDREN)
    _, printed = seconds_and_text(program, [], folder, given)
    after = resource.getrusage(resource.RUSAGE_CHILDREN)
    return after.ru_utime + after.ru_stime - before.ru_utime - before.ru_stime, printed


def least(program, folder, files):
    """Of each file the least processor seconds of some runs, fewer of them where a run is long, and what the last one
    printed. The files are run in turn, so that all of them meet the same times of a machine."""
    taken, begun = [], time.monotonic()
    while len(taken) < LEAST_RUNS or (len(taken) < MOST_RUNS and time.monotonic() - begun < MOST_SECONDS):
        taken.append([spent(program, folder, given) for given in files])
    return [(min(seconds for seconds, _ in runs), runs[-1][1]) for runs in zip(*taken)]


def row_of(program, folder, model, limit):
    """Runs a model, and answers its row of the table."""
    first, given = pathlib.Path(folder, "first"), pathlib.Path(folder, "lines")
    text = lines_of(model)
    first.write_text("0 1 0\n" + text)
    given.write_text(f"0 {limit} 0\n" + text)
    (begun, _), (seconds, printed) = least(program, folder, [first, given])
    end, value, nodes = re.match(rb"(\w+) best (?:Some\()?(-?\w+)\)? nodes (\d+)", printed).groups()
    each = f"{(seconds - begun) / int(nodes) * 1e9:,.0f}" if seconds - begun >= LEAST else "-"
    held = peak(program, [], folder, given=given)
    return (f"| {model.name} | {end.decode()} {value.decode()} | {int(nodes):,} | {seconds:.4f} | {each} | "
            f"{'-' if held is None else f'{held / 1024:.1f}'} |")


def main():
    program = built("search_bench")
    lines = []
    with tempfile.TemporaryDirectory() as folder:
        for model, limit in CASES:
            lines.append(row_of(program, folder, model, limit))
            print(lines[-1], flush=True)
    put("search", f"""## Runs to the optimum

Written by `bench/search.py`, on {machine()}. The search asks the finder before its steps where the model has two rows or
more and isn't too large for it, and a node's time includes the finder's. Processor seconds are the least of {MOST_RUNS}
runs of a whole process, which reads the model from lines, or of as many as {MOST_SECONDS} seconds have room for, but of
{LEAST_RUNS} at least; nanoseconds a node are those of a run less one that stops at the first node, where the two differ
by a millisecond at least. Memory is the peak as `/usr/bin/time` tells it. Values are those of the
minimised model. The models are the ones of `bench/families.py`, two rows that only a list of both bounds, and two
models with many variables and few terms a row.

| Model | End and best value | Nodes | Processor seconds | ns a node | Peak memory, MiB |
|---|---|---|---|---|---|
""" + "\n".join(lines) + """

Most of the time of the 200 binaries is the finder's. For the model of 2,000, which has more rows times variables than
the finder takes, there is none, and a node costs what its short columns do.
""")


if __name__ == "__main__":
    main()
