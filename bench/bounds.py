#!/usr/bin/env python3
"""Measures what a bound costs by both calls, and a change of one bound beside kept lists, and writes its part of
docs/performance.md.

usage: bench/bounds.py [--loaded]      after 'rt run' in crates/bound_bench
"""
import pathlib
import resource
import subprocess
import sys
import tempfile

from tables import built, machine, put

VARIABLES, TERMS, RUNS = 2_000, 10, 5
# entries of the list, and for each call the two numbers of rounds
SIZES = [(0, (20, 220), (500, 10_500)), (1, (20, 220), (500, 10_500)), (10, (20, 120), (500, 10_500)),
         (1_000, (1, 4), (100, 2_100))]
CHANGES = (100_000, 2_100_000)


def coefficient(row, var):
    return (7 * var + 13 * row) % 19 + 1


def model_words(rows, costs):
    """A model whose variables go from 0 to 9, whose first variables have a cost, with rows of ten terms."""
    words = [VARIABLES] + [0] * VARIABLES + [9] * VARIABLES + [0, costs]
    for var in range(costs):
        words += [var, coefficient(1, var)]
    words.append(rows)
    for row in range(rows):
        first = 7 * row % (VARIABLES - TERMS + 1)
        words += [1, 5, 0, TERMS]
        for var in range(first, first + TERMS):
            words += [var, coefficient(row, var)]
    return words


def asked(rows, plain, quick):
    """A case that asks the list of so many rows so often by either call."""
    words = model_words(rows, VARIABLES) + [0] + [0] * 6 + [0, plain, quick, 1, 7 if rows else 1, rows]
    for row in range(rows):
        words += [row, row % 5 + 1]
    return words


def changed(costs, rounds):
    """A case that changes one end of a range so often, beside the lists of seven rows, of which 64 are kept."""
    return model_words(7, costs) + [1, 10 ** 30] + [rounds, costs, 0, 4, 0, 9] + [0, 0, 0, 0]


def spent(program, words, folder):
    """The least processor seconds of some runs on the case, and what the last one printed."""
    given = pathlib.Path(folder) / "case"
    given.write_text(" ".join(map(str, words)) + "\n")
    least = None
    for _ in range(RUNS):
        before = resource.getrusage(resource.RUSAGE_CHILDREN)
        with open(given, "rb") as source:
            text = subprocess.run([str(program)], stdin=source, capture_output=True, check=True).stdout
        after = resource.getrusage(resource.RUSAGE_CHILDREN)
        seconds = after.ru_utime - before.ru_utime + after.ru_stime - before.ru_stime
        least = seconds if least is None else min(least, seconds)
    return least, text.decode()


def each(program, few, many, rounds, folder):
    """Nanoseconds a round, by the difference of two numbers of rounds."""
    (short, _), (long, _) = spent(program, few, folder), spent(program, many, folder)
    return (long - short) / rounds * 1e9


def main():
    program = built("bound_bench")
    with tempfile.TemporaryDirectory() as folder:
        table = []
        for entries, plain, quick in SIZES:
            slow = each(program, asked(entries, plain[0], 1), asked(entries, plain[1], 1), plain[1] - plain[0], folder)
            fast = each(program, asked(entries, 1, quick[0]), asked(entries, 1, quick[1]), quick[1] - quick[0], folder)
            table.append(f"| {entries:,} | {slow:,.0f} | {fast:,.0f} |")
        changes = []
        for costs in (64, VARIABLES):
            took = each(program, changed(costs, CHANGES[0]), changed(costs, CHANGES[1]), CHANGES[1] - CHANGES[0], folder)
            changes.append(f"| {costs:,} | {took:,.0f} | {took / 65:.1f} |")
    text = f"""## A bound

Written by `bench/bounds.py`, on {machine()}. Processor nanoseconds for one bound of a model with {VARIABLES:,} variables, each of which has a cost, and rows of ten terms: the difference between runs of two numbers of rounds, each the least of {RUNS}. The empty list is that of `Multipliers::zero`.

| Entries of the list | `bound`, ns | `bound_in`, ns |
|---|---|---|
""" + "\n".join(table) + """

A change of one end of a range (`KeptBounds::set`), with the question whether a list closes the box (`closing`), beside the empty list and 64 others, all of which are kept and have a term for nearly each variable that has a cost:

| Variables with a cost | ns a change | ns a list |
|---|---|---|
""" + "\n".join(changes) + """

How the cost grows:

- `bound` looks for each variable in the objective and in each row of the list, so that it grows with the variables times the terms of these. It takes no memory and no scratch.
- `bound_in` goes over the objective, the rows of the list and the variables once each.
- A kept list costs a change of a range where its reduced cost of the variable isn't 0, and nothing else; a new threshold costs each list once.
"""
    if "--loaded" in sys.argv:
        text += "\nThe machine was loaded with other work; processor time is counted for that reason.\n"
    put("bounds", text)
    print(text)


main()
