#!/usr/bin/env python3
"""Measures what a written term costs in `feasible` and `value`, beside the same loops in Rust, and what `closed_box`
costs, and writes its part of docs/performance.md.

usage: bench/model.py       after 'rt run' in crates/model_bench; needs rustc, and builds bench/model_bench.rs alone
"""
import pathlib
import shutil
import subprocess
import sys
import tempfile

from tables import TOP, best, built, least, machine, put

VARIABLES, TERMS = 2000, 100_000
# the question, the terms that one round adds up, and the two numbers of rounds
QUESTIONS = [("feasible", TERMS, 1_000, 5_000), ("value", VARIABLES, 50_000, 250_000)]
# the terms of the model whose box is closed, and the two numbers of rounds; its first variable is closed to 9
CLOSED, ROUNDS, GREATEST = 200_000, (2, 22), 9


def each_term(program, question, terms, few, many, folder):
    """Nanoseconds a term, by the difference of two numbers of rounds, and what was printed."""
    (short, first), (long, last) = (
        best(program, [question, str(VARIABLES), str(TERMS), str(rounds)], folder) for rounds in (few, many))
    return (long - short) / ((many - few) * terms) * 1e9, (first, last)


def closing(program, folder):
    """Processor seconds to close the box once, by the difference of two numbers of rounds."""
    taken = []
    for rounds in ROUNDS:
        seconds, printed = least(program, ["close", str(VARIABLES), str(CLOSED), str(rounds)], folder)
        if printed != f"checksum {rounds * GREATEST}\n".encode():
            sys.exit(f"close: {rounds} rounds print {printed}")
        taken.append(seconds)
    return (taken[1] - taken[0]) / (ROUNDS[1] - ROUNDS[0])


def main():
    proved = built("model_bench")
    if shutil.which("rustc") is None:
        sys.exit("no rustc to build bench/model_bench.rs with")
    with tempfile.TemporaryDirectory() as folder:
        plain = pathlib.Path(folder) / "plain"
        source = TOP / "bench" / "model_bench.rs"
        subprocess.run(["rustc", "-O", "--edition", "2021", "-o", str(plain), str(source)], check=True)
        table = []
        for question, terms, few, many in QUESTIONS:
            here, printed = each_term(proved, question, terms, few, many, folder)
            there, expected = each_term(plain, question, terms, few, many, folder)
            if printed != expected:
                sys.exit(f"{question}: the two programs print {printed} and {expected}")
            table.append(f"| `{question}` | {terms:,} | {here:.2f} | {there:.2f} | {here / there:.2f} |")
        closed = closing(proved, folder)
        rust = subprocess.run(["rustc", "--version"], capture_output=True, text=True).stdout.split(" (")[0]
    text = f"""## A term of the model

Written by `bench/model.py`, on {machine()}. Nanoseconds for each written term of a model with {VARIABLES:,} variables
and {TERMS:,} terms in 50 rows, all of which hold: the difference between runs of two numbers of rounds, each the least of
three. Beside it the same loops in Rust ({rust}, `-O`) with `checked_mul` and `checked_add`; both programs print the
same sums.

| Call | Terms a call | ns a term, proved | ns a term, Rust with checks | Proved over Rust |
|---|---|---|---|---|
""" + "\n".join(table) + f"""

`feasible` looks at the rows in order and stops at the first one that doesn't hold; `value` reads the objective's terms.
Both take no memory, and both grow with the written terms alone.

`closed_box` of a model with {CLOSED:,} terms in {CLOSED // 20:,} rows, {VARIABLES:,} variables and 32 rounds that each close one
bound: {closed:.3f} processor seconds a call, the difference between {ROUNDS[0]} and {ROUNDS[1]} calls. The rows that
close nothing have the variable that is closed last.
"""
    put("model", text)
    print(text)


main()
