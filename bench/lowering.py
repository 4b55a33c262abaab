#!/usr/bin/env python3
"""Measures how fast drafts are lowered and names are added, and writes their part of docs/performance.md.

usage: bench/lowering.py     after 'rt run' in crates/lower_bench
"""
import pathlib
import random
import resource
import subprocess
import sys
import tempfile

from tables import built, machine, peak, put

SEED = 29
VARIABLES = 2_000
ROUNDS = (10, 110)
CHAIN = 32
NAME_BYTES = 60_000_000


def spent(program, words, given):
    """The processor seconds of one run, and what it printed."""
    before = resource.getrusage(resource.RUSAGE_CHILDREN)
    with open(given, "rb") as source:
        done = subprocess.run([str(program), *words], stdin=source, capture_output=True, check=True)
    after = resource.getrusage(resource.RUSAGE_CHILDREN)
    return after.ru_utime - before.ru_utime + after.ru_stime - before.ru_stime, done.stdout


def least(program, words, given, runs=3):
    """The least processor seconds of some runs, and what the last one printed."""
    results = [spent(program, words, given) for _ in range(runs)]
    return min(r[0] for r in results), results[-1][1]


def write_draft(path, terms, of_a_row, bound, decimals):
    """Writes a draft of 2,000 variables and so many terms in rows of one length."""
    draw = random.Random(SEED)
    lines = [f"var int 0 {bound}"] * VARIABLES
    for _ in range(terms // of_a_row):
        chosen = draw.sample(range(VARIABLES), of_a_row)
        values = [f"{draw.randrange(1, 100)}.{draw.randrange(10 ** decimals)}" if decimals else str(draw.randrange(1, 100)) for _ in chosen]
        lines.append("row le 1000 " + " ".join(f"{var} {value}" for var, value in zip(chosen, values)))
    path.write_text("\n".join(lines) + "\nend\n")


def write_chain(path, keeps_open):
    """Writes a draft of 200,000 terms in 10,000 rows, whose first 32 rows close the upper bounds of 32 variables, one a round.
    The others have no such variable, or all of them the one that is closed last, in a row that closes nothing."""
    draw = random.Random(SEED)
    closed = range(CHAIN, VARIABLES)
    lines = ["var int 0 -"] * CHAIN + ["var int 0 10"] * (VARIABLES - CHAIN)
    for last in reversed(range(CHAIN)):
        whole = f"row le 0 {last} 1 {last - 1} -1 " if last else "row le 5 0 1 "
        lines.append(whole + " ".join(f"{var} 1" for var in draw.sample(closed, 18 if last else 19)))
    for _ in range(10_000 - CHAIN):
        terms = " ".join(f"{var} {draw.randrange(1, 100)}" for var in draw.sample(closed, 19 if keeps_open else 20))
        lines.append(f"row ge 1 {CHAIN - 1} 1 {terms}" if keeps_open else f"row le 1000 {terms}")
    path.write_text("\n".join(lines) + "\nend\n")


def lowered(program, given, runs=3, rounds=ROUNDS):
    """Seconds to lower the draft once: the difference between runs of two numbers of rounds."""
    few, many = (least(program, ["rounds", str(count)], given, runs)[0] for count in rounds)
    return (many - few) / (rounds[1] - rounds[0])


def chain_table(program, file):
    """The lines of the table of bounds that rows close one a round."""
    table = []
    for keeps_open, others in ((False, "no open variable"), (True, "the variable that is closed last, and close nothing")):
        write_chain(file, keeps_open)
        table.append(f"| {others} | {lowered(program, file, rounds=(2, 12)):.2f} |")
    return table


def write_names(path, length, distinct):
    """Writes 60 MB of names of one length, so many of them different, all in one order again and again; how many there are."""
    names = [f"{number:0{length}}" for number in range(distinct)]
    rounds = NAME_BYTES // (distinct * (length + 1))
    path.write_text(" ".join(names * rounds))
    return distinct * rounds


def draft_table(program, file):
    """The lines of the table of drafts, the seconds of each, and the peaks of memory."""
    cases = [(100_000, 100, "10", 3), (200_000, 100, "10", 3), (200_000, 20, "10", 3), (200_000, 2_000, "10", 3),
             (200_000, 100, "10", 0), (200_000, 100, "-", 3)]
    table, times, peaks = [], [], []
    for terms, of_a_row, bound, decimals in cases:
        write_draft(file, terms, of_a_row, bound, decimals)
        seconds = lowered(program, file)
        held = peak(program, ["rounds", "1"], str(file.parent), given=str(file))
        bounds = "no upper bounds" if bound == "-" else "bounds"
        table.append(f"| {terms:,} | {terms // of_a_row:,} of {of_a_row:,} terms, {decimals} decimals, {bounds} | {seconds:.3f} | "
                     f"{seconds / terms * 1e9:.0f} | {held / 1024:.1f} |")
        times.append(seconds)
        peaks.append(held)
    return table, times, peaks


def name_table(program, file):
    """The lines of the table of names."""
    table = []
    for length, distinct in ((4, 2_000), (9, 2_000), (255, 2_000), (255, 100_000), (29, 1_000_000), (7, 3_750_000)):
        count = write_names(file, length, distinct)
        seconds, printed = least(program, ["names"], file)
        if printed != f"names {distinct}\n".encode():
            sys.exit(f"{printed} in place of {distinct} names")
        held = peak(program, ["names"], str(file.parent), given=str(file))
        table.append(f"| {count:,} of {length} bytes, {distinct:,} different | {seconds:.2f} | {seconds / count * 1e9:.0f} | {held / 1024:.0f} |")
    return table


def main():
    program = built("lower_bench")
    with tempfile.TemporaryDirectory() as folder:
        file = pathlib.Path(folder) / "given"
        drafts, times, peaks = draft_table(program, file)
        chains = chain_table(program, file)
        names = name_table(program, file)
    of_a_term = (peaks[1] - peaks[0]) * 1024 / 100_000
    text = f"""## Lowering a draft

Written by `bench/lowering.py`, on {machine()}. Processor seconds to lower a draft of 2,000 variables once, its model
made and dropped: the difference between runs of two numbers of rounds, each the least of three. Memory is the peak of a
process that reads the draft from text and lowers it once, as `/usr/bin/time` tells it.

| Terms | Rows | Seconds | ns a term | Peak memory, MiB |
|---|---|---|---|---|
""" + "\n".join(drafts) + f"""

Twice the terms take {times[1] / times[0]:.1f} times as long: the time grows with the written terms, but for the sort of
each row's terms. A written term takes {of_a_term:.0f} bytes at that peak: its text, 48 in the draft, 32 in the model, and
lists that grow by doubling.

A chain of 32 variables without upper bounds, which 32 rows close in 32 rounds, in 10,000 rows of 20 terms:

| The other rows have | Seconds |
|---|---|
""" + "\n".join(chains) + """

A line of 60 MB, whose fields are added to a list of names one after another (`Names::add`):

| Names | Seconds | ns a name | Peak memory, MiB |
|---|---|---|---|
""" + "\n".join(names) + """

A name that is known is looked up and not copied; a new one is copied and takes its bytes and some 65 more.
"""
    put("lowering", text)
    print(text)


if __name__ == "__main__":
    main()
