#!/usr/bin/env python3
"""Measures the pure integer examples of Debian's package glpk-utils on the built programs, beside glpsol, and writes
its part of docs/performance.md.

usage: bench/glpk_examples.py        after solpool and search_bench were built, by 'rt run' in their crates

glpsol writes each example as an LP file, which solpool and glpsol read, and as a GLPK file, whose numbers
search_bench gets as lines. Each run has sixty seconds. Status 1 where two programs that both end differ in the
optimum. Without glpsol or its examples nothing is measured.
"""
import math
import os
import pathlib
import re
import resource
import shutil
import subprocess
import sys
import tempfile
from fractions import Fraction

from tables import built, machine, put

EXAMPLES = pathlib.Path("/usr/share/doc/glpk-utils/examples")
NAMES = ["bpp", "color", "gap", "graceful", "misp", "mvcp", "queens", "sat", "shikaku", "sudoku", "todd", "zebra"]
NODES = 200_000
BUDGET = 60


class Example:
    """A pure integer model by the lines of a GLPK file: its direction, its constant, the range of each variable, the
    cost of each, and the sides and terms of each row. What no line tells is a binary, or a row fixed at 0."""

    def __init__(self, text):
        lines = [line.split() for line in text.splitlines()]
        head = next(words for words in lines if words[0] == "p")
        assert head[1] == "mip", "no integer model"
        self.maximised = head[2] == "max"
        self.rows = {i + 1: (0, 0, []) for i in range(int(head[3]))}
        self.ranges = {j + 1: (0, 1) for j in range(int(head[4]))}
        self.cost, self.constant = {}, 0
        for word, *rest in lines:
            if word == "i":
                self.rows[int(rest[0])] = (*sides(rest[1], rest[2:]), [])
            elif word == "j":
                assert rest[1] == "i", "a variable that isn't an integer"
                self.ranges[int(rest[0])] = sides(rest[2], rest[3:])
            elif word == "a":
                self.add_term(int(rest[0]), int(rest[1]), Fraction(rest[2]))
        # The objective stands among the rows too, as a free one.
        self.rows = [row for _, row in sorted(self.rows.items()) if row[:2] != (None, None)]
        assert all(None not in both for both in self.ranges.values()), "a variable without a bound"

    def add_term(self, row, var, number):
        assert number.denominator == 1, "a coefficient that isn't whole"
        if row == 0 and var == 0:
            self.constant = int(number)
        elif row == 0:
            self.cost[var] = int(number)
        else:
            self.rows[row][2].append((var, int(number)))

    def lines(self):
        """The model as search_bench reads it, minimised. A row of whole coefficients has whole sides."""
        def listed(terms):
            return " ".join(map(str, [len(terms), *(n for var, number in sorted(terms) for n in (var - 1, number))]))

        def side(number):
            return "0 0" if number is None else f"1 {number}"
        turn = -1 if self.maximised else 1
        lines = [f"var {math.ceil(low)} {math.floor(high)}" for _, (low, high) in sorted(self.ranges.items())]
        lines += [f"constant {turn * self.constant}", "cost " + listed([(j, turn * c) for j, c in self.cost.items()])]
        for low, high, terms in self.rows:
            low, high = None if low is None else math.ceil(low), None if high is None else math.floor(high)
            lines.append(f"row {side(low)} {side(high)} {listed(terms)}")
        return "\n".join(lines) + "\n"


def sides(kind, words):
    """The least and the greatest number that a line's kind and numbers say: free, lower, upper, double or fixed."""
    numbers = [Fraction(word) for word in words]
    return {"f": lambda: (None, None), "l": lambda: (numbers[0], None), "u": lambda: (None, numbers[0]),
            "d": lambda: (numbers[0], numbers[1]), "s": lambda: (numbers[0], numbers[0])}[kind]()


def written(name, folder):
    """Has glpsol write the example as both files, m.lp and m.glp in the folder, and answers what it says."""
    subprocess.run(["glpsol", "--math", str(EXAMPLES / f"{name}.mod"), "--check", "--wlp", "m.lp", "--wglp", "m.glp"],
                   cwd=folder, stdout=subprocess.DEVNULL, check=True)
    return Example(pathlib.Path(folder, "m.glp").read_text())


def timed(words, folder, given=os.devnull):
    """The processor seconds of a run, and what it printed; None where it had not ended in time."""
    before = resource.getrusage(resource.RUSAGE_CHILDREN)
    printed = pathlib.Path(folder, "printed")
    with open(given, "rb") as source, open(printed, "wb") as sink:
        try:
            subprocess.run(words, cwd=folder, stdin=source, stdout=sink, timeout=BUDGET, check=False)
        except subprocess.TimeoutExpired:
            return None
    after = resource.getrusage(resource.RUSAGE_CHILDREN)
    return after.ru_utime + after.ru_stime - before.ru_utime - before.ru_stime, printed.read_text()


def optimum_run(program, folder, example):
    """A run of search_bench to the optimum: how it ended, the value in the user's direction, nodes, and seconds."""
    pathlib.Path(folder, "lines").write_text(f"0 {NODES} 0\n" + example.lines())
    done = timed([str(program)], folder, pathlib.Path(folder, "lines"))
    if done is None:
        return f"over {BUDGET} s", None, "-", "-"
    end, best, nodes = re.match(r"(\w+) best (?:Some\()?(-?\w+)\)? nodes (\d+)", done[1]).groups()
    value = None if best == "None" else -int(best) if example.maximised else int(best)
    return end, value, f"{int(nodes):,}", f"{done[0]:.3f}"


def listing(program, folder):
    """A run of solpool on the LP file, to all optimal points: what it says, the optimum, and seconds."""
    done = timed([str(program), "m.lp"], folder)
    if done is None:
        return f"over {BUDGET} s", None, "-"
    told = dict(re.findall(r"^(status|optimum|solutions|refused) (.*)$", done[1], re.MULTILINE))
    optimum = int(told["optimum"]) if "optimum" in told else None
    said = f"{int(told['solutions']):,}" if "solutions" in told else " ".join(done[1].splitlines()[:1])
    return said, optimum, f"{done[0]:.3f}"


def solved(folder):
    """glpsol's optimum, `None` where it tells none; what it says; and seconds."""
    done = timed(["glpsol", "--lp", "m.lp", "-w", "m.sol"], folder)
    if done is None:
        return None, f"over {BUDGET} s", "-"
    text = pathlib.Path(folder, "m.sol").read_text()
    status, value = re.search(r"^s mip \d+ \d+ (\w) (\S+)$", text, re.MULTILINE).groups()
    optimum = round(float(value)) if status == "o" else None
    return optimum, "infeasible" if status == "n" else str(optimum), f"{done[0]:.3f}"


def shown(end, value):
    return end if value is None else f"{end} {value}"


def row_of(name, search_bench, solpool):
    """The example's row of the table, whether the node limit stopped the run to its optimum, and whether all that ended
    found the same optimum."""
    with tempfile.TemporaryDirectory() as folder:
        example = written(name, folder)
        end, value, nodes, seconds = optimum_run(search_bench, folder, example)
        said, listed, listed_seconds = listing(solpool, folder)
        optimum, other, other_seconds = solved(folder)
    found = {v for v in (value if end == "Optimal" else None, listed, optimum) if v is not None}
    line = (f"| {name} | {len(example.ranges):,} | {len(example.rows):,} | {shown(end, value)} | {nodes} | {seconds} | "
            f"{said} | {listed_seconds} | {other} | {other_seconds} |")
    is_same = len(found) <= 1 and not (end == "Infeasible" and found)
    return line, end == "NodeLimit", is_same


def limit_text(stopped):
    """Which runs the node limit stops."""
    if not stopped:
        return "The node limit stops none of the runs to the optimum."
    names = " and ".join(([", ".join(stopped[:-1])] if stopped[1:] else []) + stopped[-1:])
    return f"The node limit stops the runs to the optimum of {names}."


def main():
    if shutil.which("glpsol") is None or not EXAMPLES.is_dir():
        print("no glpsol, or no examples of glpk-utils: nothing is measured")
        return
    search_bench, solpool = built("search_bench"), built("solpool")
    lines, stopped, differing = [], [], []
    for name in NAMES:
        line, is_stopped, is_same = row_of(name, search_bench, solpool)
        lines.append(line)
        stopped += [name] if is_stopped else []
        differing += [] if is_same else [name]
        print(line, flush=True)
    if differing:
        sys.exit("other optima than glpsol's, or than each other's: " + ", ".join(differing))
    put("glpk_examples", f"""## The pure integer examples of glpk-utils

Written by `bench/glpk_examples.py`, on {machine()}. glpsol writes each example as an LP file. A run to the optimum is
one of search_bench, which gets the same numbers as lines, with {NODES:,} nodes at most, as solpool has them unless it
is told otherwise; beside it `solpool FILE`, which lists all optimal points, and glpsol, which finds one.
Processor seconds are those of one run, and each has {BUDGET} seconds. Optima agree wherever two of the three end.
{limit_text(stopped)}

| Example | Variables | Rows | End and value | Nodes | Seconds | All optimal points | Seconds | glpsol | Seconds |
|---|---|---|---|---|---|---|---|---|---|
""" + "\n".join(lines) + "\n")


if __name__ == "__main__":
    main()
