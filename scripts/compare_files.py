#!/usr/bin/env python3
"""Compares what the built program prints of model files with what a slow solver says, scripts/slow_solver.py.

usage: scripts/compare_files.py [--files N] [--seed S]     after the program was built, as ./solpool does

First come the files of examples/, and then N random small models, each written as an LP or an MPS file: most of them can
be solved, some are to be refused. The random ones are listed under random gaps, now and then under a small node limit.
Each file of which a line differs is shown. Status 0 where there is none, else 1. It stands beside the gate, and builds
nothing.
"""
import argparse
import os
import pathlib
import random
import subprocess
import sys
import tempfile
from fractions import Fraction

import slow_solver

TOP = pathlib.Path(__file__).resolve().parent.parent
PROGRAM = pathlib.Path(os.environ.get("SOLPOOL", TOP / "crates" / "solpool" / "out" / "solpool"))
NUMBERS = ["1", "1", "2", "3", "-1", "-2", "0.5", "1.25", "-0.1", ".3", "2e0", "10", "0", "7e-2"]
ENDLESS = 10 ** 20
NODE_LIMIT = 200_000
RARE = ["1e15", "1e16", "-1e20", "1e30", "inf", "1e-31", "999999999999999999999999999999", "1e-30"]


def number(draw, odd):
    """A number as it is written; in an odd file a rare one now and then."""
    return draw.choice(RARE) if odd and draw.random() < 0.04 else draw.choice(NUMBERS)


class Model:
    """A random small model, as it will be written."""

    def __init__(self, draw):
        self.draw, self.odd = draw, draw.random() < 0.3
        self.names = draw.sample(["x", "y", "z", "day", "Night", "q12", "a_b", "w"], draw.randint(1, 4))
        self.maximize = draw.random() < 0.5
        self.vars = {name: self.variable() for name in self.names}
        self.cost = self.terms(0)
        self.constant = number(draw, self.odd) if draw.random() < 0.4 else None
        self.rows = [(f"c{place}", *self.row()) for place in range(draw.randint(0, 4))]
        self.sets = [self.set() for _ in range(draw.choice([0, 0, 0, 1]))]

    def variable(self):
        """The kind and the bounds of a variable, None where one isn't stated."""
        draw = self.draw
        kind = draw.choice(["int", "int", "bin", "con" if self.odd and draw.random() < 0.2 else "int"])
        kind = draw.choice(["bin", kind, kind])
        low = draw.choice([None, None, "0", "-2", "1", "-1.5", "-3e0"]) if kind != "bin" or self.odd else None
        high = draw.choice(["1", "2", "3", "4.5", "3", "2", "-1" if self.odd else "5", None if draw.random() < 0.3 else "2"])
        return kind, low, high if kind != "bin" or self.odd else None, draw.random() < 0.15 and kind != "bin"

    def terms(self, least):
        """A few terms; a variable may stand in two of them."""
        draw = self.draw
        return [(draw.choice(self.names), number(draw, self.odd)) for _ in range(draw.randint(least, 4))]

    def row(self):
        """The sides of a row, its terms, and the switch of an indicator."""
        draw = self.draw
        sense = draw.choice(["<=", "<=", ">=", "=", "range"])
        switches = [name for name, var in self.vars.items() if var[0] == "bin" or self.odd]
        switch = (draw.choice(switches), draw.choice("01")) if switches and draw.random() < 0.25 else None
        return sense, number(draw, self.odd), draw.choice(["1", "2", "0", "3.5", "-1"]), self.terms(1), switch

    def set(self):
        """A set: its kind, and its members with their weights."""
        draw = self.draw
        chosen = draw.sample(self.names, draw.randint(0, len(self.names)))
        return draw.choice("12"), [(name, draw.choice(["1", "2", "3", "1.5", "-4"])) for name in chosen]


def summed(draw, terms):
    """A sum as an LP file has it."""
    text = ""
    for name, value in terms:
        sign = "- " if value.startswith("-") else "+ " if text or draw.random() < 0.2 else ""
        text += f"{sign}{value.lstrip('-')} {name} "
    return text.strip()


def lp_text(draw, model):
    """The model as an LP file."""
    lines = [draw.choice(["Maximize", "max", "MAXIMUM"] if model.maximize else ["Minimize", "min", "Minimum"])]
    objective = summed(draw, model.cost)
    if model.constant is not None:
        objective += (" + " if model.constant[0] != "-" else " - ") + model.constant.lstrip("-")
    lines.append(f" {draw.choice(['obj:', 'cost :', ''])} {objective}")
    lines.append(draw.choice(["Subject To", "st", "s.t.", "Such That"]))
    lines += [f" {row_text(draw, *row)}" for row in model.rows]
    lines.append("Bounds")
    for name, (_, low, high, _) in model.vars.items():
        lines += bound_lines(draw, name, low, high)
    for word, kind in ((draw.choice(["Generals", "int", "integers"]), "int"), (draw.choice(["Binaries", "bin"]), "bin")):
        lines += [word, " " + " ".join(name for name, var in model.vars.items() if var[0] == kind)]
    lines += ["Semi-continuous", " ".join(name for name, var in model.vars.items() if var[3])]
    if model.sets:
        lines.append("SOS")
        lines += [f" s{place}: S{kind}:: " + " ".join(f"{name}:{weight}" for name, weight in members)
                  for place, (kind, members) in enumerate(model.sets)]
    return "\n".join(lines + [draw.choice(["End", "end", "END"])]) + draw.choice(["\n", "\n", "", "\nanything\n"])


def row_text(draw, name, sense, side, reach, terms, switch):
    """A row as an LP file has it."""
    label = f"{name}: " if draw.random() < 0.8 else ""
    total = summed(draw, terms)
    if switch is not None:
        return f"{label}{switch[0]} = {switch[1]} -> {total} {sense if sense != 'range' else '<='} {side}"
    if sense == "range":
        return f"{label}{side} <= {total} <= {reach}"
    if draw.random() < 0.2:
        return f"{label}{side} {sense} {total}"
    return f"{label}{total} {draw.choice({'<=': ['<', '<=', '=<'], '>=': ['>', '>=', '=>'], '=': ['=']}[sense])} {side}"


def bound_lines(draw, name, low, high):
    """The lines of a variable's bounds in an LP file."""
    if low is not None and high is not None and draw.random() < 0.5:
        return [f" {low} <= {name} <= {high}"]
    lines = [f" {name} >= {low}"] if low is not None else []
    return lines + ([f" {name} <= {high}"] if high is not None else [])


def mps_text(draw, model):
    """The model as an MPS file; sets are left out, and a name that no line has."""
    kinds = {"<=": "L", ">=": "G", "=": "E", "range": draw.choice("LGE")}
    lines = ["NAME  ANY"] if draw.random() < 0.7 else []
    lines += ["OBJSENSE", f"    {draw.choice(['MAX', 'maximize'])}"] if model.maximize else []
    lines += ["ROWS", " N  COST"] + [f" {kinds[sense]}  {name}" for name, sense, *_ in model.rows] + ["COLUMNS"]
    opened = False
    for name, (kind, *_) in model.vars.items():
        if (kind == "int") != opened:
            lines.append(f"    M  'MARKER'  {chr(39)}{'INTEND' if opened else 'INTORG'}{chr(39)}")
            opened = not opened
        lines += [f"    {name}  {row}  {value}" for row, value in entries_of(model, name)]
    lines += [f"    M  'MARKER'  'INTEND'"] if opened else []
    return "\n".join(lines + sides_text(draw, model) + bounds_text(model) + ["ENDATA"]) + "\n"


def entries_of(model, name):
    """The entries of a column; a column has at least one."""
    found = [("COST", value) for var, value in model.cost if var == name]
    for row, _, _, _, terms, _ in model.rows:
        found += [(row, value) for var, value in terms if var == name]
    return found or [("COST", "0")]


def sides_text(draw, model):
    """The right-hand sides, ranges and indicators of an MPS file."""
    lines = ["RHS"] + ([f"    B  COST  {model.constant}"] if model.constant is not None else [])
    lines += [f"    B  {name}  {side}" for name, _, side, *_ in model.rows if side != "0" or draw.random() < 0.5]
    lines += ["RANGES"] + [f"    R  {name}  {reach}" for name, sense, _, reach, *_ in model.rows if sense == "range"]
    return lines + ["INDICATORS"] + [f" IF {row[0]} {row[5][0]} {row[5][1]}" for row in model.rows if row[5] is not None]


def bounds_text(model):
    """The bounds of an MPS file."""
    lines = ["BOUNDS"]
    for name, (kind, low, high, semi) in model.vars.items():
        lines += [f" BV BND {name}"] if kind == "bin" else []
        lines += [f" LO BND {name} {low}"] if low is not None else []
        lines += [f" {'SC' if semi else 'UP'} BND {name} {high}"] if high is not None else []
    return lines


def torn(draw, text):
    """The text with a line taken out, doubled or exchanged, now and then."""
    if draw.random() < 0.85:
        return text
    lines = text.split("\n")
    place = draw.randrange(len(lines))
    choice = draw.randrange(3)
    if choice == 0:
        del lines[place]
    elif choice == 1:
        lines.insert(place, lines[place])
    else:
        other = draw.randrange(len(lines))
        lines[place], lines[other] = lines[other], lines[place]
    return "\n".join(lines)


def random_file(draw):
    """The name and the bytes of a random file."""
    model = Model(draw)
    ending = draw.choice(["lp", "mps"])
    text = torn(draw, lp_text(draw, model) if ending == "lp" else mps_text(draw, model))
    if draw.random() < 0.05:
        ending = draw.choice(["LP", "Mps", "txt", "lpx"])
    return f"model.{ending}", text.encode()


def random_words(draw):
    """Words of a command line before the file, the gaps that they say, and the node limit."""
    words, absolute, relative, limit = [], Fraction(0), None, None
    if draw.random() < 0.7:
        text = draw.choice(["0", "1", "2.5", "0.05", "1e1", "3e-1", "1e20", "1e75", "7", "100"])
        words += draw.choice([["--absgap", text], [f"--absgap={text}"]])
        absolute = None if Fraction(text) >= ENDLESS else Fraction(text)
    if draw.random() < 0.4:
        text = draw.choice(["0", "0.5", "1", "0.1", "0.25", "1e20", "2", ".3"])
        words += draw.choice([["--relgap", text], [f"--relgap={text}"]])
        relative = None if Fraction(text) >= ENDLESS else Fraction(text)
    if draw.random() < 0.2:
        limit = draw.choice([1, 2, 3, 5, 9, 40])
        words += draw.choice([["--nodes", str(limit)], [f"--nodes={limit}"]])
    return words + (["--"] if draw.random() < 0.1 else []), (absolute, relative), limit


def is_stopped(lines, limit):
    """Whether the lines say that a tree with an odd number of nodes had no room under the limit, 200,000 where none is set."""
    limit = NODE_LIMIT if limit is None else limit
    if len(lines) != 2 or lines[0] != "status nodelimit" or not lines[1].startswith("nodes "):
        return False
    nodes = int(lines[1].removeprefix("nodes "))
    return nodes % 2 == 1 and nodes <= limit < nodes + 2


def answer(folder, words, name, data):
    """What the program prints of a file, and its status."""
    pathlib.Path(folder, name).write_bytes(data)
    done = subprocess.run([PROGRAM, *words, name], cwd=folder, capture_output=True, check=False)
    return done.stdout.decode("latin-1").split("\n")[:-1], done.returncode


def main():
    """Compares, and says how many files were of which kind."""
    words = argparse.ArgumentParser()
    words.add_argument("--files", type=int, default=2000)
    words.add_argument("--seed", type=int, default=1)
    given = words.parse_args()
    draw = random.Random(given.seed)
    shelf = [(path.name, path.read_bytes()) for path in sorted((TOP / "examples").rglob("*.*")) if path.suffix != ".md"]
    kinds, differ = {}, 0
    asked = [(file, ([], slow_solver.OPTIMA, None)) for file in shelf]
    asked += [(random_file(draw), random_words(draw)) for _ in range(given.files)]
    with tempfile.TemporaryDirectory() as folder:
        for (name, data), (words, gaps, limit) in asked:
            wanted = slow_solver.printed(name, data, gaps)
            if wanted is None:
                kinds["too many points"] = kinds.get("too many points", 0) + 1
                continue
            status = 1 if wanted[0].startswith("refused") else 0
            got = answer(folder, words, name, data)
            kind = " ".join(wanted[0].split(" ")[:2]) if status else wanted[1] if "infeasible" in wanted else wanted[0]
            if not status and got[1] == 0 and is_stopped(got[0], limit):
                kind, wanted = "status nodelimit", got[0]
            kinds[kind] = kinds.get(kind, 0) + 1
            if got != (wanted, status):
                differ += 1
                print(data.decode("latin-1"), f"{name} {words}: wanted {wanted}", f"and got {got}", sep="\n")
    print(", ".join(f"{kind} {count}" for kind, count in sorted(kinds.items())))
    print(f"{len(shelf) + given.files} files, {differ} printed differently")
    return 1 if differ else 0


if __name__ == "__main__":
    sys.exit(main())
