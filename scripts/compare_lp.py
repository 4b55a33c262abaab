#!/usr/bin/env python3
"""Compares what the built lp_bench reads of LP files with a slow reference, scripts/slow_lp.py.

usage: scripts/compare_lp.py [--files N] [--seed S]     after 'rt run' in crates/lp_bench

First come cases that were worked out by hand, which both must answer; then each front of a file as CPLEX lays it out,
which is accepted or refused in a line that it has or the next one; and then N random files: files of the grammar, and
such files with some tokens taken out, doubled, exchanged or replaced. Each that the two read differently is shown.
Status 0 where there is none, else 1. It stands beside the gate, and builds nothing.
"""
import argparse
import collections
import os
import pathlib
import random
import re
import subprocess
import sys

import slow_lp

TOP = pathlib.Path(__file__).resolve().parent.parent
PROGRAM = pathlib.Path(os.environ.get("LP_BENCH", TOP / "crates" / "lp_bench" / "out" / "lp_bench"))

CASES = [
    (b"", "refused Syntax 1"), (b"\xff", "refused Syntax 1"),
    (b"Minimize\nx\nBounds\nx <= 1\nGenerals\nx", "refused Syntax 6"),
    (b"Minimize\nobj: x\nSubject To\nc1: x >= 1\nc1: x <= 2\nEnd", "refused DuplicateName 5"),
    (b"Minimize\nobj: x\nSubject To\nc1: x = 1 <-> x >= 1", "refused Unsupported 4"),
    (b"Minimize\nobj: x\nSubject To\nc1: x >=", "refused Syntax 4"),
    (b"Minimize\nobj: x\nSubject To\nc1: x <= 2 y", "refused Syntax 4"),
    (b"Minimize\nobj: [ x ^ 2 ] / 2\nEnd", "refused Unsupported 2"),
    (b"Minimize\nobj: 1e30 x\nEnd", "refused WideNumeral 2"),
    (b"min\nst\nc: x + 1e30 <= 3\nend", "refused Syntax 3"),
    (b"min\nst\nc: x + inf y <= 3\nend", "refused WideNumeral 3"),
    (b"min\nst\nc: 1e30\ny <= 3\nend", "refused WideNumeral 3"),
    (b"min\nst\nc: 3 <=\nst\nend", "refused Syntax 4"),
    (b"min\nuser cuts\nend", "refused Unsupported 2"),
    (b"min\nst\nc: x <= 1\nuser cuts\nend", "refused Unsupported 4"),
    (b"min\nsos\na: S1 :: x : 1\na : S2 :: y : 1\nend", "refused DuplicateName 4"),
    (b"min\nsos\na: S1 :: x : 1\nsos\na\nend", "refused DuplicateName 5"),
    (b"min\nsos\na: S1 :: x : 1\na", "refused Syntax 4"),
    (b"min\nsos\na: S1 :: x : 1e30\nend", "refused WideNumeral 3"),
    (b"Minimize\nx\nst\nc: x + x >= 2\nbin\nx\nend",
     "min\nvar x B . . .\ncost 0:1/0\nconstants\nrow G 2/0 0:1/0 0:1/0"),
    (b"min\nst: 2x1 + 2e - - x\nst\nst: - x\n+ 1.50 y >= inf\nend",
     "min\nvar x1 C . . .\nvar e C . . .\nvar x C . . .\nvar y C . . .\ncost 0:2/0 1:2/0 2:1/0\nconstants\nrow G inf 2:-1/0 3:15/1"),
    (b"max\nst\n3 >= x >= - 1\nb: z = 0 -> x = 2\nbounds\n-1 <= y <= inf\nx free\nz = 1e30\nbin\nz\ngen\nz y\nsemi-continuous\ny\nend",
     "max\nvar x C -inf inf .\nvar z B inf inf .\nvar y I -1/0 inf semi\ncost\nconstants\nrow B -1/0 3/0 0:1/0\nif 1 0 E 2/0 0:1/0"),
]

LAID_OUT = b"""\\Problem name: sample.lp

Minimize
 obj: 2 x1 + x2 - 3.50 x3 + x4 + 12
Subject To
 c1:  x1 + x2
      + 1e+1 x3 <= 10
 c2:  - x1 + 4 x2 >= -2e0
 rng: -1 <= x1 - x3 <= 8
 ind: x4 = 1 -> x1 + x2 = 3
Lazy Constraints
 lc1: x1 - x2 <= 5
Bounds
 0 <= x1 <= 4
 x2 >= -1
 -1e+20 <= x3 <= 40
      x5 Free
Binaries
 x4
Generals
 x1  x3
Semi-Continuous
 x2
SOS
sos1: S1 :: x1 : 1  x3 : 2
sos2: S2 :: x1 : 3  x2 : 1.5
End
"""

NAMES = ["x", "y", "z", "c1", "st", "end", "free", "S1", "s2", "bin", "min", "inf", "subject", "to", "user", "semi", "x1", "e5", "bounds", "cuts"]
NUMBERS = ["0", "1", "2", "3.5", "1e30", "inf", "10", "0.50", "7e-2", "infinity", "1.0"]
RELATIONS = ["<", "<=", "=<", ">", ">=", "=>", "="]
HEADS = ["subject to", "st", "s.t.", "such that", "lazy constraints", "bounds", "bound", "general", "int", "binary", "bin", "semi", "semis",
         "semi-continuous", "semi - continuous", "sos", "user cuts", "SUBJECT  TO", "Generals"]


def name(rng):
    return rng.choice(NAMES[:4] if rng.random() < 0.8 else NAMES)


def number(rng):
    return rng.choice(NUMBERS[:4] if rng.random() < 0.85 else NUMBERS)


def signs(rng, least):
    count = max(least, rng.choice([0, 0, 0, 1, 1, 2, 3]))
    return " ".join(rng.choice("+-") for _ in range(count))


def total(rng, constants):
    items = []
    for place in range(rng.choice([1, 1, 2, 3])):
        kind = rng.random()
        body = name(rng) if kind < 0.5 else number(rng) + " " + name(rng) if kind < 0.9 or not constants else number(rng)
        items.append(signs(rng, int(place > 0)) + " " + body)
    return (" \n" if rng.random() < 0.1 else " ").join(items)


def value(rng):
    return signs(rng, 0) + " " + number(rng)


def row(rng):
    label = name(rng) + " : " if rng.random() < 0.5 else ""
    kind = rng.random()
    relation = rng.choice(RELATIONS)
    if kind < 0.5:
        return f"{label}{total(rng, False)} {relation} {value(rng)}"
    if kind < 0.65:
        return f"{label}{value(rng)} {relation} {total(rng, False)}"
    if kind < 0.8:
        return f"{label}{value(rng)} {relation} {total(rng, False)} {rng.choice(RELATIONS)} {value(rng)}"
    return f"{label}{name(rng)} = {rng.choice(['0', '1', '1', '2'])} -> {total(rng, False)} {relation} {value(rng)}"


def bound(rng):
    kind = rng.random()
    relation = rng.choice(RELATIONS)
    if kind < 0.35:
        return f"{name(rng)} {relation} {value(rng)}"
    if kind < 0.6:
        return f"{value(rng)} {relation} {name(rng)}"
    if kind < 0.85:
        return f"{value(rng)} {relation} {name(rng)} {rng.choice(RELATIONS)} {value(rng)}"
    return f"{name(rng)} {rng.choice(['free', 'FREE', 'Free'])}"


def sets(rng):
    label = name(rng) + " : " if rng.random() < 0.6 else ""
    members = " ".join(f"{name(rng)} : {value(rng)}" for _ in range(rng.choice([0, 1, 2])))
    return f"{label}{rng.choice(['S1', 's2', 'S2', 's1'])} :: {members}"


def file(rng):
    """A file of the grammar, or nearly."""
    lines = [rng.choice(["min", "Maximize", "minimum", "MAX"])]
    if rng.random() < 0.7:
        lines.append((name(rng) + " : " if rng.random() < 0.5 else "") + (total(rng, True) if rng.random() < 0.9 else ""))
    for _ in range(rng.choice([0, 1, 1, 2, 3])):
        head = rng.choice(HEADS[:-3] if rng.random() < 0.9 else HEADS)
        lines.append(head)
        plain = head.lower().split()[0].split("-")[0]
        maker = row if plain in ("subject", "st", "s.t.", "such", "lazy", "user") else bound if plain.startswith("bound") else \
            sets if plain == "sos" else lambda r: " ".join(name(r) for _ in range(r.choice([0, 1, 2])))
        parts = [maker(rng) for _ in range(rng.choice([0, 1, 2]))]
        if parts and rng.random() < 0.2:
            lines[-1] += " " + parts[0]
            parts = parts[1:]
        lines += parts
    if rng.random() < 0.95:
        lines.append(rng.choice(["end", "End", "END"]))
    return "\n".join(lines)


def mutated(rng, text):
    pieces = re.findall(r"\s+|[^\s]+", text)
    for _ in range(rng.choice([0, 0, 1, 1, 2])):
        if not pieces:
            break
        place = rng.randrange(len(pieces))
        kind = rng.random()
        if kind < 0.25:
            del pieces[place]
        elif kind < 0.4:
            pieces.insert(place, pieces[place])
        elif kind < 0.6:
            pieces.insert(place, rng.choice([" ", "\n"]) + rng.choice(NAMES + NUMBERS + RELATIONS + [":", "::", "->", "+", "-", "[", "<->", "*"]) + " ")
        elif kind < 0.75:
            pieces[place] = rng.choice(["\n", " ", "\n"])
        elif kind < 0.9:
            pieces[place] = rng.choice(NAMES + NUMBERS + RELATIONS + [":", "::", "->", "+", "-"])
        else:
            pieces = pieces[:place]
    return "".join(pieces)


def answers(files):
    """What the program prints of each file."""
    out = subprocess.run([str(PROGRAM), "drafts"], input=b"\0".join(files), stdout=subprocess.PIPE, check=True).stdout.decode("latin-1")
    found = []
    for text in out.split("%\n")[:-1]:
        refusal = re.fullmatch(r"(\w+) \{ line: (\d+) \}\n", text)
        found.append(f"refused {refusal[1]} {refusal[2]}" if refusal else text.rstrip("\n"))
    return found


def main():
    options = argparse.ArgumentParser(description=__doc__, formatter_class=argparse.RawDescriptionHelpFormatter)
    options.add_argument("--files", type=int, default=20_000)
    options.add_argument("--seed", type=int, default=1)
    chosen = options.parse_args()
    rng = random.Random(chosen.seed)
    bad = 0
    for (data, want), got in zip(CASES, answers([case[0] for case in CASES])):
        slow = slow_lp.read(data)
        if got != want or slow != want:
            bad += 1
            print(f"case {data!r}: program {got!r}, reference {slow!r}, wanted {want!r}")
    fronts = [LAID_OUT[:length] for length in range(len(LAID_OUT) + 1)]
    for data, got in zip(fronts, answers(fronts)):
        want = slow_lp.read(data)
        if got != want or got.startswith("refused") and int(got.split()[2]) > data.count(b"\n") + 1:
            bad += 1
            print(f"front of {len(data)} bytes: program {got!r}, reference {want!r}")
    kinds = collections.Counter()
    for start in range(0, chosen.files, 5000):
        files = [mutated(rng, file(rng)).encode("ascii") for _ in range(min(5000, chosen.files - start))]
        for data, got in zip(files, answers(files)):
            want = slow_lp.read(data)
            kinds[want.split()[1] if want.startswith("refused") else "accepted"] += 1
            if got != want:
                bad += 1
                print(f"file {data!r}:\n  program   {got!r}\n  reference {want!r}")
    print(f"{len(CASES)} cases, {len(fronts)} fronts, {chosen.files} files, {bad} read differently")
    print("answers: " + ", ".join(f"{count} {kind}" for kind, count in kinds.most_common()))
    return 1 if bad else 0


if __name__ == "__main__":
    sys.exit(main())
