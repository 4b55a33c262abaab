#!/usr/bin/env python3
"""Compares what the built activity_bench says of boxes of random small models with a slow reference, while ranges change.

usage: scripts/compare_reasons.py [--models N] [--steps N] [--seed S]     after 'rt run' in crates/activity_bench

A step gives a variable another range, or undoes the last step that isn't undone. After each step both forms, the kept one
and the plain calls, are asked for the first reason, for the sums of each row, and for a place where a split closes a side;
the kept one for its counts, the plain calls for the reason of a box with one range turned round, and whether reasons hold
that the script names. The reference reads the definitions anew each time: it keeps nothing, and takes a row's extreme values
over all points where the box is small. Each difference is shown. Status 0 where there is none, else 1. It stands beside the
gate, and builds nothing.
"""
import argparse
import itertools
import os
import pathlib
import random
import subprocess
import sys

TOP = pathlib.Path(__file__).resolve().parent.parent
PROGRAM = pathlib.Path(os.environ.get("ACTIVITY_BENCH", TOP / "crates" / "activity_bench" / "out" / "activity_bench"))


class Model:
    """A random model: ranges, cores, rows (least side, greatest side, terms), indicators and sets."""

    def __init__(self, chance):
        self.chance = chance
        count = chance.randint(1, 6)
        self.ranges, self.cores = [], []
        for var in range(count):
            kind = chance.random()
            if kind < 0.35:
                self.ranges.append((chance.choice([(0, 1), (0, 1), (0, 0), (1, 1)])))
            elif kind < 0.6:
                core = chance.choice([(chance.randint(-5, 5),) * 2, sorted((chance.randint(-6, 6), chance.randint(-6, 6))), (3, 1)])
                least, most = core
                self.ranges.append((min(0, least), max(0, most)) if least <= most else (0, 0))
                self.cores.append((var, least, most))
            else:
                self.ranges.append(tuple(sorted((chance.randint(-4, 4), chance.randint(-4, 6)))))
        self.rows = [self.row() for _ in range(chance.randint(0, 5))]
        switches = [var for var, r in enumerate(self.ranges) if 0 <= r[0] and r[1] <= 1]
        self.gates = [(chance.choice(switches), chance.randint(0, 1), self.row())
                      for _ in range(chance.randint(0, 3) if switches else 0)]
        self.sets = [(chance.randint(1, 2), chance.sample(range(count), chance.randint(0, count)))
                     for _ in range(chance.randint(0, 3))]

    def row(self):
        chance = self.chance
        variables = sorted(chance.sample(range(len(self.ranges)), chance.randint(0, len(self.ranges))))
        terms = [(var, chance.choice([-1, 1]) * chance.choice([1, 1, 2, 3, 10 ** 12])) for var in variables]
        sides = [chance.choice([None, chance.randint(-8, 8), chance.randint(-3, 3)]) for _ in range(2)]
        return sides[0], sides[1], terms

    def lines(self):
        def number(row):
            least, most, terms = row
            sides = [int(least is not None), least or 0, int(most is not None), most or 0]
            return " ".join(map(str, [*sides, len(terms)] + [n for term in terms for n in term]))
        return ([f"var {l} {u}" for l, u in self.ranges]
                + [f"row {number(row)}" for row in self.rows]
                + [f"gate {var} {on} {number(row)}" for var, on, row in self.gates]
                + [f"set {kind} {len(members)} {' '.join(map(str, members))}" for kind, members in self.sets]
                + ["core %d %d %d" % core for core in self.cores])


def extremes(terms, box):
    """The least and the greatest sum over all points of the terms' ranges, or by their ends where there are many."""
    size = 1
    for var, _ in terms:
        size *= box[var][1] - box[var][0] + 1
    if size <= 64:
        sums = [sum(a * v for (_, a), v in zip(terms, values))
                for values in itertools.product(*[range(box[var][0], box[var][1] + 1) for var, _ in terms])]
        return min(sums), max(sums)
    ends = [sorted((a * box[var][0], a * box[var][1])) for var, a in terms]
    return sum(e[0] for e in ends), sum(e[1] for e in ends)


def lacks_zero(r):
    return not r[0] <= 0 <= r[1]


def row_kinds(row, box):
    """0 where the greatest sum is below the least side, and 1 where the least sum is above the greatest side."""
    least, most = extremes(row[2], box)
    return [kind for kind, broken in enumerate([row[0] is not None and most < row[0], row[1] is not None and row[1] < least])
            if broken]


def core_missed(core, box):
    r = box[core[0]]
    return lacks_zero(r) and not any(core[1] <= v <= core[2] for v in range(r[0], r[1] + 1))


def clashes(kind, members, box):
    away = [p for p, var in enumerate(members) if lacks_zero(box[var])]
    return [(p, q) for p in away for q in away if q - p >= kind]


def reasons(model, box):
    """All reasons that hold of the box, which isn't empty, in their order."""
    found = [(1 + kind, at, 0, 0) for at, row in enumerate(model.rows) for kind in row_kinds(row, box)]
    found += [(3 + kind, at, 0, 0) for at, (var, on, row) in enumerate(model.gates) if box[var] == (on, on)
              for kind in row_kinds(row, box)]
    found += [(5, at, p, q) for at, (kind, members) in enumerate(model.sets) for p, q in clashes(kind, members, box)]
    found += [(6, core[0], 0, 0) for core in model.cores if core_missed(core, box)]
    return found


def counts(model, box):
    return [sum(bool(row_kinds(row, box)) for row in model.rows),
            sum(box[var] == (on, on) and bool(row_kinds(row, box)) for var, on, row in model.gates),
            sum(bool(clashes(kind, members, box)) for kind, members in model.sets),
            sum(core_missed(core, box) for core in model.cores)]


def places(model, box):
    """All places where a split closes a side."""
    found = set()
    for var, (least, most) in enumerate(box):
        for at in range(least, most):
            for right, part in enumerate([(least, at), (at + 1, most)]):
                if reasons(model, box[:var] + [part] + box[var + 1:]):
                    found.add((var, at, right))
    return found


def feasible(model, x):
    """Whether a point within the ranges is feasible."""
    def holds(row):
        total = sum(a * x[var] for var, a in row[2])
        return (row[0] is None or row[0] <= total) and (row[1] is None or total <= row[1])
    return (all(map(holds, model.rows)) and all(holds(row) for var, on, row in model.gates if x[var] == on)
            and all(x[var] == 0 or least <= x[var] <= most for var, least, most in model.cores)
            and not any(clashes(kind, members, [(v, v) for v in x]) for kind, members in model.sets))


def is_empty(model, box):
    """Whether a small box holds no feasible point; None for a large one."""
    size = 1
    for least, most in box:
        size *= most - least + 1
    if size > 200:
        return None
    return not any(feasible(model, x) for x in itertools.product(*[range(l, u + 1) for l, u in box]))


def asked(model, chance):
    """A reason that may name what isn't there."""
    kind = chance.randint(0, 6)
    most = [len(model.ranges), len(model.rows), len(model.rows), len(model.gates), len(model.gates), len(model.sets),
            len(model.ranges)][kind]
    return (kind, chance.randint(0, most), *([chance.randint(0, 4), chance.randint(0, 6)] if kind == 5 else [0, 0]))


def named(reason):
    """The reason as it is printed."""
    if reason is None:
        return "None"
    kind, first, *places = reason
    word = ["Empty", "RowLow", "RowHigh", "IndicatorLow", "IndicatorHigh", "Sos", "Semi"][kind]
    item = f"VarId({first})" if kind in (0, 6) else f"RowId({first})" if kind in (1, 2) else f"{first}"
    return f"Some({word}({', '.join([item, *map(str, places)] if kind == 5 else [item])}))"


def crossed(model, box, var):
    """The first reason of the box with the ends of one range changed over."""
    if box[var][0] < box[var][1]:
        return (0, var, 0, 0)
    return next(iter(reasons(model, box)), None)


def steps_of(model, chance, count):
    """The lines of some steps with what is asked after each, what may be printed, and how many steps were undoings."""
    box, trail, lines, wanted, undone = list(model.ranges), [], [], [], 0
    for _ in range(count):
        if trail and chance.random() < 0.4:
            (var, box[var]), undone = trail.pop(), undone + 1
        else:
            var = chance.randrange(len(box))
            trail.append((var, box[var]))
            least, most = model.ranges[var]
            ends = sorted((chance.randint(least, most), chance.randint(least, most)))
            box[var] = (least, most) if chance.random() < 0.25 else tuple(ends)
        lines += [f"change {var} {box[var][0]} {box[var][1]}", "state"]
        found = reasons(model, box)
        if found and is_empty(model, box) is False:
            sys.exit(f"the reference has a reason of a box with a feasible point: {model.lines()} {box}")
        first = named(found[0] if found else None)
        wanted += [{f"closed {first} {first}"}, {"broken " + " ".join(map(str, counts(model, box)))}]
        wanted += [{"sums " + " ".join(map(str, extremes(row[2], box) * 2))} for row in model.rows]
        lines.append("tight")
        tight = {f"Some((VarId({v}), {at}, {'Right' if right else 'Left'}))" for v, at, right in places(model, box)} or {"None"}
        wanted.append({f"tight {one} {other}" for one in tight for other in tight})
        turned = chance.randrange(len(box))
        lines.append(f"crossed {turned}")
        wanted.append({f"crossed {named(crossed(model, box, turned))}"})
        for _ in range(2):
            reason = asked(model, chance)
            lines.append("holds %d %d %d %d" % reason)
            wanted.append({f"holds {int(reason in found)}"})
    return lines, wanted, undone


def differences(model, lines, wanted):
    """Runs the program on the lines, and answers what it printed, and the first place where it printed something else."""
    text = "\n".join(model.lines() + lines) + "\n"
    done = subprocess.run([str(PROGRAM)], input=text, capture_output=True, text=True, check=False)
    got = done.stdout.split("\n")[:-1]
    for place, fits in enumerate(wanted):
        one = got[place] if place < len(got) else f"nothing, with status {done.returncode}: {done.stderr.strip()}"
        if one not in fits:
            return got, f"line {place}: {one}, wanted {sorted(fits)[:4]}\n{text}"
    return got, None if len(got) == len(wanted) else f"{len(got)} lines for {len(wanted)}\n{text}"


def main():
    words = argparse.ArgumentParser(description=__doc__, formatter_class=argparse.RawDescriptionHelpFormatter)
    words.add_argument("--models", type=int, default=500)
    words.add_argument("--steps", type=int, default=20)
    words.add_argument("--seed", type=int, default=1)
    given = words.parse_args()
    chance, bad, undoings, kinds = random.Random(given.seed), 0, 0, {}
    for _ in range(given.models):
        model = Model(chance)
        lines, wanted, undone = steps_of(model, chance, given.steps)
        got, different = differences(model, lines, wanted)
        undoings += undone
        for line in got:
            word = " ".join(line.split("(")[:2]) if line.startswith("closed") else line.split(" ")[0]
            kinds[word] = kinds.get(word, 0) + 1
        if different:
            bad += 1
            print(different)
    print(", ".join(f"{word} {count}" for word, count in sorted(kinds.items())))
    print(f"{given.models} models, {given.models * given.steps} steps, {undoings} of them undoings, {bad} with a difference")
    sys.exit(1 if bad else 0)


main()
