#!/usr/bin/env python3
"""Compares what the built lower_bench makes of drafts with a slow lowering in exact fractions.

usage: scripts/compare_lowering.py [--drafts N] [--seed S]     after 'rt run' in crates/lower_bench

First come drafts at the limits: counts, widths, rounds. Then N random drafts, drawn from the seed. What is lowered here
shares nothing with the proved program but the rules of docs/formats.md. Each draft that the two lower differently is shown.
Status 0 where there is none, else 1. It stands beside the gate, and builds nothing.
"""
import argparse
import os
import pathlib
import random
import subprocess
import sys
from fractions import Fraction
from math import ceil, floor, inf

TOP = pathlib.Path(__file__).resolve().parent.parent
PROGRAM = pathlib.Path(os.environ.get("LOWER_BENCH", TOP / "crates" / "lower_bench" / "out" / "lower_bench"))
WIDEST = 10 ** 36
FARTHEST = 10 ** 15
ENDLESS = 10 ** 20
HUGE = 10 ** 30


class Refused(Exception):
    """Why a draft makes no model."""


def number(text):
    """A number as an exact fraction, or an infinity from 10^30 on."""
    if text.lstrip("+-") == "inf":
        return -inf if text[0] == "-" else inf
    value = Fraction(text)
    return value if abs(value) < HUGE else (inf if value > 0 else -inf)


def places(value):
    """How many decimal places a fraction needs."""
    count = 0
    while value * 10 ** count % 1:
        count += 1
    return count


def parsed(lines):
    """The draft that the lines say."""
    draft = {"max": False, "vars": [], "cost": [], "constants": [], "rows": [], "ifs": [], "sets": []}
    for line in lines:
        word, *fields = line.split()
        if word == "max":
            draft["max"] = True
        elif word == "var":
            bounds = [None if f == "-" else number(f) for f in fields[1:3]]
            draft["vars"].append((fields[0], *bounds, fields[3:] == ["semi"]))
        elif word == "cost":
            draft["cost"] += terms(fields)
        elif word == "add":
            draft["constants"].append(number(fields[0]))
        elif word == "row":
            draft["rows"].append(row(fields))
        elif word == "if":
            draft["ifs"].append((int(fields[0]), fields[1] == "1", row(fields[2:])))
        else:
            draft["sets"].append((fields[0], terms(fields[1:])))
    return draft


def terms(fields):
    """Variables and numbers."""
    return [(int(var), number(value)) for var, value in zip(fields[::2], fields[1::2])]


def row(fields):
    """A row in whole units: the terms as written, the sides, and whether one of them is huge."""
    kind = fields[0]
    used = 2 if kind in ("le", "ge", "eq") else 3
    values = [number(f) for f in fields[1:used]]
    written = terms(fields[used:])
    low = high = None
    kept = list(values)
    if kind == "eq":
        low = high = values[0]
    elif kind in ("le", "ge", "in"):
        low = values[0] if kind != "le" and values[0] > -ENDLESS else None
        high = values[-1] if kind != "ge" and values[-1] < ENDLESS else None
        kept = [v for v in (low, high) if v is not None]
    elif abs(values[0]) != inf:
        rhs, reach = values
        down = kind == "l" or (kind == "e" and reach < 0)
        low, high = (rhs - abs(reach), rhs) if down else (rhs, rhs + abs(reach))
    if any(abs(v) == inf for v in kept):
        return None, None, None
    unit = 10 ** max([places(v) for v in kept + [v for _, v in written]], default=0)
    scaled = [None if v is None else int(v * unit) for v in (low, high)]
    return [(var, int(value * unit)) for var, value in written], *scaled


def added(written):
    """The terms of one variable added up, by rising variable, without those of 0."""
    sums = {}
    for var, value in written:
        sums[var] = sums.get(var, 0) + value
    return sorted((var, value) for var, value in sums.items() if value)


def stated_bounds(place, var):
    """The whole bounds that are stated of a variable, None where one is missing."""
    kind, lower, upper, _ = var
    if kind == "con":
        raise Refused(f"Continuous(VarId({place}))")
    if lower is None and upper is not None and upper < 0:
        raise Refused(f"NegativeUpper(VarId({place}))")
    lower = 0 if lower is None else lower
    upper = inf if upper is None else upper
    least = None if lower <= -ENDLESS else lower
    greatest = None if upper >= ENDLESS else upper
    if inf in (least, greatest) or -inf in (least, greatest):
        raise Refused(f"WideBound(VarId({place}))")
    least = None if least is None else ceil(least)
    greatest = None if greatest is None else floor(greatest)
    if any(b is not None and abs(b) > FARTHEST for b in (least, greatest)):
        raise Refused(f"WideBound(VarId({place}))")
    if kind == "bin":
        least = 0 if least is None else max(0, least)
        greatest = 1 if greatest is None else min(1, greatest)
    return least, greatest


def widened(least, greatest):
    """The bounds of a semi-integer variable, with 0 within them."""
    if least is not None and greatest is not None and least > greatest:
        return 0, 0
    low = None if least is None else min(0, least)
    return low, (None if greatest is None else max(0, greatest))


def small(value):
    """The number, None where there is none or it is past 10^36."""
    return value if value is not None and abs(value) <= WIDEST else None


def sum_of_others(row_terms, skipped, bounds, greatest):
    """The greatest or the least sum of a row's other terms, None where a bound is missing or a number on the way is great."""
    sum_ = 0
    for var, value in row_terms:
        if var != skipped:
            bound = bounds[var][1 if (value > 0) == greatest else 0]
            product = None if bound is None else small(value * bound)
            sum_ = None if product is None else small(sum_ + product)
            if sum_ is None:
                return None
    return sum_


def close(bounds, rows, semi):
    """The bounds after 32 rounds."""
    for _ in range(32):
        for written, low, high in rows:
            if written is None or sum(abs(v) for _, v in written) > WIDEST or any(abs(s) > WIDEST for s in (low, high) if s is not None):
                continue
            for var, value in added(written):
                if var not in semi:
                    close_variable(bounds, added(written), low, high, var, value)
    return bounds


def close_variable(bounds, row_terms, low, high, var, value):
    """The four rules for one variable of a row."""
    least = sum_of_others(row_terms, var, bounds, False)
    most = sum_of_others(row_terms, var, bounds, True)
    for side, others, end in ((high, least, 1 if value > 0 else 0), (low, most, 0 if value > 0 else 1)):
        gap = None if side is None or others is None else small(side - others)
        if gap is None or bounds[var][end] is not None:
            continue
        bound = floor(Fraction(gap, value)) if end else ceil(Fraction(gap, value))
        if abs(bound) <= FARTHEST:
            bounds[var] = (bounds[var][0], bound) if end else (bound, bounds[var][1])


def width(written, box):
    """The width of written terms over the box."""
    return sum(abs(value) * max(1, abs(box[var][0]), abs(box[var][1])) for var, value in written)


def is_wide(a_row, box):
    """Whether a side is huge, or the row wider than 10^36."""
    written, low, high = a_row
    return written is None or width(written, box) + abs(low or 0) + abs(high or 0) > WIDEST


def check_counts(draft, written):
    """The counts against their limits."""
    for count, most, name in ((len(draft["vars"]), 2000, "Variables"), (len(draft["rows"]), 10000, "Rows"), (written, 200000, "Terms"),
                              (len(draft["ifs"]), 1000, "Indicators"), (len(draft["sets"]), 1000, "Sos")):
        if count > most:
            raise Refused(f"TooMany({name})")


def written_terms(lines):
    """How many terms the lines have."""
    counted = {"cost": 0, "row": 1, "if": 3, "set": 1}
    total = 0
    for line in lines:
        word, *fields = line.split()
        if word in counted:
            sides = 0 if word in ("cost", "set") else 1 + (fields[counted[word] - 1] not in ("le", "ge", "eq"))
            total += (len(fields) - counted[word] - sides) // 2
    return total


def members(place, a_set):
    """The members of a set in order of weight."""
    if len({w for _, w in a_set[1]}) < len(a_set[1]) or len({v for v, _ in a_set[1]}) < len(a_set[1]):
        raise Refused(f"BadSos({place})")
    return [var for var, _ in sorted(a_set[1], key=lambda m: m[1])]


def lowered(lines):
    """The line of the model that a draft stands for."""
    draft = parsed(lines)
    check_counts(draft, written_terms(lines))
    stated = [stated_bounds(place, var) for place, var in enumerate(draft["vars"])]
    cores = {place: stated[place] for place, var in enumerate(draft["vars"]) if var[3]}
    stated = [widened(*b) if place in cores else b for place, b in enumerate(stated)]
    box = close(list(stated), draft["rows"], cores)
    for place, bounds in enumerate(box):
        if None in bounds:
            raise Refused(f"OpenVariable(VarId({place}))")
    scale = max([places(v) for _, v in draft["cost"]] + [places(v) for v in draft["constants"]], default=0)
    cost = [(var, int(value * 10 ** scale)) for var, value in draft["cost"]]
    constants = [int(value * 10 ** scale) for value in draft["constants"]]
    if width(cost, box) + sum(map(abs, constants)) > WIDEST:
        raise Refused("WideObjective")
    for place, a_row in enumerate(draft["rows"]):
        if is_wide(a_row, box):
            raise Refused(f"WideRow(RowId({place}))")
    for place, (var, _, a_row) in enumerate(draft["ifs"]):
        if not set(box[var]) <= {0, 1} or is_wide(a_row, box):
            raise Refused(f"BadIndicator({place})")
    sets = [(a_set[0], members(place, a_set)) for place, a_set in enumerate(draft["sets"])]
    sign = -1 if draft["max"] else 1
    texts = [f"{'max' if draft['max'] else 'min'} {scale} {sign * sum(constants)} cost" + said([(v, sign * a) for v, a in added(cost)])]
    texts += [f"var {option(low)} {option(high)}" for low, high in stated]
    texts += [f"core {place} {low} {high}" for place, (low, high) in cores.items()]
    texts += ["row " + row_text(a_row) for a_row in draft["rows"]]
    texts += [f"if {var} {int(on)} {row_text(a_row)}" for var, on, a_row in draft["ifs"]]
    texts += [f"set {kind}" + "".join(f" {var}" for var in vars_) for kind, vars_ in sets]
    return "; ".join(texts)


def option(value):
    """A number, or a dash where there is none."""
    return "-" if value is None else str(value)


def said(row_terms):
    """Terms as they are printed."""
    return "".join(f" {var}:{value}" for var, value in row_terms)


def row_text(a_row):
    """A row as it is printed."""
    return f"{option(a_row[1])} {option(a_row[2])}" + said(added(a_row[0]))


def expected(lines):
    """What lower_bench has to print of a draft."""
    try:
        return lowered(lines)
    except Refused as refusal:
        return f"refused {refusal}"


VALUES = ["0", "1", "-1", "2", "3", "-4", "0.5", ".25", "-2.50", "1.125", "7.0001", "1e3", "-1e5", "1e-6", "12345.678"]
GREAT = ["1e20", "-1e20", "1e15", "-1e15", "1e16", "99999999999999999999", "1e29", "-3e28", "1e-30", "1e21", "1e14", "999999999999999"]
FARTHER = GREAT + ["1e30", "-inf", "inf", "-99999999999999999999.5", "1000000000000000.5"]


def pick(draw, great, far=False):
    """A number as it is written."""
    return draw.choice((FARTHER if far else GREAT) if draw.random() < great else VALUES)


def random_terms(draw, count, great):
    """Up to six terms, now and then two of one variable."""
    return " ".join(f"{draw.randrange(count)} {pick(draw, great)}" for _ in range(draw.randint(0, 6)))


def random_row(draw, count, great):
    """Sides and terms."""
    kind = draw.choice(["le", "ge", "eq", "in", "l", "g", "e"])
    second = {"in": f" {pick(draw, great, True)}", "l": f" {pick(draw, great)}"}
    sides = f"{kind} {pick(draw, great, True)}" + second.get(kind, second["l"] if kind in "ge" and len(kind) == 1 else "")
    return f"{sides} {random_terms(draw, count, great)}"


def random_variable(draw, great):
    """A variable, most often one with bounds on both sides."""
    kind = draw.choices(["int", "bin", "con"], [70, 28, 2])[0]
    lower = draw.choice(["-", "-", "-", "0", "-3", "-10.5", "2.5", "-inf", pick(draw, great, True)])
    upper = draw.choice(["-", "1", "4", "7.5", "10", "100", "inf", pick(draw, great, True)])
    return f"var {kind} {lower} {upper}" + (" semi" if draw.random() < 0.2 else "")


def random_draft(draw):
    """A draft with a few variables and rows."""
    great = draw.choice([0, 0, 0, 0.05, 0.2])
    count = draw.randint(1, 5)
    lines = ["max"] if draw.random() < 0.4 else []
    lines += [random_variable(draw, great) for _ in range(count)]
    lines.append(f"cost {random_terms(draw, count, great)}")
    lines += [f"add {pick(draw, great)}" for _ in range(draw.choice([0, 0, 1, 3]))]
    lines += [f"row {random_row(draw, count, great)}" for _ in range(draw.randint(0, 6))]
    lines += [f"if {draw.randrange(count)} {draw.choice('01')} {random_row(draw, count, great)}" for _ in range(draw.choice([0, 0, 0, 1, 2]))]
    for _ in range(draw.choice([0, 0, 1, 2])):
        chosen = draw.sample(range(count), draw.randint(0, count)) + ([0] if draw.random() < 0.1 else [])
        weights = draw.sample(VALUES, len(chosen)) if draw.random() < 0.9 else draw.choices(VALUES, k=len(chosen))
        lines.append(f"set {draw.choice('12')} " + " ".join(f"{v} {w}" for v, w in zip(chosen, weights)))
    return lines


def chain(count):
    """Each row closes a bound of one variable by that of the next."""
    return ["var int - -"] * count + [f"row le 0 {i} 1 {i + 1} -1" for i in range(count - 1)] + [f"row le 1 {count - 1} 1"]


def limits():
    """Drafts at a limit and one past it."""
    yield from (["var int 0 1"] * count for count in (2000, 2001))
    yield from (["row le 1"] * count for count in (10000, 10001))
    one = ["var bin - -"]
    yield from (one + ["if 0 1 le 1"] * count for count in (1000, 1001))
    yield from (one + ["set 1"] * count for count in (1000, 1001))
    for more in (0, 1):
        yield one + ["cost" + " 0 1" * 100000, "row le 1" + " 0 1" * 99997, "if 0 1 le 1 0 1", f"set 1 0 1{' 0 2' * more}", "row in 0 1 0 2"]
        yield chain(32 + more)
        yield [f"var int -{10 ** 15} {10 ** 15}", f"cost 0 {10 ** 21 - 1}", f"add -{10 ** 15 + more}"]
        yield [f"var int -{10 ** 15} {10 ** 15}", f"row ge -{10 ** 15 + more} 0 {10 ** 21 - 1}"]
        yield one + [f"var int -{10 ** 15} {10 ** 15}", f"if 0 1 ge -{10 ** 15 + more} 1 {10 ** 21 - 1}"]
        yield [f"var int - {10 ** 6}", f"cost 0 {10 ** 29 - 1}.9", f"add 100000.{more}"]
        yield [f"var int - {10 ** 6 + more}", f"row e {10 ** 30 - 1} -{10 ** 30 - 1} 0 0.000001"]
        yield [f"var int - {10 ** 6 + more}", f"row in {5 * 10 ** 29 - 1} -{5 * 10 ** 29} 0 0.000001"]
        yield [f"var int - {10 ** 15 + more}", "row le 1 0 1"]
        yield [f"var int -{10 ** 15 + more} 0", "row le 1 0 1"]
        yield ["var int - -", f"row le {10 ** 15 + more} 0 1"]
        yield ["var int - -", f"row le {10 ** 15 + more}.5 0 1"]


def answers(drafts):
    """What lower_bench prints of the drafts."""
    text = "".join("\n".join(lines + ["end"]) + "\n" for lines in drafts)
    done = subprocess.run([PROGRAM], input=text.encode(), capture_output=True, check=True)
    return done.stdout.decode().split("\n")[:-1]


def main():
    """Compares, and says how many drafts were of which kind."""
    words = argparse.ArgumentParser()
    words.add_argument("--drafts", type=int, default=20000)
    words.add_argument("--seed", type=int, default=1)
    given = words.parse_args()
    draw = random.Random(given.seed)
    drafts = list(limits()) + [random_draft(draw) for _ in range(given.drafts)]
    got = answers(drafts)
    kinds, differ = {}, 0
    for lines, answer in zip(drafts, got):
        wanted = expected(lines)
        kind = wanted.split("(")[0] if wanted.startswith("refused") else "model"
        kinds[kind] = kinds.get(kind, 0) + 1
        if answer != wanted:
            differ += 1
            print("\n".join(line[:200] for line in lines[:40]), "wanted " + wanted[:500], "got    " + answer[:500], sep="\n")
    print(", ".join(f"{kind} {count}" for kind, count in sorted(kinds.items())))
    print(f"{len(drafts)} drafts, {differ} lowered differently")
    return 1 if differ or len(got) != len(drafts) else 0


if __name__ == "__main__":
    sys.exit(main())
