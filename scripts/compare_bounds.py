#!/usr/bin/env python3
"""Compares the bounds that the built bound_bench prints with exact fractions, and with all points of small boxes.

usage: scripts/compare_bounds.py [--models N] [--seed S]     after 'rt run' in crates/bound_bench

For each random model: the stated lists and their order, the bound of each list by both calls (none where a named number
isn't a signed number of 128 bits), in how many rounds of changes a stated list closes the box, whether the list that is
said to close it in the end does, whether none does where none is said to, and that no point of the box that keeps the rows has an objective below a bound. Each place where the two differ
is shown. Status 0 where there is none, else 1. It stands beside the gate, and builds nothing.
"""
import argparse
import itertools
import os
import pathlib
import random
import subprocess
import sys
from fractions import Fraction

TOP = pathlib.Path(__file__).resolve().parent.parent
PROGRAM = pathlib.Path(os.environ.get("BOUND_BENCH", TOP / "crates" / "bound_bench" / "out" / "bound_bench"))
LIMIT = 2 ** 127
GREATEST_WIDTH = 10 ** 36


class Model:
    """Variables with bounds, an objective, rows of (lo, hi, terms), rounds of changes of a range (how many, of how many
    variables, and two ranges), a box within the bounds, a threshold and lists."""

    def __init__(self, lower, upper, constant, cost, rows, box, threshold, lists):
        self.lower, self.upper, self.constant, self.cost = lower, upper, constant, cost
        self.rows, self.box, self.threshold, self.lists = rows, box, threshold, lists
        self.rounds = (0, 0, (0, 0), (0, 0))

    def words(self):
        """The numbers of a case, as src/cases.rt and src/telling.rt of bound_bench read them."""
        yield len(self.lower)
        yield from self.lower
        yield from self.upper
        yield self.constant
        yield from terms_words(self.cost)
        yield len(self.rows)
        for lo, hi, terms in self.rows:
            yield from option_words(lo)
            yield from option_words(hi)
            yield from terms_words(terms)
        yield from option_words(self.threshold)
        rounds, count, even, odd = self.rounds
        yield from (rounds, count, *even, *odd)
        yield len(self.box)
        for pair in self.box:
            yield from pair
        yield from (1, 1, len(self.lists))
        for divisor, entries in self.lists:
            yield divisor
            yield len(entries)
            for entry in entries:
                yield from entry


def option_words(value):
    return [0] if value is None else [1, value]


def terms_words(terms):
    return [len(terms)] + [number for term in terms.items() for number in term]


def extreme(terms, box, least):
    """The least or the greatest sum of the terms over the box."""
    return sum((min if least else max)(a * box[j][0], a * box[j][1]) for j, a in terms.items())


def bound(model, divisor, entries, box=None):
    """The bound over the box as a whole number, None where one of its named numbers passes 128 bits."""
    box = model.box if box is None else box
    named, total = [], Fraction(0)
    for row, y in entries:
        lo, hi, terms = model.rows[row]
        side = lo if y > 0 else hi
        if side is None:
            side = extreme(terms, box, y > 0)
        named.append(y * side)
        total += Fraction(y * side, divisor)
        named.append(total * divisor)
    for j, (lower, upper) in enumerate(box):
        reduced = divisor * model.cost.get(j, 0)
        named.append(reduced)
        for row, y in entries:
            if j in model.rows[row][2]:
                share = y * model.rows[row][2][j]
                reduced -= share
                named += [share, reduced]
        value = reduced * lower if reduced >= 0 else reduced * upper
        total += Fraction(value, divisor)
        named += [value, total * divisor]
    answer = -((-total.numerator) // total.denominator) + model.constant
    named.append(answer)
    return answer if all(-LIMIT <= number < LIMIT for number in named) else None


def stated(model):
    """The stated lists: the empty one, and the first 64 others."""
    found = []
    for row, (_, _, terms) in enumerate(model.rows):
        for j, a in terms.items():
            cost = model.cost.get(j, 0)
            entry = (abs(a), ((row, cost if a > 0 else -cost),))
            if cost != 0 and entry not in found:
                found.append(entry)
    return [(1, ())] + found[:64]


def closed_rounds(model):
    """In how many of the rounds a stated list closes the box. A range that a variable can't have changes nothing."""
    if model.threshold is None:
        return 0
    rounds, count, even, odd = model.rounds
    box, closed = list(zip(model.lower, model.upper)), 0
    for at in range(rounds):
        least, greatest = odd if at % 2 else even
        var = at // 2 % count if count else 0
        if var < len(box) and model.lower[var] <= least <= greatest <= model.upper[var]:
            box[var] = (least, greatest)
        values = (bound(model, *entry, box) for entry in stated(model))
        closed += any(value is not None and value > model.threshold for value in values)
    return closed


def least_kept(model):
    """The least objective over the points of the box that keep the rows; None where there is none."""
    best = None
    for point in itertools.product(*(range(lower, upper + 1) for lower, upper in model.box)):
        def total(terms):
            return sum(a * point[j] for j, a in terms.items())
        if all((lo is None or lo <= total(t)) and (hi is None or total(t) <= hi) for lo, hi, t in model.rows):
            value = model.constant + total(model.cost)
            best = value if best is None else min(best, value)
    return best


def random_terms(dice, count, size):
    chosen = sorted(dice.sample(range(count), dice.randint(0, count)))
    return {j: dice.choice([-1, 1]) * dice.randint(1, size) for j in chosen}


def width(terms, lower, upper, sides):
    """How far from 0 the sum of the terms, with the sides beside it, can come."""
    reach = sum(abs(a) * max(1, abs(lower[j]), abs(upper[j])) for j, a in terms.items())
    return reach + sum(abs(side) for side in sides if side is not None)


def random_lists(dice, rows, lower, upper):
    """Lists with small multipliers, and lists whose products come near the limit of 128 bits or pass it."""
    lists = []
    for _ in range(dice.randint(0, 4)):
        chosen = sorted(dice.sample(range(len(rows)), dice.randint(0, min(3, len(rows))))) if rows else []
        entries, divisor = [], dice.choice([1, 1, 2, 3, dice.randint(1, 100), dice.randint(1, LIMIT - 1)])
        is_far = dice.random() < 0.7
        for row in chosen:
            near = LIMIT // max(1, width(rows[row][2], lower, upper, []))
            size = near * dice.randint(1, 40) // 32 if is_far else dice.choice([3, 100])
            entries.append((row, dice.choice([-1, 1]) * min(LIMIT - 1, max(1, size - dice.randint(0, 2)))))
        lists.append((divisor, entries))
    return lists


def random_model(dice):
    """A small model whose points are all looked at, or one of great numbers, of which bounds come near 2^127."""
    small = dice.random() < 0.5
    count = dice.randint(1, 4 if small else 6)
    reach = 3 if small else 10 ** dice.randint(0, 15)
    size = dice.choice([3, 9, 50]) if small else 10 ** dice.randint(0, 34)
    lower = [dice.randint(-reach, reach) for _ in range(count)]
    upper = [dice.randint(least, reach) for least in lower]
    cost, rows = random_terms(dice, count, size), []
    for _ in range(dice.randint(0, 4) if dice.random() < 0.9 else dice.randint(20, 40)):
        terms = random_terms(dice, count, size)
        sides = [dice.choice([None, dice.randint(-size * reach, size * reach)]) for _ in range(2)]
        if width(terms, lower, upper, sides) <= GREATEST_WIDTH:
            rows.append((sides[0], sides[1], terms))
    constant = dice.randint(-size, size)
    if width(cost, lower, upper, [constant]) > GREATEST_WIDTH:
        cost, constant = {}, 0
    box = []
    for least, greatest in zip(lower, upper):
        first = dice.choice([least, dice.randint(least, greatest)])
        box.append((first, dice.choice([first, greatest, dice.randint(first, greatest)])))
    model = Model(lower, upper, constant, cost, rows, box, None, [])
    model.lists = random_lists(dice, rows, lower, upper)
    if dice.random() < 0.4:
        ranges = [*zip(lower, upper), *box, (dice.randint(-reach, reach), dice.randint(-reach, reach))]
        model.rounds = (dice.randint(1, 6), dice.randint(0, count + 1), dice.choice(ranges), dice.choice(ranges))
    bounds = [value for value in (bound(model, *entry) for entry in stated(model)) if value is not None]
    model.threshold = dice.choice([None, dice.choice(bounds), dice.choice(bounds) - 1, dice.randint(-LIMIT, LIMIT - 1)])
    return model


def wanted_words(model):
    """What is printed behind the place of the closing list, and the bounds of the stated lists."""
    words, bounds = [], []
    for divisor, entries in stated(model):
        words += [str(divisor)] + [str(number) for entry in entries for number in entry]
        bounds.append(bound(model, divisor, entries))
        words += ["none" if bounds[-1] is None else str(bounds[-1])] * 2
    for divisor, entries in model.lists:
        value = bound(model, divisor, entries)
        words += ["none" if value is None else str(value)] * 2
    return words, bounds


def faults(model, line):
    """What is wrong with the line that was printed for the model."""
    rounds, closing, *words = line.split()
    wanted, bounds = wanted_words(model)
    closes = [value is not None and model.threshold is not None and value > model.threshold for value in bounds]
    if rounds != str(closed_rounds(model)):
        yield f"closed in {rounds} rounds, wanted {closed_rounds(model)}"
    if words != wanted:
        yield f"printed {words}, wanted {wanted}"
    if closing == "open" and any(closes):
        yield f"list {closes.index(True)} closes the box"
    if closing != "open" and not closes[int(closing)]:
        yield f"list {closing} doesn't close the box"
    points = 1
    for lower, upper in model.box:
        points *= upper - lower + 1
    if points <= 2000:
        best = least_kept(model)
        for divisor, entries in stated(model) + model.lists:
            value = bound(model, divisor, entries)
            if best is not None and value is not None and value > best:
                yield f"the bound {value} is above the objective {best}"


def main():
    parser = argparse.ArgumentParser()
    parser.add_argument("--models", type=int, default=10000)
    parser.add_argument("--seed", type=int, default=1)
    options = parser.parse_args()
    dice = random.Random(options.seed)
    models = [random_model(dice) for _ in range(options.models)]
    text = "".join(" ".join(map(str, model.words())) + "\n" for model in models)
    if not os.access(PROGRAM, os.X_OK):
        sys.exit(f"no program {PROGRAM}: build it first, by 'rt run' in crates/bound_bench")
    ran = subprocess.run([str(PROGRAM)], input=text, capture_output=True, text=True, check=False)
    lines = ran.stdout.splitlines()
    wrong = 0 if ran.returncode == 0 and len(lines) == len(models) else 1
    if wrong:
        print(f"status {ran.returncode}, {len(lines)} lines: {ran.stderr.strip()}")
    discarded = closed = far = 0
    for model, line in zip(models, lines):
        for fault in faults(model, line):
            wrong += 1
            print(f"{fault}: {' '.join(map(str, model.words()))}")
        discarded += " none" in line
        closed += line.split()[1] != "open"
        values = [bound(model, *entry) for entry in model.lists]
        far += any(value is not None and abs(value) >= LIMIT // 16 for value in values)
    print(f"{len(models)} models, {discarded} with a discarded bound, {far} with a bound of 2^123 or more in magnitude, "
          f"{closed} with a closed box, {wrong} differences")
    sys.exit(1 if wrong else 0)


if __name__ == "__main__":
    main()
