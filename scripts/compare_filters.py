#!/usr/bin/env python3
"""Compares what the built filter_bench answers with slow filters in exact fractions, at all points of small boxes.

usage: scripts/compare_filters.py [--rounds N] [--seed S]     after 'rt run' in crates/filter_bench

A round is a model of one to three variables, filters that are added and removed, and then, for boxes within the model's, each
point of the box. Whether a filter closes a box is worked out from the least and the greatest value of each term over the box's
values; it is also compared with the points: no point of a closed box passes, and a single point's box is closed exactly where
the point fails. Each line that is answered differently is shown. Status 0 where there is none, else 1. It stands beside the
gate, and builds nothing.
"""
import argparse
import itertools
import os
import pathlib
import random
import subprocess
import sys
from fractions import Fraction

TOP = pathlib.Path(__file__).resolve().parent.parent
PROGRAM = pathlib.Path(os.environ.get("FILTER_BENCH", TOP / "crates" / "filter_bench" / "out" / "filter_bench"))
WIDEST = 10 ** 36
MOST = 64


def places(values):
    """The fewest decimal places in which all values are whole."""
    count = 0
    while any(value * 10 ** count % 1 for value in values):
        count += 1
    return count


def asked_values(term, low, high):
    """All values of a small range; of a large one its ends, and the reference where it lies between."""
    if high - low <= 100:
        return range(low, high + 1)
    return [low, high, *(v for v in term[2:] if low <= v <= high)]


class Filter:
    """A filter as it is written, with exact fractions."""

    def __init__(self, kind, lo, hi, terms):
        self.kind, self.lo, self.hi, self.terms = kind, lo, hi, terms
        bounds = [b for b in (lo, hi) if b is not None]
        self.scale = places(bounds + [term[1] for term in terms])

    def value(self, term, v):
        """What a term gives at a value of its variable."""
        return term[1] * (v if self.kind == "range" else abs(v - term[2]))

    def passes(self, point):
        """Whether the sum lies between the bounds."""
        total = sum(self.value(term, point[term[0]]) for term in self.terms)
        return (self.lo is None or self.lo <= total) and (self.hi is None or total <= self.hi)

    def closes(self, box):
        """Whether the terms' greatest values add up to too little, or their least ones to too much."""
        least = most = Fraction(0)
        for term in self.combined():
            values = [self.value(term, v) for v in asked_values(term, *box[term[0]])]
            least, most = least + min(values), most + max(values)
        return (self.lo is not None and most < self.lo) or (self.hi is not None and least > self.hi)

    def combined(self):
        """The terms as they are kept: those of a range filter added up by variable."""
        if self.kind != "range":
            return self.terms
        sums = {}
        for var, value in self.terms:
            sums[var] = sums.get(var, 0) + value
        return sorted((var, value) for var, value in sums.items() if value)

    def width(self, box, terms):
        """The width over a box, in scaled numbers."""
        total = sum(abs(b) for b in (self.lo, self.hi) if b is not None)
        for term in terms:
            reach = max(1, abs(box[term[0]][0]), abs(box[term[0]][1]))
            total += abs(term[1]) * (reach if self.kind == "range" else reach + abs(term[2]))
        return total * 10 ** self.scale

    def text(self):
        """The filter as filter_bench prints it."""
        unit = 10 ** self.scale
        lo, hi = ("None" if b is None else f"Some({int(b * unit)})" for b in (self.lo, self.hi))
        terms = ", ".join(f"(VarId({term[0]}), {', '.join(str(int(x)) for x in (term[1] * unit, *term[2:]))})"
                          for term in self.combined())
        return f"{self.kind.capitalize()} {{ terms: Items {{ items: [{terms}] }}, lo: {lo}, hi: {hi}, scale: {self.scale} }}"


class Session:
    """What the lines say, one after another, and what they have to answer."""

    def __init__(self):
        self.box, self.held, self.next = [], [], 0
        self.lines, self.answers = [], []

    def say(self, line, *answers):
        """A line with its answers, each of them a printed line."""
        self.lines.append(line)
        self.answers += [(len(self.lines) - 1, answer) for answer in answers]

    def model(self, box):
        """A new model; the filters stay."""
        self.box = box
        self.say("model " + " ".join(f"{low} {high}" for low, high in box))

    def fits(self, entry):
        """Whether the held filter fits the model."""
        filter_ = entry[2]
        known = all(term[0] < len(self.box) for term in filter_.terms)
        weights = filter_.kind == "range" or all(term[1] >= 0 for term in filter_.terms)
        return known and weights and filter_.width(self.box, filter_.combined()) <= WIDEST

    def add(self, name, filter_):
        """A filter is added, or refused in order."""
        bounds = " ".join("-" if b is None else text(b) for b in (filter_.lo, filter_.hi))
        terms = " ".join(" ".join([str(term[0]), text(term[1]), *map(str, term[2:])]) for term in filter_.terms)
        if any(term[0] >= len(self.box) for term in filter_.terms):
            answer = "added None"
        elif any(entry[1] == name for entry in self.held):
            answer = "added Some(Err(NameTaken))"
        elif len(self.held) >= MOST:
            answer = "added Some(Err(TooMany))"
        elif filter_.kind == "diversity" and any(term[1] < 0 for term in filter_.terms):
            answer = "added Some(Err(NegativeWeight))"
        elif filter_.width(self.box, filter_.terms) > WIDEST:
            answer = "added Some(Err(Wide))"
        else:
            answer = f"added Some(Ok(FilterId({self.next})))"
            self.held.append((self.next, name, filter_))
            self.next += 1
        self.say(f"{filter_.kind} {name} {bounds} {terms}", answer)

    def remove(self, name):
        """The filter of a name is removed."""
        gone = [entry for entry in self.held if entry[1] == name]
        self.held = [entry for entry in self.held if entry[1] != name]
        self.say(f"remove {name}", f"removed Ok(FilterId({gone[0][0]}))" if gone else "removed Err(NoFilter)")

    def place(self, number):
        """The place of an id."""
        found = [place for place, entry in enumerate(self.held) if entry[0] == number]
        self.say(f"place {number}", f"place Some({found[0]})" if found else "place None")

    def show(self):
        """All held filters."""
        self.say("held", *(f"held {entry[0]} {str(self.fits(entry)).lower()} {entry[2].text()}" for entry in self.held))

    def ask_box(self):
        """Which filters close the box; None for one that may not be asked."""
        marks = [entry[2].closes(self.box) if self.fits(entry) else None for entry in self.held]
        self.say("box 1", *("closes None None" if mark is None else f"closes Some({int(mark)}) Some({str(mark).lower()})"
                            for mark in marks))
        return marks

    def ask_point(self, point):
        """Which filters the point passes; None for one that may not be asked."""
        inside = len(point) == len(self.box) and all(low <= v <= high for v, (low, high) in zip(point, self.box))
        marks = [entry[2].passes(point) if inside and self.fits(entry) else None for entry in self.held]
        together = "None" if None in marks else f"Some({int(False not in marks)})"
        self.say("point 1 " + " ".join(map(str, point)), f"passes {together}",
                 *("one None" if mark is None else f"one Some({str(mark).lower()})" for mark in marks))
        return marks


def text(value):
    """A fraction as a decimal."""
    count = places([value])
    digits = str(abs(int(value * 10 ** count))).rjust(count + 1, "0")
    whole = digits[:len(digits) - count] + ("." + digits[len(digits) - count:] if count else "")
    return ("-" if value < 0 else "") + whole


VALUES = ["0", "1", "-1", "2", "-3", "0.5", "-0.25", "1.1", "7", "0.001", "12.5"]


def random_filter(draw, count, near):
    """A filter over so many variables; near is a sum at some point, so that bounds are met exactly now and then."""
    kind = draw.choice(["range", "diversity"])
    terms = []
    for _ in range(draw.randint(0, 4)):
        value = Fraction(draw.choice(VALUES))
        if kind == "diversity" and draw.random() < 0.95:
            value = abs(value)
        terms.append((draw.randrange(count), value) if kind == "range" else (draw.randrange(count), value, draw.randint(-4, 4)))
    filter_ = Filter(kind, None, None, terms)
    total = sum(filter_.value(term, near[term[0]]) for term in terms)
    step = Fraction(draw.choice(VALUES + ["0"] * 6))
    lo = None if draw.random() < 0.4 else total - abs(step)
    hi = None if draw.random() < 0.4 else total + abs(step) * draw.choice([0, 1])
    return Filter(kind, lo, hi, terms)


def round_of(draw, session):
    """A model, filters, boxes and all their points; how many points were asked."""
    session.say("new")
    session.held, session.next = [], 0
    outer = [(low, low + draw.randint(0, 3)) for low in (draw.randint(-4, 3) for _ in range(draw.randint(1, 3)))]
    session.model(outer)
    for number in range(draw.randint(1, 4)):
        near = [draw.randint(low, high) for low, high in outer]
        session.add(f"f{draw.choice([number, number, 0])}", random_filter(draw, len(outer), near))
    if draw.random() < 0.3:
        session.remove(f"f{draw.randint(0, 4)}")
        session.add("g", random_filter(draw, len(outer), [low for low, _ in outer]))
    session.place(draw.randint(0, 5))
    session.show()
    asked = 0
    for _ in range(3):
        box = [sorted((draw.randint(low, high), draw.randint(low, high))) for low, high in outer]
        session.model([tuple(ends) for ends in box])
        closed = session.ask_box()
        for point in itertools.product(*(range(low, high + 1) for low, high in box)):
            passed = session.ask_point(point)
            asked += 1
            single = all(low == high for low, high in box)
            for c, p in zip(closed, passed):
                assert (c, p) not in ((True, True), *([(False, False)] if single else [])), "the slow filters contradict themselves"
    return asked


def limits(session):
    """64 filters and one more, ids that aren't used again, widths of 10^36 and one past it, and the order of refusals."""
    session.say("new")
    session.held, session.next = [], 0
    session.model([(0, 10 ** 6), (0, 1)])
    for number in range(65):
        session.add(f"n{number}", Filter("range", Fraction(number), None, [(0, Fraction(1))]))
    negative = Filter("diversity", None, Fraction(1), [(0, Fraction(-1), 0)])
    session.add("n3", negative)
    session.add("m", negative)
    session.remove("n63")
    session.add("m", negative)
    session.add("m", Filter("range", None, Fraction(1), [(1, Fraction(1))]))
    session.place(63)
    session.place(64)
    session.remove("m")
    session.remove("n0")
    session.remove("n0")
    great = Fraction(10 ** 30 - 1)
    for more in (0, 1):
        session.add(f"w{more}", Filter("range", Fraction(10 ** 6 - 1 + more), None, [(0, great), (1, Fraction(1))]))
        session.remove("w0")
        session.add(f"d{more}", Filter("diversity", None, Fraction(10 ** 6 + more), [(0, great, -10 ** 6 // 2), (1, Fraction(0), 5)]))
        session.add(f"e{more}", Filter("diversity", None, Fraction(10 ** 6 + more), [(0, great, 0)]))
        session.remove("e0")
    session.show()
    session.ask_box()
    session.ask_point((0, 1))
    session.ask_point((10 ** 6, 0))
    session.ask_point((10 ** 6 + 1, 0))
    session.ask_point((0,))


def main():
    """Compares, and says how much was asked."""
    words = argparse.ArgumentParser()
    words.add_argument("--rounds", type=int, default=4000)
    words.add_argument("--seed", type=int, default=1)
    given = words.parse_args()
    draw = random.Random(given.seed)
    session = Session()
    limits(session)
    asked = sum(round_of(draw, session) for _ in range(given.rounds))
    source = "\n".join(session.lines) + "\n"
    done = subprocess.run([PROGRAM], input=source.encode(), capture_output=True, check=True)
    got = done.stdout.decode().split("\n")[:-1]
    differ = 0
    for (place, wanted), answer in zip(session.answers, got):
        if wanted != answer:
            differ += 1
            print(session.lines[place], "wanted " + wanted, "got    " + answer, sep="\n")
    kinds = {}
    for _, wanted in session.answers:
        kind = wanted.split("(FilterId")[0] if wanted.startswith(("added", "removed")) else wanted
        if wanted.startswith(("added", "removed", "closes", "passes")):
            kinds[kind] = kinds.get(kind, 0) + 1
    print(", ".join(f"{kind} {count}" for kind, count in sorted(kinds.items())))
    print(f"{len(session.answers)} answers, {asked} points, {differ} different, {len(got)} lines printed")
    return 1 if differ or len(got) != len(session.answers) else 0


if __name__ == "__main__":
    sys.exit(main())
