#!/usr/bin/env python3
"""Checks chains of runs on one tree, with changed gaps, filters and limits, against a walk over all points that shares nothing
with the program.

usage: scripts/compare_populate.py [CHAINS [SEED]]        after populate_bench was built, by 'rt run' in crates/populate_bench

A chain is a small random model and some calls: gaps set, filters added and removed, runs to the optimum, to all listed points
and to the first ones, each with limits or without. Checked behind each run: its answer with its cause; that the list is that
of the walk, or a leaf isn't licensed; the first points; that found points stay and are feasible, valued and distinct, and what
each phase found; each leaf's claim, by the points of its box; that the new tree extends the old one, with licensed leaves as
they were; and that there are at most as many nodes as the limit and the points allow. Status 0 where there is no fault, else 1.
It stands beside the gate, and builds nothing.
"""
import itertools
import os
import pathlib
import random
import re
import subprocess
import sys
from fractions import Fraction

TOP = pathlib.Path(__file__).resolve().parent.parent
PROGRAM = pathlib.Path(os.environ.get("POPULATE_BENCH", TOP / "crates" / "populate_bench" / "out" / "populate_bench"))
CEILING = 10 ** 36
GREATEST = 2 ** 32 - 1
NODE = re.compile(r"Node \{ mark: (None|Some\(Bound \{ by: \d+, least: (-?\d+) \}\)), kind: (.*) \}$")
FOUND = re.compile(r"Found \{ point: Point \{ values: \[(.*)\] \}, value: (-?\d+) \}$")
SPLIT = re.compile(r"Split \{ var: VarId\((\d+)\), at: (-?\d+), left: NodeId\((\d+)\), right: NodeId\((\d+)\) \}")
BOUNDED = re.compile(r"Bounded\(Bound \{ by: (\d+), least: (-?\d+) \}\)")
SCREENED = re.compile(r"Screened\(FilterId\((\d+)\)\)")
POINT = re.compile(r"Point\((\d+)\)")
END = re.compile(r"(\w+) nodes (\d+) found (\d+)$")
LISTED = re.compile(r"listed (\d+) \[(.*)\]$")


def show(value):
    """A fraction with a power of ten below as a decimal, and '-' for none."""
    if value is None:
        return "-"
    places = 0
    while value * 10 ** places % 1:
        places += 1
    digits = str(abs(int(value * 10 ** places))).rjust(places + 1, "0")
    return ("-" if value < 0 else "") + (digits[:-places] + "." + digits[-places:] if places else digits)


class Model:
    """A minimised model: bounds, cost, and rows as (coefficients by variable, least side, greatest side)."""

    def __init__(self, rng):
        count = rng.randint(1, 5)
        self.lower = [rng.choice([0, 0, 0, -2, -1]) for _ in range(count)]
        self.upper = [low + rng.choice([1, 1, 1, 2, 3]) for low in self.lower]
        reach = rng.choice([1, 3, 9])
        self.cost = [rng.choice([0, rng.randint(-reach, reach)]) for _ in range(count)]
        self.rows = []
        for _ in range(rng.choice([0, 0, 1, 2])):
            terms = {j: a for j in range(count) if (a := rng.choice([0, rng.randint(-reach, reach)]))}
            if terms:
                middle = sum(a * rng.randint(self.lower[j], self.upper[j]) for j, a in terms.items())
                low, high = middle - rng.randint(0, reach), middle + rng.randint(0, reach)
                self.rows.append((terms, *rng.choice([(None, high), (low, None), (low, high), (middle, middle)])))
        walk = itertools.product(*(range(low, high + 1) for low, high in zip(self.lower, self.upper)))
        self.points = sorted((self.value(p), p) for p in walk if self.is_feasible(p))
        self.count = 1
        for low, high in zip(self.lower, self.upper):
            self.count *= high - low + 1

    def lines(self):
        """The model as the program reads it."""
        lines = ["model " + " ".join(f"{low} {high}" for low, high in zip(self.lower, self.upper)),
                 "cost " + " ".join(map(str, self.cost))]
        lines += [f"row {show(low)} {show(high)} " + " ".join(f"{j} {a}" for j, a in terms.items()) for terms, low, high in self.rows]
        return lines

    def value(self, point):
        return sum(c * v for c, v in zip(self.cost, point))

    def is_feasible(self, point):
        totals = ((sum(a * point[j] for j, a in terms.items()), low, high) for terms, low, high in self.rows)
        return all((low is None or low <= total) and (high is None or total <= high) for total, low, high in totals)


class Filter:
    """A filter: its id, its bounds, and a test of points."""

    def __init__(self, rng, number, model):
        self.number, self.name = number, f"f{rng.randint(0, 3)}"
        self.far = rng.random() < 0.5
        count = len(model.cost)
        scale = rng.choice([1, 1, 10, 4])
        self.terms = [(j, Fraction(rng.randint(0 if self.far else -6, 6), scale), rng.randint(-1, 2)) for j in range(count) if rng.random() < 0.7]
        middle = self.total(rng.choice([p for _, p in model.points] or [tuple(model.lower)]))
        low, high = middle - Fraction(rng.randint(0, 4), 2), middle + Fraction(rng.randint(0, 4), 2)
        self.low, self.high = rng.choice([(low, None), (None, high), (low, high), (middle + 1, None)])

    def total(self, point):
        return sum((w * abs(point[j] - r) if self.far else w * point[j] for j, w, r in self.terms), Fraction(0))

    def passes(self, point):
        total = self.total(point)
        return (self.low is None or self.low <= total) and (self.high is None or total <= self.high)

    def line(self):
        ends = f"{self.name} {show(self.low)} {show(self.high)} "
        if self.far:
            return "diversity " + ends + " ".join(f"{j} {show(w)} {r}" for j, w, r in self.terms)
        return "range " + ends + " ".join(f"{j} {show(w)}" for j, w, _ in self.terms)


class Call:
    """A line with what it asks, and the gaps and filters in force behind it."""

    def __init__(self, line, kind, first=None, second=None):
        self.line, self.kind, self.first, self.second = line, kind, first, second
        self.gaps = self.filters = None


def chain(rng, model):
    """Some calls, each with the gaps and the filters that it works under."""
    gaps, filters, next_id, calls = (None, None), [], 0, []
    for _ in range(rng.randint(3, 9)):
        kind = rng.choice(["gaps", "gaps", "add", "remove", "optimize", "populate", "populate", "populate", "nbest", "nbest"])
        nodes = rng.choice([None, None, None, 1, 3, 5, 9, 15])
        word = "-" if nodes is None else str(nodes)
        if kind == "gaps":
            gaps = tuple(rng.choice([None, Fraction(rng.randint(0, 12), rng.choice([1, 1, 2]))]) for _ in range(2))
            call = Call(f"gaps {show(gaps[0])} {show(gaps[1])}", kind)
        elif kind == "add":
            new = Filter(rng, next_id, model)
            call = Call(new.line(), kind, new.name, next_id)
            if all(new.name != f.name for f in filters):
                filters, next_id = [*filters, new], next_id + 1
            else:
                call.second = None
        elif kind == "remove":
            name = f"f{rng.randint(0, 3)}"
            call = Call(f"remove {name}", kind, name)
            filters = [f for f in filters if f.name != name]
        elif kind == "optimize":
            call = Call(f"optimize {word}", kind, nodes)
        elif kind == "populate":
            most = rng.choice([None, None, 1, 2, 5])
            call = Call(f"populate {word} {'-' if most is None else most}", kind, nodes, most)
        else:
            k = rng.choice([1, 1, 2, 3, 7, 50])
            call = Call(f"nbest {k} {word}", kind, nodes, k)
        call.gaps, call.filters = gaps, list(filters)
        calls.append(call)
    return calls


def cut_of(best, gaps):
    """The greatest value that is listed."""
    if best is None:
        return CEILING
    parts = [CEILING if gap is None else best + gap * unit // 1 for gap, unit in zip(gaps, (1, abs(best)))]
    return min(CEILING, *parts)


class Seen:
    """A state as printed: (mark, kind) of each node, the found points with their values, and whether phase one has ended."""

    def __init__(self, model, lines):
        self.nodes = [(None if m.group(2) is None else int(m.group(2)), m.group(3)) for m in map(NODE.match, lines) if m]
        self.found = [(int(m.group(2)), tuple(int(v) for v in m.group(1).split(", ") if v)) for m in map(FOUND.match, lines) if m]
        assert len(self.nodes) + len(self.found) == len(lines), "a line that is none of these"
        self.boxes = [None] * len(self.nodes)
        self.boxes[0] = list(zip(model.lower, model.upper))
        for (_, kind), box in zip(self.nodes, self.boxes):
            if SPLIT.match(kind):
                var, at, left, right = map(int, SPLIT.match(kind).groups())
                assert box[var][0] <= at < box[var][1], "a split outside of its box"
                self.boxes[left] = [*box[:var], (box[var][0], at), *box[var + 1:]]
                self.boxes[right] = [*box[:var], (at + 1, box[var][1]), *box[var + 1:]]

    def has_open(self):
        return any(kind == "Open" for _, kind in self.nodes)


def is_licensed(kind, cut, held):
    """Whether a leaf of this kind needs no more work for the cut and the held filters' ids."""
    if BOUNDED.match(kind):
        return int(BOUNDED.match(kind).group(2)) > cut
    if SCREENED.match(kind):
        return int(SCREENED.match(kind).group(1)) in held
    return kind != "Open"


def check_tree(model, seen, filters):
    """What each leaf says of the feasible points of its box."""
    serials = []
    held = {f.number: f for f in filters}
    for (mark, kind), box in zip(seen.nodes, seen.boxes):
        inside = [(v, p) for v, p in model.points if all(low <= x <= high for x, (low, high) in zip(p, box))]
        assert mark is None or all(v >= mark for v, _ in inside), "a mark above a point's value"
        if kind.startswith("Dead"):
            assert not inside, "a dead leaf with a feasible point"
        elif BOUNDED.match(kind):
            assert all(v >= int(BOUNDED.match(kind).group(2)) for v, _ in inside), "a bound above a point's value"
        elif SCREENED.match(kind):
            number = int(SCREENED.match(kind).group(1))
            assert number not in held or not any(held[number].passes(p) for _, p in inside), "a screened point passes"
        elif POINT.match(kind):
            serials.append(int(POINT.match(kind).group(1)))
            assert seen.found[serials[-1] - 1] in inside and all(low == high for low, high in box), "a point beside its box"
    assert sorted(serials) == list(range(1, len(seen.found) + 1)), "found points without their leaves"
    assert len(set(p for _, p in seen.found)) == len(seen.found), "a point that was found twice"
    assert len(seen.nodes) <= 2 * model.count - 1, "more nodes than points allow"


def check_extends(old, new, cut, held, spared, marked):
    """That the new tree has what was in the old one."""
    for (mark, kind), (new_mark, new_kind) in zip(old.nodes, new.nodes):
        if SPLIT.match(kind) or kind.startswith("Dead") or POINT.match(kind):
            assert new_kind == kind, "a final node that changed"
        if BOUNDED.match(kind):
            assert new_kind == kind or new_mark is not None, "a reopened leaf without a mark"
        assert mark is None or new_mark is not None, "a mark that went"
        if not SPLIT.match(kind) and is_licensed(kind, cut, held):
            assert not spared or (new_mark, new_kind) == (mark, kind), "a licensed leaf that changed"
        elif marked and BOUNDED.match(kind):
            assert new_mark == int(BOUNDED.match(kind).group(2)), "a bound that isn't the mark"


def check_found(model, call, old, new, ended):
    """That found points stay, and what each phase found; answers how many phase two found."""
    assert new.found[:len(old.found)] == old.found, "a found point that went"
    assert all((v, p) in model.points for v, p in new.found), "a point that isn't feasible, or another value"
    best, cut = (model.points[0][0] if model.points else None), cut_of(model.points[0][0] if model.points else None, call.gaps)
    values = [v for v, _ in new.found]
    first = len(old.found) if ended else next((i + 1 for i, v in enumerate(values) if v == best), len(values))
    falling = values[:next((i + 1 for i, v in enumerate(values) if v == best), len(values))]
    assert all(a > b for a, b in zip(falling, falling[1:])), "a value of phase one that doesn't fall"
    for value, point in new.found[max(first, len(old.found)):]:
        assert value <= cut and all(f.passes(point) for f in call.filters), "a point of phase two that isn't wanted"
    return len(new.found) - max(first, len(old.found)), cut


def check_run(model, call, old, new, ended, end, listed):
    """That a run's answer has its cause; answers whether phase one has ended behind it."""
    more, cut = check_found(model, call, old, new, ended)
    best, held = (model.points[0][0] if model.points else None), {f.number for f in call.filters}
    now = ended or end in ("Optimal", "Infeasible", "Done", "PopulateLimit", "Best")
    late = now or best is not None and any(mark is not None for mark, _ in new.nodes)
    check_extends(old, new, cut, held, call.kind != "optimize", call.kind == "populate" and (late or end != "NodeLimit"))
    limit = GREATEST if call.first is None else call.first
    assert len(new.nodes) <= max(limit, len(old.nodes)) and len(new.nodes) % 2, "more nodes than the limit"
    complete = all(SPLIT.match(kind) or is_licensed(kind, cut, held) for _, kind in new.nodes)
    wanted = [p for v, p in model.points if v <= cut and all(f.passes(p) for f in call.filters)]
    if end == "NodeLimit":
        assert new.has_open() and len(new.nodes) + 2 > limit, "a stop with room"
    elif end == "PopulateLimit":
        assert new.has_open() and more == call.second, "a stop at another number of points"
    elif end == "Done":
        assert complete, "an end with a leaf that isn't licensed"
    elif end == "Best":
        assert [new.found[s - 1][1] for s in listed] == wanted[:call.second], "other first points"
    else:
        assert not new.has_open() or ended, "an optimum with an open leaf"
        assert end == ("Infeasible" if best is None else "Optimal"), "another end"
        assert best is None or min(v for v, _ in new.found) == best, "another optimum"
    return late, complete, wanted


class Reader:
    """The printed lines, one after another."""

    def __init__(self, text):
        self.lines, self.place = text.splitlines(), 0

    def next(self):
        self.place += 1
        return self.lines[self.place - 1]

    def tree(self):
        count = sum(map(int, self.next().split()[1:]))
        self.place += count
        return self.lines[self.place - count:self.place]


def serials(line):
    count, text = LISTED.match(line).groups()
    told = [int(s) for s in text.split(", ") if s]
    assert len(told) == int(count), "another count"
    return told


def check(model, calls, reader, ends):
    """Goes through the answers of a chain; fails at the first fault."""
    old, ended = Seen(model, reader.tree()), False
    for call in calls:
        listed = None
        if call.kind == "add":
            told = reader.next()
            assert told == (f"added Some(Ok(FilterId({call.second})))" if call.second is not None else "added Some(Err(NameTaken))"), told
        elif call.kind == "remove":
            assert reader.next().startswith("removed "), "no answer"
        elif call.kind != "gaps":
            end, nodes, found = END.match(reader.next()).groups()
            ends[end] = ends.get(end, 0) + 1
            if end == "Best":
                listed = serials(reader.next())
        told = reader.next()
        new = Seen(model, reader.tree())
        check_tree(model, new, call.filters)
        if call.kind in ("optimize", "populate", "nbest"):
            assert (len(new.nodes), len(new.found)) == (int(nodes), int(found)), "another number of nodes or points"
            ended, _, _ = check_run(model, call, old, new, ended, end, listed)
        cut, held = cut_of(min((v for v, _ in new.found), default=None), call.gaps), {f.number for f in call.filters}
        if told == "Incomplete":
            assert not all(SPLIT.match(kind) or is_licensed(kind, cut, held) for _, kind in new.nodes), "a complete tree without a list"
        else:
            wanted = [p for v, p in model.points if v <= cut and all(f.passes(p) for f in call.filters)]
            assert [new.found[s - 1][1] for s in serials(told)] == wanted, "another list"
        old = new


def main():
    count = int(sys.argv[1]) if len(sys.argv) > 1 else 1000
    seed = int(sys.argv[2]) if len(sys.argv) > 2 else 1
    if not os.access(PROGRAM, os.X_OK):
        sys.exit("populate_bench isn't built: run 'rt run' in crates/populate_bench first")
    rng, ends, faults = random.Random(seed), {}, 0
    chains = [(model := Model(rng), chain(rng, model)) for _ in range(count)]
    lines = []
    for model, calls in chains:
        lines += [*model.lines(), "tree"]
        for call in calls:
            lines += [call.line, "list", "tree"]
    done = subprocess.run([str(PROGRAM)], input="\n".join(lines) + "\n", capture_output=True, text=True, check=False)
    if done.returncode:
        sys.exit(f"status {done.returncode}\n{done.stdout[-2000:]}{done.stderr}")
    reader = Reader(done.stdout)
    for number, (model, calls) in enumerate(chains):
        start = reader.place
        try:
            check(model, calls, reader, ends)
        except AssertionError as fault:
            faults += 1
            print(f"chain {number}: {fault}", *model.lines(), *(call.line for call in calls), "answers:", *reader.lines[start:reader.place], sep="\n")
            break
    print(f"{number + 1} chains, {faults} faults; ends: {ends}")
    sys.exit(faults != 0)


main()
