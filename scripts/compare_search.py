#!/usr/bin/env python3
"""Checks the trees of searches by means that share nothing with the search: random small models, open leaves taken in
a random order, and for each run whether what the tree says is so.

usage: scripts/compare_search.py [MODELS [SEED]]      after search_bench was built, by 'rt run' in crates/search_bench

Each model is searched in the usual order, in a random one with a cursor, in a random one with each box from the tree,
and in the usual order once more with its tree told, which must end as the first run did. The runs in the usual order
ask the finder, and those in a random one don't. Checked of each run: the optimum, by a walk over all points, and that a
run which stopped had no room. Checked of each tree: that the splits are lawful, so that the leaves' boxes divide the
model's; that no split box has a reason; each leaf's claim (the first reason of its box, the exact number of its list,
which is no better than the best value, its point); that no node has a mark; that the table is that of the stated lists,
with lists behind them only where the finder was asked, each of them well formed and none twice; that the found points
are feasible, have their values, fall, and have one leaf each; and that where a run stopped an open leaf is left that
neither a reason nor a stated list closes. Status 0 where there is no fault, else 1. It stands beside the gate, and
builds nothing. SEARCH_BENCH names another program to run.
"""
import itertools
import os
import pathlib
import random
import re
import subprocess
import sys

TOP = pathlib.Path(__file__).resolve().parent.parent
PROGRAM = pathlib.Path(os.environ.get("SEARCH_BENCH", TOP / "crates" / "search_bench" / "out" / "search_bench"))
MOST_STATED = 64
MOST_ENTRIES = 10_000
MOST_POINTS = 3000
TOLD_USUAL = 3
BITS = 127
SPLIT = re.compile(r"Split \{ var: VarId\((\d+)\), at: (-?\d+), left: NodeId\((\d+)\), right: NodeId\((\d+)\) \}$")
BOUNDED = re.compile(r"Bounded\(Bound \{ by: (\d+), least: (-?\d+) \}\)$")
POINT = re.compile(r"Point\((\d+)\)$")
DEAD = re.compile(r"Dead\((.*)\)$")
NODE = re.compile(r"Node \{ mark: (.*?), kind: (.*) \}$")
FOUND = re.compile(r"Found \{ point: Point \{ values: \[(.*)\] \}, value: (-?\d+) \}$")
LIST = re.compile(r"List (\d+) \[(.*)\]$")
ENTRY = re.compile(r"\(RowId\((\d+)\), (-?\d+)\)")
END = re.compile(r"(\w+) best (None|Some\((-?\d+)\)) nodes (\d+)$")


class Model:
    """A minimised model: ranges, cores, cost, constant, rows (least side, greatest side, terms by variable), indicators
    and sets."""

    def __init__(self, rng):
        self.rng = rng
        self.ranges, self.cores = [], []
        while not self.ranges or self.count() > MOST_POINTS:
            self.set_ranges()
        self.reach = rng.choice([1, 3, 9, 9, 10 ** 9, 9 * 10 ** 18])
        number = range(len(self.ranges))
        self.cost = {j: c for j in number if (c := rng.choice([0, rng.randint(-self.reach, self.reach)]))}
        self.constant = rng.choice([0, rng.randint(-20, 20)])
        self.rows = [self.row() for _ in range(rng.randint(0, 4))]
        switches = [j for j, (low, high) in enumerate(self.ranges) if 0 <= low and high <= 1]
        gates, sets = rng.choice([0, 0, 2]), rng.choice([0, 0, 2])
        self.gates = [(rng.choice(switches), rng.randint(0, 1), self.row()) for _ in range(gates if switches else 0)]
        self.sets = [(rng.randint(1, 2), rng.sample(number, rng.randint(0, len(number)))) for _ in range(sets)]
        kind = rng.random()
        if kind < 0.3:
            self.make_packing()
        elif kind < 0.45:
            self.make_groups()
        without_core = [j for j in range(len(self.ranges)) if j not in {core[0] for core in self.cores}]
        if without_core and rng.random() < 0.02:
            self.ranges[rng.choice(without_core)] = (1, 0)

    def make_packing(self):
        """Binaries with gains, and rows of weights that half of them fit in."""
        rng, number = self.rng, range(self.rng.randint(5, 11))
        self.ranges, self.cores, self.gates, self.sets = [(0, 1) for _ in number], [], [], []
        self.cost = {j: -rng.randint(1, 30) for j in number}
        self.rows = []
        for _ in range(rng.randint(1, 3)):
            terms = {j: rng.randint(1, 30) for j in number if rng.random() < 0.8}
            self.rows.append((None, sum(terms.values()) // rng.randint(2, 3), terms))

    def make_groups(self):
        """Binaries of equal gains, and for each group of them a row that takes a few: only all rows at once tell what
        all of them gain."""
        rng = self.rng
        groups = [rng.randint(2, 5) for _ in range(rng.randint(2, 3))]
        number = range(min(11, sum(groups)))
        self.ranges, self.cores, self.gates, self.sets = [(0, 1) for _ in number], [], [], []
        gain, weight, begin = rng.randint(1, 3), rng.randint(2, 5), 0
        self.cost, self.rows = {j: -gain for j in number}, []
        for size in groups:
            terms = {j: weight for j in number[begin:begin + size]}
            self.rows.append((None, weight * size // 2 + rng.randint(0, 1), terms))
            begin += size

    def count(self):
        """How many points the ranges have."""
        size = 1
        for low, high in self.ranges:
            size *= high - low + 1
        return size

    def set_ranges(self):
        rng, self.ranges, self.cores = self.rng, [], []
        for var in range(rng.randint(1, 7)):
            kind = rng.random()
            if kind < 0.5:
                self.ranges.append(rng.choice([(0, 1), (0, 1), (0, 1), (1, 1)]))
            elif kind < 0.9:
                low = rng.randint(-4, 2)
                self.ranges.append((low, low + rng.randint(0, 5)))
            else:
                low, high = sorted((rng.randint(-5, 5), rng.randint(-5, 5)))
                self.ranges.append((min(0, low), max(0, high)))
                self.cores.append((var, low, high))

    def row(self):
        rng, reach = self.rng, self.reach
        terms = {j: a for j in range(len(self.ranges)) if (a := rng.choice([0, rng.randint(-reach, reach)]))}
        middle = sum(a * rng.randint(*self.ranges[j]) for j, a in terms.items())
        middle = max(-2 ** 62, min(2 ** 62, middle))
        low, high = middle - rng.randint(0, min(reach, 2 ** 61)), middle + rng.randint(0, min(reach, 2 ** 61))
        return *rng.choice([(None, high), (low, None), (low, high), (middle, middle), (None, None)]), terms

    def lines(self):
        """The model as the program reads it."""
        def number(terms):
            return " ".join(map(str, [len(terms), *(n for term in sorted(terms.items()) for n in term)]))

        def both(row):
            sides = " ".join(f"{int(side is not None)} {side or 0}" for side in row[:2])
            return f"{sides} {number(row[2])}"
        return "\n".join([*(f"var {low} {high}" for low, high in self.ranges),
                          f"constant {self.constant}", f"cost {number(self.cost)}",
                          *(f"row {both(row)}" for row in self.rows),
                          *(f"gate {var} {on} {both(row)}" for var, on, row in self.gates),
                          *(f"set {kind} {len(members)} {' '.join(map(str, members))}" for kind, members in self.sets),
                          *("core %d %d %d" % core for core in self.cores), ""])

    def value(self, point):
        return self.constant + sum(c * point[j] for j, c in self.cost.items())

    def is_feasible(self, point):
        def holds(row):
            total = sum(a * point[j] for j, a in row[2].items())
            return (row[0] is None or row[0] <= total) and (row[1] is None or total <= row[1])
        for kind, members in self.sets:
            away = [place for place, j in enumerate(members) if point[j] != 0]
            if away and away[-1] - away[0] >= kind:
                return False
        return (all(low <= v <= high for v, (low, high) in zip(point, self.ranges)) and all(map(holds, self.rows))
                and all(holds(row) for var, on, row in self.gates if point[var] == on)
                and all(point[var] == 0 or low <= point[var] <= high for var, low, high in self.cores))

    def optimum(self):
        """The least objective of a feasible point, by a walk over all points, or None."""
        points = itertools.product(*(range(low, high + 1) for low, high in self.ranges))
        return min((self.value(p) for p in points if self.is_feasible(p)), default=None)

    def stated(self):
        """The stated lists, as (divisor, ((row, multiplier), ..))."""
        lists = [(1, ())]
        for i, (_, _, terms) in enumerate(self.rows):
            for j in sorted(terms):
                if j in self.cost:
                    new = (abs(terms[j]), ((i, self.cost[j] if terms[j] > 0 else -self.cost[j]),))
                    if new not in lists:
                        lists.append(new)
        return lists[:MOST_STATED + 1]


def extremes(terms, box):
    """The least and the greatest value of a sum over a box."""
    ends = [sorted((a * box[j][0], a * box[j][1])) for j, a in terms.items()]
    return sum(e[0] for e in ends), sum(e[1] for e in ends)


def bound(model, box, divisor, entries):
    """The bound of a list over a box; None where one of the numbers on the way isn't a signed one of 128 bits."""
    named, addends = [], []
    for i, y in entries:
        low, high, terms = model.rows[i]
        least, most = extremes(terms, box)
        addends.append(y * ((least if low is None else low) if y > 0 else (most if high is None else high)))
    for j, (low, high) in enumerate(box):
        left = divisor * model.cost.get(j, 0)
        named.append(left)
        for i, y in entries:
            share = y * model.rows[i][2].get(j, 0)
            left -= share
            named += [share, left]
        addends.append(min(left * low, left * high))
    total = sum(addends)
    number = -(-total // divisor) + model.constant
    named += [*addends, *itertools.accumulate(addends), number]
    return number if not entries or all(-2 ** BITS <= n < 2 ** BITS for n in named) else None


def row_reasons(row, box, low_word, high_word, name):
    least, most = extremes(row[2], box)
    return ([f"{low_word}({name})"] if row[0] is not None and most < row[0] else []) + \
        ([f"{high_word}({name})"] if row[1] is not None and row[1] < least else [])


def reasons(model, box):
    """All reasons of a box, in their order, as the program prints them; of an empty box the first alone."""
    crossed = [f"Empty(VarId({j}))" for j, (low, high) in enumerate(box) if low > high]
    if crossed:
        return crossed[:1]
    found = []
    for i, row in enumerate(model.rows):
        found += row_reasons(row, box, "RowLow", "RowHigh", f"RowId({i})")
    for k, (var, on, row) in enumerate(model.gates):
        if box[var] == (on, on):
            found += row_reasons(row, box, "IndicatorLow", "IndicatorHigh", k)
    for k, (kind, members) in enumerate(model.sets):
        away = [place for place, j in enumerate(members) if not box[j][0] <= 0 <= box[j][1]]
        found += [f"Sos({k}, {p}, {q})" for p in away for q in away if q - p >= kind]
    for var, low, high in model.cores:
        least, most = box[var]
        if not least <= 0 <= most and (most < low or high < least):
            found.append(f"Semi(VarId({var}))")
    return found


def numbers(text):
    return [int(word) for word in text.split(", ") if word]


class Seen:
    """What a run printed: its end, the best value, how many nodes; behind a random one marks, kinds, found points and
    lists."""

    def __init__(self, text):
        lines = text.splitlines()
        ended = END.match(lines[0]) if lines else None
        assert ended, "no end"
        self.end, self.size = ended.group(1), int(ended.group(4))
        self.best = None if ended.group(3) is None else int(ended.group(3))
        nodes, found, lists = ([m.groups() for m in map(form.match, lines[1:]) if m] for form in (NODE, FOUND, LIST))
        self.marks, self.kinds = [mark for mark, _ in nodes], [kind for _, kind in nodes]
        self.found = [(numbers(point), int(value)) for point, value in found]
        self.lists = [(int(divisor), tuple((int(i), int(y)) for i, y in ENTRY.findall(entries)))
                      for divisor, entries in lists]
        assert 1 + len(nodes) + len(found) + len(lists) == len(lines), "a line that is none of these"


def check_leaf(model, box, kind, seen):
    """What a closed leaf says of its box; answers the serial of its point, if it has one."""
    if DEAD.match(kind):
        assert reasons(model, box)[:1] == [DEAD.match(kind).group(1)], "another reason"
    elif BOUNDED.match(kind):
        by, least = map(int, BOUNDED.match(kind).groups())
        assert least == bound(model, box, *seen.lists[by]), "another bound"
        assert seen.best is not None and least >= seen.best, "a bound that closes nothing"
    else:
        serial = int(POINT.match(kind).group(1))
        assert [(v, v) for v in seen.found[serial - 1][0]] == box, "a point beside its box"
        return serial
    return None


def is_stuck(model, box, seen):
    """Whether nothing closes the box, and it has two points or more."""
    numbers = [bound(model, box, *one) for one in model.stated()]
    return (not reasons(model, box) and any(low < high for low, high in box)
            and not any(n is not None and seen.best is not None and n >= seen.best for n in numbers))


def check_table(model, lists, may_grow):
    """The stated lists stand first, in their order; those behind them, if there may be any, are well formed."""
    stated = model.stated()
    assert lists[:len(stated)] == stated, "other lists than the stated ones"
    assert may_grow or len(lists) == len(stated), "a list that nobody asked for"
    assert len(set(lists)) == len(lists), "a list that stands twice in the table"
    for divisor, entries in lists[len(stated):]:
        rows = [i for i, _ in entries]
        assert divisor >= 1 and len(entries) <= MOST_ENTRIES, "a divisor of 0, or too many entries"
        assert all(before < behind for before, behind in zip(rows, rows[1:])), "rows that don't rise"
        assert all(i < len(model.rows) and y != 0 for i, y in entries), "a row that isn't there, or an entry of 0"


def check_tree(model, seen, may_grow):
    """Goes through the tree, whose table may have more lists than the stated ones or not; answers the boxes of the open
    leaves."""
    assert len(seen.kinds) == seen.size and set(seen.marks) == {"None"}, "another number of nodes, or a mark"
    check_table(model, seen.lists, may_grow)
    for (point, value), earlier in zip(seen.found, [None, *seen.found]):
        assert model.is_feasible(point) and model.value(point) == value, "a point that isn't feasible, or another value"
        assert earlier is None or value < earlier[1], "a found value that doesn't fall"
    serials, still_open, places = [], [], []
    boxes = [(0, list(model.ranges))]
    while boxes:
        place, box = boxes.pop()
        kind = seen.kinds[place]
        places.append(place)
        if SPLIT.match(kind):
            var, at, left, right = map(int, SPLIT.match(kind).groups())
            assert box[var][0] <= at < box[var][1], "a split outside of its box"
            assert not reasons(model, box), "a split box with a reason"
            boxes += [(left, [*box[:var], (box[var][0], at), *box[var + 1:]]),
                      (right, [*box[:var], (at + 1, box[var][1]), *box[var + 1:]])]
        elif kind == "Open":
            still_open.append(box)
        else:
            serial = check_leaf(model, box, kind, seen)
            serials += [] if serial is None else [serial]
    assert sorted(places) == list(range(seen.size)), "nodes that no split makes, or two do"
    assert sorted(serials) == list(range(1, len(seen.found) + 1)), "found points without their leaves"
    assert seen.best == min((value for _, value in seen.found), default=None), "another best value"
    return still_open


def check(model, optimum, order, limit, text):
    """Whether what a run printed is so; fails where it isn't. Answers what it printed."""
    seen = Seen(text)
    assert seen.size <= max(limit, 1) and seen.size % 2, "more nodes than the limit"
    still_open = check_tree(model, seen, order == TOLD_USUAL) if order else None
    if seen.end == "NodeLimit":
        assert seen.size + 2 > limit, "a stop with room"
        assert still_open is None or any(is_stuck(model, box, seen) for box in still_open), "a stop without a cause"
    else:
        assert not still_open, "an end with an open leaf"
        assert seen.best == optimum, "another optimum"
        assert seen.end == ("Infeasible" if optimum is None else "Optimal"), "another end"
    return seen


def word_of(kind, stated):
    """What a node is, in a word: of a dead one its reason, of a bounded one whether its list is the one without
    entries, another one of so many stated lists, or a list behind them."""
    if DEAD.match(kind):
        return DEAD.match(kind).group(1).split("(")[0]
    if BOUNDED.match(kind):
        by = int(BOUNDED.match(kind).group(1))
        return "Bounded" if by == 0 else "Bounded by a row" if by < stated else "Bounded by the finder"
    return re.split("[ (]", kind)[0]


def run(text):
    """What the program prints of a task and a model."""
    done = subprocess.run([str(PROGRAM)], input=text, capture_output=True, text=True, check=False)
    assert done.returncode == 0, f"status {done.returncode}: {done.stderr}"
    return done.stdout


def tasks(rng):
    """An order, a limit and a seed for each run of a model; the limits of both runs in the usual order are the same."""
    limits = [rng.choice([1, 5, 20, 100000, 100000]) for _ in range(TOLD_USUAL)]
    return [(order, limit, rng.randrange(1 << 32)) for order, limit in enumerate([*limits, limits[0]])]


def main():
    count = int(sys.argv[1]) if len(sys.argv) > 1 else 2000
    seed = int(sys.argv[2]) if len(sys.argv) > 2 else 1
    if not os.access(PROGRAM, os.X_OK):
        sys.exit("search_bench isn't built: run 'rt run' in crates/search_bench first")
    rng, ends, leaves, faults = random.Random(seed), {}, {}, 0
    for number in range(count):
        model = Model(rng)
        optimum, stated, first_lines = model.optimum(), len(model.stated()), {}
        for order, limit, start in tasks(rng):
            text, printed = f"{order} {limit} {start}\n{model.lines()}", ""
            try:
                printed = run(text)
                seen = check(model, optimum, order, limit, printed)
                first_lines[order] = printed.splitlines()[0]
                assert order != TOLD_USUAL or first_lines[order] == first_lines[0], "another end than untold"
                ends[seen.end] = ends.get(seen.end, 0) + 1
                for kind in seen.kinds:
                    word = word_of(kind, stated)
                    leaves[word] = leaves.get(word, 0) + 1
            except (AssertionError, AttributeError, IndexError, KeyError) as fault:
                faults += 1
                print(f"model {number}: {fault!r}\n{text}{printed}")
    print("ends: " + ", ".join(f"{word} {n}" for word, n in sorted(ends.items())))
    print("nodes: " + ", ".join(f"{word} {n}" for word, n in sorted(leaves.items())))
    print(f"{count} models, {sum(ends.values()) + faults} runs, {faults} faults")
    sys.exit(faults != 0)


if __name__ == "__main__":
    main()
