#!/usr/bin/env python3
"""Compares the tree that the built tree_bench grows with a plain tree, after each of many random calls.

usage: scripts/compare_tree.py [--calls N] [--seed S]     after 'rt run' in crates/tree_bench
       scripts/compare_tree.py --tell FILE                what the plain tree answers to the lines of a file

The plain tree keeps each node's box and its parent, looks at all nodes where a call asks for some, and at all lists where one
is kept. Each call is made where it is allowed, and now and then where it isn't: the program then refuses it. At the end the
table of lists is filled by few long ones, and by many without entries. Each place where the two differ is shown. Status 0 where
there is none, else 1. It stands beside the gate, and builds nothing.
"""
import argparse
import os
import pathlib
import random
import subprocess
import sys

TOP = pathlib.Path(__file__).resolve().parent.parent
PROGRAM = pathlib.Path(os.environ.get("TREE_BENCH", TOP / "crates" / "tree_bench" / "out" / "tree_bench"))
MOST_WEIGHT = 8_000_000
OPEN = ("open",)
FAR = 2 ** 127 - 1


def some(text):
    return "None" if text is None else f"Some({text})"


def bound_text(by, least):
    return f"Bound {{ by: {by}, least: {least} }}"


def kind_text(kind):
    word, *numbers = kind
    if word == "split":
        var, at, left, right = numbers
        return f"Split {{ var: VarId({var}), at: {at}, left: NodeId({left}), right: NodeId({right}) }}"
    if word == "bounded":
        return f"Bounded({bound_text(*numbers)})"
    return {"open": "Open", "dead": "Dead(Empty(VarId({})))", "screened": "Screened(FilterId({}))",
            "point": "Point({})"}[word].format(*numbers)


class PlainTree:
    """The definitions, one node after another, each with its own box; and the filters that are held."""

    def __init__(self):
        self.held, self.next = {}, 0
        self.begin(0)

    def begin(self, _count, *ranges):
        pairs = list(zip(ranges[::2], ranges[1::2]))
        self.nodes = [{"parent": None, "mark": None, "kind": OPEN, "box": pairs}]
        # lists as their divisor, how many entries they have, the first row, and the multiplier of all rows
        self.lists, self.places, self.weight = [(1, 0, 0, 0)], {(1, 0, 0, 0): 0}, 1
        return ["Grown(1)"]

    def is_open(self, node):
        return node < len(self.nodes) and self.nodes[node]["kind"] == OPEN

    def split(self, node, var, at, limit):
        if not self.is_open(node):
            return ["Refused"]
        ranges = self.nodes[node]["box"]
        if any(low > high for low, high in ranges) or var >= len(ranges) or not ranges[var][0] <= at < ranges[var][1]:
            return ["Refused"]
        if len(self.nodes) + 2 > limit:
            return ["Limit"]
        left = len(self.nodes)
        for part in ((ranges[var][0], at), (at + 1, ranges[var][1])):
            box = ranges[:var] + [part] + ranges[var + 1:]
            self.nodes.append({"parent": node, "mark": None, "kind": OPEN, "box": box})
        self.nodes[node]["kind"] = ("split", var, at, left, left + 1)
        return [f"Split({left}, {left + 1})"]

    def close(self, word, node, *numbers):
        points = 1
        if not self.is_open(node):
            return ["Refused"]
        for low, high in self.nodes[node]["box"]:
            points *= max(0, high - low + 1)
        if word == "bounded" and numbers[0] >= len(self.lists) or word == "point" and points != 1:
            return ["Refused"]
        self.nodes[node]["kind"] = (word, *numbers)
        return ["Closed"]

    def reopen(self, cut):
        count = 0
        for node in self.nodes:
            kind = node["kind"]
            if kind[0] == "bounded" and kind[2] <= cut:
                node["mark"] = kind[1:]
            elif kind[0] != "screened" or kind[1] in self.held.values():
                continue
            node["kind"] = OPEN
            count += 1
        return [f"Opened({count})"]

    def keep(self, divisor, count, first, multiplier):
        if divisor < 1 or count > 10_000 or (count and multiplier == 0):
            return ["Refused"]
        made = (divisor, count, first, multiplier) if count else (divisor, 0, 0, 0)
        if made not in self.places:
            if self.weight + count + 1 > MOST_WEIGHT:
                return ["Full"]
            self.places[made] = len(self.lists)
            self.lists.append(made)
            self.weight += count + 1
        return [f"At({self.places[made]})"]

    def hold(self, name):
        if name in self.held:
            return ["Refused"]
        self.held[name] = self.next
        self.next += 1
        return [f"Held({self.held[name]})"]

    def drop(self, name):
        number = self.held.pop(name, None)
        return ["Refused" if number is None else f"Dropped({number})"]

    def is_licensed(self, kind, cut):
        return (kind[0] in ("dead", "point") or kind[0] == "bounded" and kind[2] > cut
                or kind[0] == "screened" and kind[1] in self.held.values())

    def show(self, cut):
        leaves = [node["kind"] for node in self.nodes if node["kind"][0] != "split"]
        waiting = [f"NodeId({place})" for place, node in enumerate(self.nodes) if node["kind"] == OPEN]
        complete = str(all(self.is_licensed(kind, cut) for kind in leaves)).lower()
        first = some(waiting[0] if waiting else None)
        lines = [f"complete {complete} size {len(self.nodes)} lists {len(self.lists)} open {first}"]
        for place, node in enumerate(self.nodes):
            parent = some(None if node["parent"] is None else f"NodeId({node['parent']})")
            mark = some(None if node["mark"] is None else bound_text(*node["mark"]))
            licensed = str(self.is_licensed(node["kind"], cut)).lower()
            lines.append(f"{place} {parent} {licensed} {mark} {kind_text(node['kind'])}")
            lines.append(f"  {[low for low, _ in node['box']]} {[high for _, high in node['box']]}")
        return lines

    def told(self, line):
        """The lines that are answered to a line."""
        word, *words = line.split()
        numbers = list(map(int, words))
        if word in ("dead", "bounded", "screened", "point"):
            return self.close(word, *numbers)
        calls = {"box": self.begin, "split": self.split, "reopen": self.reopen, "keep": self.keep, "hold": self.hold,
                 "drop": self.drop, "show": self.show}
        return calls[word](*numbers)


class Walk:
    """Random calls, each as a line, and what the plain tree answers."""

    def __init__(self, rng):
        self.rng, self.tree = rng, PlainTree()
        self.lines, self.answers = [], []

    def tell(self, *words):
        line = " ".join(map(str, words))
        self.lines.append(line)
        self.answers.extend(self.tree.told(line))

    def begin(self):
        rng = self.rng
        ranges = []
        for _ in range(rng.randint(1, 5)):
            low = rng.choice([0, 0, -3, -(10 ** 15), 5])
            ranges += [low, low + rng.choice([0, 1, 1, 3, 7, 20, 2 * 10 ** 15 if rng.random() < 0.1 else 2])]
        if rng.random() < 0.05:
            ranges[:2] = [1, 0]
        self.tell("box", len(ranges) // 2, *ranges)

    def a_node(self):
        waiting = [place for place, node in enumerate(self.tree.nodes) if node["kind"] == OPEN]
        if waiting and self.rng.random() < 0.9:
            return self.rng.choice(waiting)
        return self.rng.randint(0, len(self.tree.nodes) + 1)

    def a_split(self):
        rng, nodes = self.rng, self.tree.nodes
        wide = [place for place, node in enumerate(nodes) if node["kind"] == OPEN and any(a < b for a, b in node["box"])]
        node = rng.choice(wide) if wide and rng.random() < 0.85 else self.a_node()
        ranges = nodes[min(node, len(nodes) - 1)]["box"]
        wide = [var for var, (low, high) in enumerate(ranges) if low < high]
        var = rng.choice(wide) if wide and rng.random() < 0.9 else rng.randint(0, len(ranges))
        low, high = ranges[var] if var < len(ranges) else (0, 0)
        at = rng.choice([low, high - 1, (low + high) // 2, (low + high) // 2, high, low - 1])
        limit = rng.choice([10 ** 6] * 6 + [len(nodes) + 2] * 2 + [len(nodes) + 1, len(nodes), 0, 1])
        self.tell("split", node, var, at, limit)

    def a_close(self):
        rng, node, lists, last = self.rng, self.a_node(), len(self.tree.lists), self.tree.next
        word, *numbers = rng.choice([
            ("dead", rng.randint(0, 3)), ("bounded", rng.randint(0, lists), rng.randint(-5, 5)),
            ("bounded", 0, rng.choice([-FAR, FAR, 0])), ("screened", rng.randint(0, last + 1)),
            ("point", rng.randint(1, 9)), ("point", rng.randint(1, 9))])
        self.tell(word, node, *numbers)

    def finish(self):
        """Closes each open leaf, and shows the tree."""
        rng = self.rng
        for place, node in enumerate(self.tree.nodes):
            if node["kind"] == OPEN:
                word, *numbers = rng.choice([("dead", 0), ("bounded", 0, rng.randint(-5, 5)),
                                             ("screened", rng.choice([*self.tree.held.values(), 0]))])
                self.tell(word, place, *numbers)
        self.tell("show", self.a_cut())

    def a_filter(self):
        rng, held = self.rng, self.tree.held
        if held and rng.random() < 0.5:
            self.tell("drop", rng.choice([*held, 99]))
        else:
            self.tell("hold", rng.randint(0, 7))

    def a_list(self):
        rng = self.rng
        self.tell("keep", rng.choice([1, 1, 2, 3, 0, FAR]), rng.choice([0, 0, 1, 2, 3, 8, 9]), rng.randint(0, 2),
                  rng.choice([1, -1, 2, 0]))

    def a_cut(self):
        return self.rng.choice([-6, -1, 0, 1, 3, FAR, -FAR])

    def go(self, calls):
        for _ in range(calls):
            idle = all(node["kind"] != OPEN for node in self.tree.nodes)
            if not self.lines or self.rng.random() < (0.1 if idle else 0.005):
                self.begin()
            choice = self.rng.random()
            if choice < 0.55:
                self.a_split()
            elif choice < 0.72:
                self.a_close()
            elif choice < 0.82:
                self.tell("reopen", self.a_cut())
            elif choice < 0.9:
                self.a_filter()
            elif choice < 0.965:
                self.a_list()
            elif choice < 0.97:
                self.finish()
            else:
                self.tell("show", self.a_cut())

    def fill(self):
        """Many lists without entries and then long ones, until the table is full to the last place."""
        self.tell("box", 1, 0, 1)
        for divisor in range(1, 20_001):
            self.tell("keep", divisor, 0, 0, 1)
        for first in range(801):
            self.tell("keep", 1, 9999, first, 1)
        left = MOST_WEIGHT - self.tree.weight
        for numbers in ((1, left, 0, 2), (1, left - 1, 0, 2), (30_000, 0, 0, 1), (1, 9999, 5, 1), (1, left - 1, 0, 2),
                        (1, 0, 0, 1)):
            if 0 <= numbers[1]:
                self.tell("keep", *numbers)
        self.tell("show", 0)


def main():
    words = argparse.ArgumentParser()
    words.add_argument("--calls", type=int, default=20_000)
    words.add_argument("--seed", type=int, default=1)
    words.add_argument("--no-fill", action="store_true", help="don't fill a table")
    words.add_argument("--tell", type=pathlib.Path, help="print what the plain tree answers to the lines of this file instead")
    given = words.parse_args()
    if given.tell:
        tree = PlainTree()
        for line in given.tell.read_text().splitlines():
            print("".join(f"{answer}\n" for answer in tree.told(line)), end="")
        return
    walk = Walk(random.Random(given.seed))
    walk.go(given.calls)
    if not given.no_fill:
        walk.fill()
    if not os.access(PROGRAM, os.X_OK):
        sys.exit(f"no program {PROGRAM}: build it first, by 'rt run' in crates/tree_bench")
    run = subprocess.run([str(PROGRAM)], input="\n".join(walk.lines) + "\n", capture_output=True, text=True, check=False)
    got = run.stdout.split("\n")[:-1]
    if run.returncode:
        print(f"the program ended with status {run.returncode}: {run.stderr}")
    wrong = [(place, want, have) for place, (want, have) in enumerate(zip(walk.answers, got)) if want != have]
    for place, want, have in wrong[:10]:
        print(f"line {place + 1}: wanted {want}\n  but got {have}")
    if len(got) != len(walk.answers):
        print(f"wanted {len(walk.answers)} lines, got {len(got)}")
    print(f"{len(walk.lines)} calls, {len(walk.answers)} lines, {len(wrong)} differ")
    sys.exit(1 if run.returncode or wrong or len(got) != len(walk.answers) else 0)


main()
