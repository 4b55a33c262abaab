#!/usr/bin/env python3
"""Compares the members that the built command_bench's pool holds with those of a plain list, after each of many random events.

usage: scripts/compare_pool.py [--events N] [--seed S]     after 'rt run' in crates/command_bench

The plain list knows no index: it looks at all members for each event. Each place where the two differ is shown. Status 0 where
there is none, else 1. It stands beside the gate, and builds nothing.
"""
import argparse
import os
import pathlib
import random
import subprocess
import sys

TOP = pathlib.Path(__file__).resolve().parent.parent
PROGRAM = pathlib.Path(os.environ.get("COMMAND_BENCH", TOP / "crates" / "command_bench" / "out" / "command_bench"))


class PlainPool:
    """The definition on a list of pairs (serial, value), at scale 0."""

    def __init__(self):
        self.members, self.best, self.capacity, self.worst, self.gaps = [], None, 2100000000, False, ((-1, 0), (-1, 0))

    def cut(self):
        parts = [10 ** 36]
        (p, s), (q, t) = self.gaps
        if p >= 0:
            parts.append(self.best + p // 10 ** s)
        if q >= 0:
            parts.append(self.best + q * abs(self.best) // 10 ** t)
        return min(parts)

    def drop_one(self):
        if not self.worst:
            self.members.pop(0)
        else:
            value = max(member[1] for member in self.members)
            self.members.pop(max(i for i, member in enumerate(self.members) if member[1] == value))

    def offer(self, serial, value, passes):
        self.best = value if self.best is None else min(self.best, value)
        self.members = [member for member in self.members if member[1] <= self.cut()]
        if not passes or value > self.cut() or self.capacity == 0:
            return
        if len(self.members) >= self.capacity:
            if self.worst and value >= max(member[1] for member in self.members):
                return
            self.drop_one()
        self.members.append((serial, value))

    def tell(self, event):
        word, numbers = event
        if word == "offer":
            self.offer(*numbers)
        elif word == "capacity":
            self.capacity = numbers[0]
            while len(self.members) > self.capacity:
                self.drop_one()
        elif word == "rule":
            self.worst = numbers[0] == 1
        elif word == "gap":
            self.gaps = ((numbers[0], numbers[1]), (numbers[2], numbers[3]))
            if self.best is not None:
                self.members = [member for member in self.members if member[1] <= self.cut()]
        elif word == "retain":
            self.members = [member for member in self.members if member[0] in numbers]
        elif word == "refresh":
            for place in range(0, len(numbers), 3):
                if all(member[0] != numbers[place] for member in self.members):
                    self.offer(*numbers[place:place + 3])


def random_event(draw, serial, values):
    sort = draw.randrange(100)
    if sort < 80:
        return ("offer", [serial if draw.random() < 0.9 else draw.randrange(1, serial + 1), draw.choice(values), draw.choice([1, 1, 1, 0])])
    if sort < 84:
        return ("capacity", [draw.choice([0, 1, 2, 5, 5, 20, 20, 100, 2100000000])])
    if sort < 89:
        return ("rule", [draw.randrange(2)])
    if sort < 92:
        gaps = [(-1, 0), (-1, 0), (0, 0), (1, 0), (5, 0), (25, 1), (5, 1), (15, 1), (40, 0)]
        return ("gap", list(draw.choice(gaps)) + list(draw.choice(gaps)))
    if sort < 95:
        return ("retain", [s for s in range(max(1, serial - 40), serial + 1) if draw.random() < 0.8])
    fresh = [draw.randrange(max(1, serial - 60), serial + 1) for _ in range(draw.randrange(6))]
    return ("refresh", [n for s in fresh for n in (s, draw.choice(values), draw.choice([1, 1, 0]))])


def main():
    parser = argparse.ArgumentParser(description="Compares command_bench's pool with a plain list.")
    parser.add_argument("--events", type=int, default=100000, help="how many random events (100000)")
    parser.add_argument("--seed", type=int, default=1, help="what they are drawn from (1)")
    chosen = parser.parse_args()
    if not os.access(PROGRAM, os.X_OK):
        sys.exit(f"no program {PROGRAM}: build it first, by 'rt run' in crates/command_bench")
    draw = random.Random(chosen.seed)
    wrong, told = 0, 0
    while told < chosen.events:
        count = min(1000, chosen.events - told)
        values = list(range(-draw.choice([3, 10, 60]), draw.choice([4, 12, 200])))
        pool, events, wanted = PlainPool(), [], []
        for serial in range(1, count + 1):
            event = random_event(draw, serial, values)
            events.append(event)
            pool.tell(event)
            wanted.append("".join(f"{member[0]} " for member in pool.members))
        text = "".join(f"{word} {' '.join(map(str, numbers))}\nmembers\n" for word, numbers in events)
        done = subprocess.run([str(PROGRAM), "pool"], input=text.encode(), capture_output=True, check=False)
        if done.returncode:
            sys.exit(f"status {done.returncode}, {done.stderr.decode('latin-1').strip()}")
        found = done.stdout.decode().split("\n")[:-1]
        for place, (want, have) in enumerate(zip(wanted, found)):
            if want != have:
                print(f"DIFFERS after {events[:place + 1][-3:]}:\n  wanted {want}\n  found  {have}")
                wrong += 1
                break
        wrong += len(found) != len(wanted)
        told += count
    print(f"{told} random events, {wrong} runs with a difference")
    sys.exit(1 if wrong else 0)


if __name__ == "__main__":
    main()
