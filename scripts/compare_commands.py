#!/usr/bin/env python3
"""Compares the commands that the built command_bench reads from lines with those of a slow reference, scripts/command_lines.py.

usage: scripts/compare_commands.py [--lines N] [--seed S]     after 'rt run' in crates/command_bench

The lines are drawn from the seed: commands with each of their words changed now and then. Each that the two read differently
is shown. Status 0 where there is none, else 1. It stands beside the gate, and builds nothing.
"""
import argparse
import collections
import os
import pathlib
import random
import subprocess
import sys

from command_lines import VERBS, said_by

TOP = pathlib.Path(__file__).resolve().parent.parent
PROGRAM = pathlib.Path(os.environ.get("COMMAND_BENCH", TOP / "crates" / "command_bench" / "out" / "command_bench"))

NUMBERS = [b"0", b"1", b"2", b"4", b"5", b"00", b"007", b"20", b"200000", b"200001", b"2100000000", b"2100000001", b"-1", b"+1",
           b"0.5", b"1.50", b".5", b"1.", b"1e3", b"1E+3", b"1e-3", b"1e20", b"-1e20", b"99999999999999999999", b"1e30", b"-1e30",
           b"1e75", b"1e-31", b"inf", b"-inf", b"+INF", b"infinity", b"-0", b"999999999999", b"1000000000000", b"1e12", b"1e-12",
           b"1e-13", b"0.123456789012", b"1e999999", b"1e-999999", b"12345678901234567890123456789012345", b"1..2", b"e5", b"-", b"--1"]
NAMES = [b"x", b"y1", b"z_2", b"e5", b"x:a", b"-x", b"inf2", b"f", b"g", b"a.lp", b"B.MPS", b".lp", b"a.txt", b"x" * 255, b"x" * 256,
         b"\xff\xfe", b"\xc3\xa9.lp", b":", b"<", b"<=", b"+", b"-", b">="]
WORDS = [b"mip", b"pool", b"limits", b"absgap", b"relgap", b"capacity", b"intensity", b"replace", b"populate", b"nodes", b"range",
         b"diversity", b"delete", b"found", b"settings", b"model", b"filters", b"tree", b"optimize", b"set", b"now"]


def pick_case(draw, word):
    sort = draw.randrange(4)
    return word if sort else bytes(draw.choice([c, ord(chr(c).upper())]) if c < 128 else c for c in word)


def term(draw, first):
    words = []
    if not first or draw.random() < 0.4:
        words.append(draw.choice([b"+", b"-"]))
    if draw.random() < 0.5:
        words.append(draw.choice(NUMBERS + [b"2", b"3.5", b".25"] * 20))
    words.append(draw.choice(NAMES[:6]))
    return words


def distance(draw):
    reference = draw.choice([b"0", b"1", b"-3", b"1000000000000000", b"1000000000000001", b"+1", b"", b"x", b"-0"] + [b"5", b"-7"] * 10)
    return draw.choice(NAMES[:6] * 5 + [b""]) + b":" + draw.choice(NUMBERS + [b"1", b"-0.5"] * 60) + b":" + reference


def command(draw):
    """The words of a command, most often a good one."""
    verb = draw.choice(VERBS + (b"filter",) * 6 + (b"set",) * 2)
    if verb == b"read":
        return [verb, draw.choice(NAMES)]
    if verb == b"nbest":
        return [verb, draw.choice(NUMBERS)]
    if verb == b"set":
        if draw.random() < 0.7:
            return [verb, b"mip", b"pool", draw.choice(WORDS[3:8]), draw.choice(NUMBERS)]
        return [verb, b"mip", b"limits", draw.choice(WORDS[8:10]), draw.choice(NUMBERS)]
    if verb == b"display":
        return [verb, draw.choice([b"found", b"pool", b"settings", b"model", b"filters"])]
    if verb == b"write":
        return [verb, b"tree", draw.choice(NAMES)]
    if verb != b"filter":
        return [verb]
    kind = draw.choice([b"range", b"range", b"diversity", b"diversity", b"delete"])
    if kind == b"delete":
        return [verb, kind, draw.choice(NAMES)]
    low, high = draw.choice(NUMBERS + [b"0"] * 80), draw.choice(NUMBERS + [b"9"] * 80)
    if kind == b"range":
        words = [verb, kind, draw.choice(NAMES), low, b"<="]
        for place in range(draw.randrange(1, 5)):
            words += term(draw, place == 0)
        return words + [b"<=", high]
    return [verb, kind, draw.choice(NAMES), low, high] + [distance(draw) for _ in range(draw.randrange(1, 4))]


def random_line(draw):
    """A line of a command, with a few changes."""
    words = command(draw)
    for _ in range(draw.choice([0, 0, 0, 1, 1, 2])):
        place = draw.randrange(len(words) + 1)
        sort = draw.randrange(4)
        if sort == 0:
            words.insert(place, draw.choice(NAMES + NUMBERS + WORDS))
        elif sort == 1 and place < len(words):
            del words[place]
        elif sort == 2 and place < len(words):
            words[place] = draw.choice(NAMES + NUMBERS + WORDS)
        elif place < len(words):
            words[place] = words[place] + draw.choice([b"x", b"0", b".", b":", b"="])
    words = [word if place > 4 else pick_case(draw, word) for place, word in enumerate(words)]
    line = draw.choice([b"", b" ", b"\t"]) + b"".join(word + draw.choice([b" ", b" ", b"  ", b"\t"]) for word in words)
    if draw.random() < 0.01:
        line += b" " * (draw.choice([4095, 4096, 4097]) - len(line))
    return line if draw.random() < 0.5 else line.rstrip()


def main():
    parser = argparse.ArgumentParser(description="Compares command_bench with a slow reference parser.")
    parser.add_argument("--lines", type=int, default=20000, help="how many random lines (20000)")
    parser.add_argument("--seed", type=int, default=1, help="what they are drawn from (1)")
    chosen = parser.parse_args()
    if not os.access(PROGRAM, os.X_OK):
        sys.exit(f"no program {PROGRAM}: build it first, by 'rt run' in crates/command_bench")
    draw = random.Random(chosen.seed)
    lines = [random_line(draw) for _ in range(chosen.lines)]
    done = subprocess.run([str(PROGRAM), "lines"], input=b"".join(line + b"\n" for line in lines), capture_output=True, check=False)
    if done.returncode:
        sys.exit(f"status {done.returncode}, {done.stderr.decode('latin-1').strip()}")
    found = done.stdout.split(b"\n")[:-1]
    wrong, met = abs(len(found) - len(lines)), collections.Counter()
    for line, answer in zip(lines, found):
        wanted = said_by(line)
        met[wanted if wanted in (b"bad argument", b"unknown command", b"long line", b"blank") else wanted.split()[0]] += 1
        if answer != wanted:
            wrong += 1
            print(f"DIFFERS on {line}:\n  wanted {wanted}\n  found  {answer}")
    print(f"{len(lines)} random lines, {wrong} differences")
    print("of these: " + ", ".join(f"{count} {name.decode()}" for name, count in sorted(met.items())))
    sys.exit(1 if wrong else 0)


if __name__ == "__main__":
    main()
