#!/usr/bin/env python3
"""Compares the drafts that the built reader_bench makes of MPS files with those of the slow scripts/mps_files.py.

usage: scripts/compare_mps.py [--files N] [--seed S]     after 'rt run' in crates/reader_bench

First come cases that were worked out by hand, which both must answer, and each front of one of them. Then come N random
files, drawn from the seed: about a third as a tool might write them, the others with lines, fields or bytes changed.
Each that the two read differently is shown. Status 0 where there is none, else 1. It stands beside the gate, and builds
nothing.
"""
import argparse
import collections
import os
import pathlib
import random
import subprocess
import sys

from mps_files import read_mps

TOP = pathlib.Path(__file__).resolve().parent.parent
PROGRAM = pathlib.Path(os.environ.get("READER_BENCH", TOP / "crates" / "reader_bench" / "out" / "reader_bench"))

DEMO = b"""NAME          DEMO
ROWS
 N  COST
 E  R1
COLUMNS
    M1        'MARKER'                 'INTORG'
    X         COST         1   R1           1
    Y         COST         1   R1          -1
    M2        'MARKER'                 'INTEND'
RHS
    RHS       COST         5   R1           0
RANGES
    RNG       R1          -1
ENDATA
"""
DEMO_DRAFT = ["minimize", "var X integer 0/0 1/0", "var Y integer 0/0 1/0", "cost 0 1/0", "cost 1 1/0", "constant -5/0",
              "row ranged E 0/0 -1/0 0 1/0 1 -1/0"]
SMALL = b"ROWS\n N C\n L R\n G S\n E T\n N F\nCOLUMNS\n X R 1\n Y S 2 C 3\n"
SMALL_ROWS = ["cost 1 3/0", "row le 0/0 0 1/0", "row ge 0/0 1 2/0", "row eq 0/0"]


def swapped(old, new):
    """The worked file with a text changed that stands once in it."""
    assert DEMO.count(old) == 1
    return DEMO.replace(old, new)


def small(section, *wanted):
    """A case: the small file with a section more, and what is wanted of X, of Y and of the rest."""
    parts = dict(zip(("x", "y", "rest"), wanted))
    rest = parts.get("rest", SMALL_ROWS)
    return SMALL + section + b"ENDATA\n", ["minimize", f"var X {parts['x']}", f"var Y {parts['y']}", *rest]


OPEN = "continuous - -"
CASES = [
    (DEMO, DEMO_DRAFT), (DEMO.replace(b"\n", b"\r\n"), DEMO_DRAFT), (DEMO.rstrip(b"\n"), DEMO_DRAFT),
    (DEMO + b" X\nROWS\n" + b"\xff\0", DEMO_DRAFT), (b"* c\n\n \t \n" + DEMO.replace(b"\n", b"\n*\n\r\n"), DEMO_DRAFT),
    (b"", "refused syntax line 1"), (b"\n\n\n", "refused syntax line 3"),
    (swapped(b"ENDATA\n", b""), "refused syntax line 13"),
    (swapped(b"COST         1   R1           1", b"COST 1e-31 R1 1"), "refused wide numeral line 7"),
    (swapped(b" E  R1\n", b" E  R1\n E  R1\n"), "refused duplicate name line 5"),
    (swapped(b"RANGES\n", b" RHS2 R1 1\nRANGES\n"), "refused unsupported line 12"),
    (swapped(b"ENDATA\n", b"SOS\nENDATA\n"), "refused unsupported line 14"),
    (b"NAME A\n ROWS\n", "refused syntax line 2"),
    (b"NAME A\nROWS\n N COST\nCOLUMNS\n X R1 1\n", "refused unknown name line 5"),
    (swapped(b"ROWS", b"OBJSENSE\n MAX\nROWS"), ["maximize", *DEMO_DRAFT[1:]]),
    (swapped(b"ROWS", b"OBJSENSE MAXIMIZE\nROWS"), ["maximize", *DEMO_DRAFT[1:]]),
    (swapped(b"ROWS", b"objsense\n minimize\nROWS"), DEMO_DRAFT), (swapped(b"ROWS", b"OBJSENSE\nROWS"), DEMO_DRAFT),
    (swapped(b"ROWS", b"OBJSENSE MAX\n MAX\nROWS"), "refused syntax line 3"),
    (swapped(b"ROWS", b"OBJSENSE\n MAX\n MAX\nROWS"), "refused syntax line 4"),
    (b"OBJSENSE\nNAME A\n MAX\n", "refused syntax line 3"), (b"OBJSENSE MAX X\n", "refused syntax line 1"),
    (swapped(b"          -1\nENDATA", b"           1\nENDATA"),
     [*DEMO_DRAFT[:-1], "row ranged E 0/0 1/0 0 1/0 1 -1/0"]),
    (swapped(b"M2        'MARKER'                 'INTEND'", b"M2 'Marker' 'IntEnd'"), DEMO_DRAFT),
    (swapped(b"M2        'MARKER'                 'INTEND'", b"M2 'MARKER' 'INTORG'"), "refused syntax line 9"),
    (swapped(b"M1        'MARKER'                 'INTORG'", b"M1 'MARKER' 'INTEND'"), "refused syntax line 6"),
    (swapped(b"M1        'MARKER'                 'INTORG'", b"M1 'MARKER' 'INT'"), "refused syntax line 6"),
    small(b"", OPEN, OPEN),
    small(b"RHS\n R 1\n R 2 S 1e30\n C 7\n C 8 F -inf\nRANGES\n R 4 F 1\n R 0 T -2\n", OPEN, OPEN,
          ["cost 1 3/0", "constant -8/0", "row ranged L 2/0 0/0 0 1/0", "row ge +huge 1 2/0", "row ranged E 0/0 -2/0"]),
    small(b"RHS\n B R 1\n C S 2\n", OPEN, OPEN)[:1] + ("refused unsupported line 12",),
    small(b"RHS\n R 1\n C S 2\n", OPEN, OPEN)[:1] + ("refused unsupported line 12",),
    small(b"RHS\n C 1e30\n", OPEN, OPEN)[:1] + ("refused wide numeral line 11",),
    small(b"RANGES\n R 1e30\n", OPEN, OPEN)[:1] + ("refused wide numeral line 11",),
    small(b"INDICATORS\n IF S X 1\n IF R Y 0.0\n", OPEN, OPEN,
          ["cost 1 3/0", "row eq 0/0", "indicator 0 1 ge 0/0 1 2/0", "indicator 1 0 le 0/0 0 1/0"]),
    small(b"INDICATORS\n IF F X 1\n", OPEN, OPEN)[:1] + ("refused syntax line 11",),
    small(b"INDICATORS\n IF R X 1\n IF R Y 1\n", OPEN, OPEN)[:1] + ("refused duplicate name line 12",),
    small(b"INDICATORS\n IF R X 1e30\n", OPEN, OPEN)[:1] + ("refused syntax line 11",),
    small(b"INDICATORS\n IF R X 1e-31\n", OPEN, OPEN)[:1] + ("refused wide numeral line 11",),
] + [small(b"BOUNDS\n " + bound + b"\n", wanted, OPEN) for bound, wanted in [
    (b"UP X 3", "continuous - 3/0"), (b"UP B X 3", "continuous - 3/0"), (b"LO X -1e75", "continuous -huge -"),
    (b"LO B X .5", "continuous 5/1 -"), (b"FX X 2", "continuous 2/0 2/0"), (b"FX B X 2", "continuous 2/0 2/0"),
    (b"LI X 2", "integer 2/0 -"), (b"LI B X 2", "integer 2/0 -"), (b"UI X 2", "integer - 2/0"),
    (b"UI B X 2", "integer - 2/0"), (b"SC X 2", "continuous - 2/0 semi"), (b"SC B X 2", "continuous - 2/0 semi"),
    (b"FR X", "continuous -huge +huge"), (b"FR B X", "continuous -huge +huge"),
    (b"FR B X Y", "continuous -huge +huge"), (b"MI X", "continuous -huge -"), (b"MI B X", "continuous -huge -"),
    (b"MI B X 7", "continuous -huge -"), (b"PL X", "continuous - +huge"), (b"PL B X", "continuous - +huge"),
    (b"PL B X 1e-99", "continuous - +huge"), (b"BV X", "integer 0/0 1/0"), (b"BV B X", "integer 0/0 1/0"),
    (b"bv B X 1", "integer 0/0 1/0"), (b"UP X 3\n LO X 1\n UP X 2", "continuous 1/0 2/0"),
    (b"BV X\n PL X", "integer 0/0 +huge"), (b"FR X\n FX X 1", "continuous 1/0 1/0")]]

NAMES = [b"x", b"y", b"X", b"z.1", b"$a", b"a*b", b"R1", b"c", b"'MARKER'", b"-1", b"1", b"a\r", b"\xff", b"N" * 255]
SETS = [b"", b"", b"B", b"RHS"]
VALUES = [b"0", b"1", b"-1", b"2", b"+3", b"-4", b"5", b"1e1", b".5", b"-2.50", b"7.", b"1E2", b"-1e29", b"123456789"]
ODD = [b"1e30", b"-1e75", b"inf", b"-Infinity", b"1e-31", b"9" * 30 + b".9", b"1e", b".", b"-", b"x", b"--1", b"0x1",
       b"1e+", b"N" * 256]
HEADS = [b"NAME", b"OBJSENSE", b"ROWS", b"COLUMNS", b"RHS", b"RANGES", b"BOUNDS", b"INDICATORS", b"ENDATA", b"SOS",
         b"OBJNAME"]


def any_case(draw, word):
    """The word, now and then in other letters."""
    return draw.choice([word, word, word, word.lower(), word.title()])


def data_line(draw, words):
    """A data line with these words."""
    blanks = [b" ", b" ", b"  ", b"\t", b"    "]
    text = b"".join(word + draw.choice(blanks) for word in words[:-1]) + words[-1]
    return draw.choice(blanks) + text + draw.choice([b"", b"", b" "])


def pairs(draw, rows, odd):
    """One or two rows, each with a value."""
    values = VALUES + odd
    return [word for _ in range(draw.choice([1, 1, 2])) for word in (draw.choice(rows), draw.choice(values))]


def section(draw, head, lines):
    """A section with these lines, if it has any or sometimes without."""
    return [any_case(draw, head), *lines] if lines or draw.random() < 0.3 else []


def named(name):
    """The name of a set as a word, if it has one."""
    return [name] if name else []


def columns_of(draw, rows, columns):
    """The lines of COLUMNS."""
    lines, opened = [], False
    for column in columns:
        if draw.random() < 0.4:
            opened = not opened
            mark = b"'INTORG'" if opened else b"'INTEND'"
            lines.append(data_line(draw, [b"M", any_case(draw, b"'MARKER'"), any_case(draw, mark)]))
        for _ in range(draw.choice([1, 1, 2, 3])):
            lines.append(data_line(draw, [column, *pairs(draw, rows, [])]))
    return lines


def bound_of(draw, name, columns):
    """A line of BOUNDS."""
    kind = draw.choice([b"UP", b"LO", b"FX", b"FR", b"MI", b"PL", b"BV", b"LI", b"UI", b"SC"])
    words = [any_case(draw, kind), *named(name), draw.choice(columns)]
    if kind in (b"UP", b"LO", b"FX", b"LI", b"UI", b"SC"):
        words.append(draw.choice(VALUES + [b"1e30", b"-inf"]))
    elif name and draw.random() < 0.3:
        words.append(draw.choice(VALUES + ODD))
    return data_line(draw, words)


def written(draw):
    """The lines of a file as a tool might write it."""
    names = draw.sample(NAMES, draw.randrange(2, 9))
    cut = draw.randrange(1, len(names))
    rows, columns = names[:cut], draw.choice([names[cut:], names[cut:], names])
    kinds = {row: draw.choice([b"N", b"L", b"G", b"E", b"L", b"E"]) for row in rows}
    lines = draw.choice([[], [b"NAME"], [b"NAME a b c"], [b"name \xff"]])
    senses = [[], [], [b"OBJSENSE", b" MAX"], [b"OBJSENSE min"], [b"objsense", b"\tMaximize"], [b"OBJSENSE"]]
    lines += draw.choice(senses)
    lines += [b"ROWS", *(data_line(draw, [any_case(draw, kinds[row]), row]) for row in rows)]
    lines += [b"COLUMNS", *columns_of(draw, rows, columns)]
    behind = []
    for head in (b"RHS", b"RANGES"):
        name = draw.choice(SETS)
        lead = named(name)
        odd = [b"1e30", b"-inf"] if head == b"RHS" and draw.random() < 0.2 else []
        body = [data_line(draw, lead + pairs(draw, rows, odd)) for _ in range(draw.randrange(4))]
        behind.append(section(draw, head, body))
    name = draw.choice(SETS)
    behind.append(section(draw, b"BOUNDS", [bound_of(draw, name, columns) for _ in range(draw.randrange(5))]))
    held = draw.sample([row for row in rows if kinds[row] != b"N"] or rows, 1) if draw.random() < 0.4 else []
    values = [b"0", b"1", b"1.0"]
    lines_if = [data_line(draw, [b"IF", row, draw.choice(columns), draw.choice(values)]) for row in held]
    behind.append(section(draw, b"INDICATORS", lines_if))
    draw.shuffle(behind)
    return lines + [line for part in behind for line in part] + [b"ENDATA"]


def with_fields(draw, line):
    """The line with a field left out, doubled, changed, or moved."""
    words = line.split()
    if not words:
        return b" " + draw.choice(VALUES)
    place = draw.randrange(len(words))
    sort = draw.randrange(6)
    if sort == 0:
        del words[place]
    elif sort == 1:
        words.insert(place, words[place])
    elif sort == 2:
        words[place] = draw.choice(draw.choice([NAMES, VALUES, ODD, HEADS, [b"UP", b"FR", b"N", b"E", b"IF", b"MAX"]]))
    elif sort == 3:
        words[-1] = draw.choice(ODD)
    elif sort == 4:
        draw.shuffle(words)
    else:
        words.insert(place, draw.choice(NAMES + VALUES + ODD))
    return (line[:1] if line[:1] in (b" ", b"\t") else b"") + b" ".join(words)


def changed(draw, lines):
    """The lines with one change."""
    place = draw.randrange(len(lines))
    sort = draw.randrange(10)
    if sort == 0:
        return lines[:place] + lines[place + 1:]
    if sort == 1:
        return lines[:place] + [lines[place]] + lines[place:]
    if sort == 2:
        other = draw.randrange(len(lines))
        lines = list(lines)
        lines[place], lines[other] = lines[other], lines[place]
        return lines
    if sort == 3:
        return lines[:place] + [draw.choice(HEADS)] + lines[place:]
    if sort == 4:
        return lines[:place] + [draw.choice([b" " + lines[place], lines[place].lstrip()])] + lines[place + 1:]
    return lines[:place] + [with_fields(draw, lines[place])] + lines[place + 1:]


def random_file(draw):
    """A file as a tool might write it, mostly with some changes."""
    lines = written(draw)
    for _ in range(draw.choice([0, 1, 1, 2])):
        lines = changed(draw, lines) or [b""]
    if draw.random() < 0.2:
        lines.insert(draw.randrange(len(lines)), draw.choice([b"* comment", b"", b" \t", b"*", b"\r"]))
    feed = draw.choice([b"\n", b"\n", b"\r\n"])
    data = feed.join(lines) + draw.choice([feed, b"", b"\n X\nROWS"])
    if draw.random() < 0.1:
        place = draw.randrange(len(data) + 1)
        data = data[:place] + draw.choice([b"", b" ", b"\n", b"\r", b"*", b"\0"]) + data[place + draw.randrange(2):]
    return data


def listed(data):
    """What the program prints of the bytes, as the reference gives it."""
    done = subprocess.run([str(PROGRAM), "mps-draft"], input=data, capture_output=True, check=False)
    text = done.stdout.decode("latin-1")
    if done.returncode:
        return f"status {done.returncode}, {done.stderr.decode('latin-1').strip()}"
    return text.removesuffix("\n") if text.startswith("refused") else text.split("\n")[:-1]


def differs(data, wanted, found):
    """Whether the program answers another thing than is wanted; if so, both are shown."""
    if found == wanted:
        return False
    print(f"DIFFERS on {data}:\n  wanted {wanted}\n  found  {found}")
    return True


def is_near(data, found):
    """Whether a front of a file is read, or refused at a line that is at most one above its number of line feeds."""
    return isinstance(found, list) or int(found.split()[-1]) <= data.count(b"\n") + 1


def main():
    parser = argparse.ArgumentParser(description="Compares reader_bench with a slow reference reader of MPS files.")
    parser.add_argument("--files", type=int, default=3000, help="how many random files (3000)")
    parser.add_argument("--seed", type=int, default=1, help="what they are drawn from (1)")
    chosen = parser.parse_args()
    if not os.access(PROGRAM, os.X_OK):
        sys.exit(f"no program {PROGRAM}: build it first, by 'rt run' in crates/reader_bench")
    wrong = 0
    for data, wanted in CASES:
        wrong += differs(data, wanted, read_mps(data))
        wrong += differs(data, wanted, listed(data))
    for size in range(len(DEMO)):
        wanted, found = read_mps(DEMO[:size]), listed(DEMO[:size])
        wrong += differs(DEMO[:size], wanted, found) or not is_near(DEMO[:size], found)
    draw = random.Random(chosen.seed)
    met = collections.Counter()
    for _ in range(chosen.files):
        data = random_file(draw)
        wanted = read_mps(data)
        wrong += differs(data, wanted, listed(data))
        met[wanted.rsplit(" ", 2)[0] if isinstance(wanted, str) else "read"] += 1
    print(f"{len(CASES)} cases, {len(DEMO)} fronts and {chosen.files} random files, {wrong} differences")
    print("of the random files: " + ", ".join(f"{count} {name}" for name, count in sorted(met.items())))
    sys.exit(1 if wrong else 0)


if __name__ == "__main__":
    main()
