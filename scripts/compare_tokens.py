#!/usr/bin/env python3
"""Compares the tokens that the built reader_bench cuts files into with those of a slow reference, scripts/lp_tokens.py.

usage: scripts/compare_tokens.py [--files N] [--seed S]     after 'rt run' in crates/reader_bench

First come cases that were worked out by hand, which both must answer, and then N random short files. The files are drawn
from the seed, from pieces that run into one another. Each that the two cut differently is shown. Status 0 where there is
none, else 1. It stands beside the gate, and builds nothing.
"""
import argparse
import collections
import os
import pathlib
import random
import subprocess
import sys

from lp_tokens import tokens

TOP = pathlib.Path(__file__).resolve().parent.parent
PROGRAM = pathlib.Path(os.environ.get("READER_BENCH", TOP / "crates" / "reader_bench" / "out" / "reader_bench"))

CASES = [
    (b"", ""), (b" \t\r\n", ""), (b"\\ only a comment", ""),
    (b"x", "nx@1"), (b"x\n", "nx@1"), (b"\n\nx", "nx@3"), (b"x\r\ny", "nx@1 ny@2"),
    (b"2x1", "#2=2/0@1 nx1@1"), (b"1e5x", "#1e5=100000/0@1 nx@1"), (b"2e", "#2=2/0@1 ne@1"),
    (b"2e+3", "#2e+3=2000/0@1"), (b"2e+", "#2=2/0@1 ne@1 $+@1"), (b"1.e5", "#1.e5=100000/0@1"),
    (b".5", "#.5=5/1@1"), (b"1.", "#1.=1/0@1"), (b"1..2", "#1.=1/0@1 #.2=2/1@1"),
    (b"1.5.2", "#1.5=15/1@1 #.2=2/1@1"), (b"0.50", "#0.50=5/1@1"), (b"0e99", "#0e99=0/0@1"),
    (b"1e29", "#1e29=" + "1" + "0" * 29 + "/0@1"), (b"1e30", "#1e30=huge@1"), (b"1e75", "#1e75=huge@1"),
    (b"1e-30", "#1e-30=1/30@1"), (b"1e-31", "fault Wide line 1"), (b"9" * 30 + b".9", "fault Wide line 1"),
    (b"9" * 31, "#" + "9" * 31 + "=huge@1"), (b"x\n\\ c\n 1e-99", "fault Wide line 3"),
    (b".x", "fault BadByte line 1"), (b".", "fault BadByte line 1"), (b"x|", "fault BadByte line 1"),
    (b"x \x0b", "fault BadByte line 1"), (b"\xc3\xa9", "fault BadByte line 1"), (b"\\\n\\\n\n|", "fault BadByte line 4"),
    (b"x.", "nx.@1"), (b"x.1e5", "nx.1e5@1"), (b"inf", "ninf@1"),
    (b"x1_!\"#$%&(),;?@'`{}~", "nx1_!\"#$%&(),;?@'`{}~@1"),
    (b"a" * 255, "n" + "a" * 255 + "@1"), (b"\n" + b"a" * 256, "fault LongName line 2"),
    (b"<=>", "$<=@1 $>@1"), (b"=<>", "$=<@1 $>@1"), (b"<->", "$<->@1"), (b"<-", "$<@1 $-@1"),
    (b"<--", "$<@1 $-@1 $-@1"), (b"<->>", "$<->@1 $>@1"), (b"->", "$->@1"), (b"-->", "$-@1 $->@1"),
    (b"=->", "$=@1 $->@1"), (b"=>=", "$=>@1 $=@1"), (b">=<", "$>=@1 $<@1"), (b">==", "$>=@1 $=@1"),
    (b"==<", "$=@1 $=<@1"), (b"<<=", "$<@1 $<=@1"), (b"<==", "$<=@1 $=@1"), (b"=<->", "$=<@1 $->@1"),
    (b">->", "$>@1 $->@1"), (b":::", "$::@1 $:@1"), (b"::::", "$::@1 $::@1"), (b"+-+", "$+@1 $-@1 $+@1"),
    (b"[x]*y^2/2", "$[@1 nx@1 $]@1 $*@1 ny@1 $^@1 #2=2/0@1 $/@1 #2=2/0@1"),
    (b"x<=3", "nx@1 $<=@1 #3=3/0@1"), (b"c1:x", "nc1@1 $:@1 nx@1"), (b"< =", "$<@1 $=@1"),
    (b"<\\\n=", "$<@1 $=@2"), (b"x \\ a | comment \\ \xf0\ny", "nx@1 ny@2"),
    (b"end", "nend@1"), (b"End\nx |", "nEnd@1"), (b"END\xff\x00", "nEND@1"), (b"x end |", "fault BadByte line 1"),
    (b"x\nend y |\n|", "nx@1 nend@2"), (b"end: x\n", "nend@1 $:@1 nx@1"), (b"END:\n|", "fault BadByte line 2"),
    (b"end :: x", "nend@1 $::@1 nx@1"), (b"end \t\r: x", "nend@1 $:@1 nx@1"), (b"end\n: x", "nend@1"),
    (b"end \\ :\n: |", "nend@1"), (b"\\end\nx", "nx@2"), (b"ends\nx", "nends@1 nx@2"),
    (b"2 end\n|", "fault BadByte line 2"), (b"x\n end\n|", "nx@1 nend@2"), (b"\\ \xff|\n  eNd", "neNd@2"),
    (b"end end", "nend@1"), (b"end:end\nend|", "nend@1 $:@1 nend@1 nend@2"),
]

SYMBOLS = b"+ - : :: < <= =< > >= => = -> <-> [ ] * ^ /".split()
WORDS = [b"x", b"y_1", b"e", b"E", b"e5", b"x.", b"inf", b"free", b"c1", b"st", b"!", b"#a", b"a'b", b"~", b"en", b"d"]
ENDS = [b"end", b"End", b"END", b"eNd", b"ends", b"end.", b"_end"]
BLANKS = [b" ", b"\t", b"\r", b"\n", b"\r\n", b"  ", b"\n\n", b"\\", b"\\ c\n", b"\\|\xff\n"]
BAD = [b"|", b"\x00", b"\x0b", b"\x0c", b"\x7f", b"\x80", b"\xc3\xa9", b"\xff"]


def digits(draw, most):
    """Up to so many digits, many of them zeros."""
    return bytes(draw.choice(b"0001234567899") for _ in range(draw.randrange(most + 1)))


def numeral(draw):
    """Digits, mostly with a point and an exponent, so that most of them are numerals."""
    text = digits(draw, draw.choice([1, 3, 16, 32]))
    if draw.random() < 0.6:
        text += b"." + digits(draw, draw.choice([1, 3, 16, 32]))
    if draw.random() < 0.5:
        power = draw.choice([b"%d" % draw.randrange(70), digits(draw, 25), b""])
        text += draw.choice([b"e", b"E", b"e+", b"E-", b"e-"]) + power
    return text


def numeral_at_limit(draw):
    """A numeral near 10^30, or with about thirty places, whose point stands anywhere."""
    size = draw.randrange(27, 32)
    core = draw.choice([b"1", b"25", b"9" * size, b"1" + b"0" * size, b"1" + b"0" * (size - 1) + b"1"])
    last = draw.choice([30 - len(core) + draw.choice([-1, 0, 1]), -draw.choice([29, 30, 31])])
    behind = draw.choice([0, draw.randrange(70)])
    shown = core.rjust(behind + draw.randrange(2), b"0")
    whole, fraction = shown[:len(shown) - behind], shown[len(shown) - behind:]
    return whole + b"." + fraction + draw.choice([b"e%d", b"E%+d"]) % (last + behind)


def piece(draw, faults):
    """One piece of a file; a share of them, by `faults`, is no part of a token."""
    if draw.random() < faults:
        return draw.choice(BAD)
    sort = draw.randrange(100)
    if sort < 30:
        return draw.choice(SYMBOLS)
    if sort < 45:
        return draw.choice([b"0", b"1", b"7", b".", b"e", b"E", b"+", b"-", b"25"])
    if sort < 60:
        return draw.choice(WORDS)
    if sort < 90:
        return draw.choice(BLANKS)
    return draw.choice(ENDS) if sort < 95 else digits(draw, 4) + b"."


def soup(draw):
    """Pieces of all sorts without anything between them."""
    faults = draw.choice([0, 0, 0.02])
    return b"".join(piece(draw, faults) for _ in range(draw.randrange(1, 40)))


def numerals(draw):
    """Numerals with blanks, or nothing, between them."""
    sorts = [numeral, numeral_at_limit]
    count = draw.choice([1, 1, 2, 8])
    return b"".join(draw.choice(sorts)(draw) + draw.choice([b" ", b"\n", b"+", b"", b"x", b"."]) for _ in range(count))


def ends(draw):
    """Words `end` at all places of lines, with and without colons behind them."""
    parts = []
    for _ in range(draw.randrange(1, 6)):
        head = draw.choice([b"", b"", b" ", b"\t", b"\r", b"x ", b"2", b"\\", b": "])
        behind = draw.choice([b"", b" ", b":", b" :", b"\t\r::", b"\\:", b" x", b"\r", b" \\ c"])
        parts.append(head + draw.choice(ENDS[:4] + [b"ends", b"x"]) + behind + b"\n")
    return b"".join(parts) + draw.choice([b"", b"|", b"x"])


def names(draw):
    """Names about as long as a name may be."""
    sizes = [draw.choice([1, 253, 254, 255, 256, 257, 300]) for _ in range(draw.choice([1, 2]))]
    return b"\n".join(b"a" * (size - 1) + draw.choice([b"a", b".", b"9", b"_", b"-", b" "]) for size in sizes)


def noise(draw):
    """Any bytes that stand between tokens or within them, and now and then any at all."""
    some = draw.choice([bytes(range(33, 124)), bytes(range(256)), b"0123456789.eE+-", b"<>=-:", b"enD \t\r\n:\\"])
    return bytes(draw.choice(some) for _ in range(draw.randrange(1, 30)))


def random_file(draw):
    """A short file of one of the sorts above."""
    return draw.choices([soup, numerals, ends, names, noise], weights=[10, 6, 5, 1, 4])[0](draw)


def listed(data):
    """What the program lists of the bytes, as the reference gives it."""
    done = subprocess.run([str(PROGRAM), "list"], input=data, capture_output=True, check=False)
    text = done.stdout.decode("latin-1")
    if done.returncode:
        return f"status {done.returncode}, {done.stderr.decode('latin-1').strip()}"
    if text.startswith("fault"):
        return text.removesuffix("\n")
    return text.split("\n")[:-1]


def differs(data, wanted, found):
    """Whether the program answers another thing than is wanted; if so, both are shown."""
    if found == wanted:
        return False
    print(f"DIFFERS on {data}:\n  wanted {wanted}\n  found  {found}")
    return True


def main():
    parser = argparse.ArgumentParser(description="Compares reader_bench with a slow reference tokenizer.")
    parser.add_argument("--files", type=int, default=3000, help="how many random files (3000)")
    parser.add_argument("--seed", type=int, default=1, help="what they are drawn from (1)")
    chosen = parser.parse_args()
    if not os.access(PROGRAM, os.X_OK):
        sys.exit(f"no program {PROGRAM}: build it first, by 'rt run' in crates/reader_bench")
    wrong = 0
    for data, text in CASES:
        wanted = text if text.startswith("fault") else text.split()
        wrong += differs(data, wanted, tokens(data))
        wrong += differs(data, wanted, listed(data))
    draw = random.Random(chosen.seed)
    met = collections.Counter()
    for _ in range(chosen.files):
        data = random_file(draw)
        wanted = tokens(data)
        wrong += differs(data, wanted, listed(data))
        met.update([wanted.split()[1]] if isinstance(wanted, str) else ["lists"])
        met.update({"tokens": len(wanted)} if isinstance(wanted, list) else {})
    print(f"{len(CASES)} cases and {chosen.files} random files, {wrong} differences")
    print("of the random files: " + ", ".join(f"{count} {name}" for name, count in sorted(met.items())))
    sys.exit(1 if wrong else 0)


if __name__ == "__main__":
    main()
