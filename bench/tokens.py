#!/usr/bin/env python3
"""Measures how fast an LP file is cut into tokens, beside `wc -w` and a plain tokenizer in Rust, and writes its part of
docs/performance.md.

usage: bench/tokens.py      after 'rt run' in crates/reader_bench; needs rustc, and builds bench/token_bench.rs alone
"""
import pathlib
import random
import shutil
import sys
import tempfile

from tables import best, built, machine, peak, put, rust_program

MEBI = 1 << 20
SIZES = [8, 32]
SEED = 17


def term(draw):
    """A sign, mostly a coefficient, and a variable."""
    name = draw.choice(["x%d", "y_%d", "flow(%d)"]) % draw.randrange(1, 5000)
    number = draw.choice(["", "%d" % draw.randrange(2, 100), "%.1f" % draw.uniform(0, 90), ".75", "1e2"])
    return f"{draw.choice('+-')} {number + ' ' if number else ''}{name}"


def row(draw, number):
    """A row of two to eight terms, now and then with a comment behind it or on a line of its own."""
    terms = " ".join(term(draw) for _ in range(draw.randrange(2, 9)))
    side = draw.choice(["1e3", "%d" % draw.randrange(1000), "%.2f" % draw.uniform(0, 900), "-12"])
    line = f" c{number}: {terms.removeprefix('+ ')} {draw.choice(['<=', '>=', '='])} {side}"
    if number % 10 == 0:
        line += " \\ every tenth row"
    return line + "\n" + ("\\ a comment of its own\n" if number % 100 == 0 else "")


def write_file(path, size):
    """Writes an LP file of about so many MiB; its length in bytes."""
    draw = random.Random(SEED)
    parts, length, number = ["Minimize\n obj: x1 + 2 x2\nSubject To\n"], 0, 0
    while length < size * MEBI - 40:
        number += 1
        parts.append(row(draw, number))
        length += len(parts[-1])
    parts.append("End\n")
    text = "".join(parts)
    path.write_text(text)
    return len(text)


def count(text):
    """The number behind the word `tokens`."""
    word, _, number = text.decode().strip().partition(" ")
    if word != "tokens":
        sys.exit(f"a tokenizer prints {text}")
    return int(number)


def measured(program, words, folder, given):
    """Runs a tokenizer on a file: the seconds, the number of tokens, and the peak of memory in KiB or None."""
    seconds, printed = best(program, words, folder, given=given)
    return seconds, count(printed), peak(program, words, folder, given)


def line(label, name, length, seconds, number, held):
    """A line of the table."""
    each = "-" if number is None else f"{seconds / number * 1e9:.1f}"
    shown = "-" if held is None else f"{held / 1024:.0f}"
    return f"| {label} | {name} | {seconds:.3f} | {length / 1e6 / seconds:.0f} | {each} | {shown} |"


def compared(proved, plain, folder, file, sort):
    """The lines of the table for one file, and what was measured of the two tokenizers."""
    length, given = file.stat().st_size, str(file)
    here = measured(proved, ["tokens"], folder, given)
    there = measured(plain, [], folder, given)
    if here[1] != there[1]:
        sys.exit(f"{file.name}: the two tokenizers find {here[1]} and {there[1]} tokens")
    counter = shutil.which("wc")
    words = best(counter, ["-w"], folder, given=given)[0], None, peak(counter, ["-w"], folder, given)
    label = f"{length / MEBI:.0f} MiB of {sort}, {here[1]:,} tokens"
    table = [line(label, name, length, *each) for name, each in
             [("proved", here), ("Rust", there), ("`wc -w`", words)]]
    return table, here, there


def main():
    proved = built("reader_bench")
    table, found, lengths = [], [], []
    with tempfile.TemporaryDirectory() as folder:
        plain, rust = rust_program("token_bench", folder)
        file = pathlib.Path(folder) / "model.lp"
        for size in SIZES:
            lengths.append(write_file(file, size))
            rows, here, there = compared(proved, plain, folder, file, "rows")
            table += rows
            found.append((here, there))
        file.write_bytes(b"+" * (SIZES[0] * MEBI))
        table += compared(proved, plain, folder, file, "`+`")[0]
    few, many = SIZES
    (here_few, there_few), (here_many, there_many) = found
    text = f"""## The tokens of an LP file

Written by `bench/tokens.py`, on {machine()}. The rows have two to eight terms, decimals, exponents
and comments, and {lengths[1] / here_many[1]:.1f} bytes a token; the last file has a token in each byte. Seconds are the least of three runs of a whole
process, which reads standard input from a file. Beside it a plain tokenizer in Rust ({rust}, `-O`), which reads numbers
as floats, and `wc -w`, which counts words and makes no list. MB are millions of bytes, and memory is the peak as
`/usr/bin/time` tells it.

| File | Program | Seconds | MB a second | ns a token | Peak memory, MiB |
|---|---|---|---|---|---|
""" + "\n".join(table) + f"""

{many} MiB of rows take {here_many[0] / here_few[0]:.2f} times as long as {few} MiB here, and {there_many[0] / there_few[0]:.2f} \
times in Rust: the time grows with the length of
the file. On {many} MiB the proved tokenizer takes {here_many[0] / there_many[0]:.2f} times what the one in Rust does.
"""
    if here_many[2] is not None:
        held = [(many[2] - few[2]) * 1024 - (lengths[1] - lengths[0]) for many, few in
                [(here_many, here_few), (there_many, there_few)]]
        each = [bytes_held / (here_many[1] - here_few[1]) for bytes_held in held]
        text += f"""Memory is the file, and {each[0]:.0f} bytes for each token ({each[1]:.0f} in Rust): the difference between the two files of rows.
"""
    put("tokens", text)
    print(text)


if __name__ == "__main__":
    main()
