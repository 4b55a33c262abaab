#!/usr/bin/env python3
"""Measures how the built program reads large model files, and writes its part of docs/performance.md.

usage: bench/files.py        after the program was built, as by ./solpool
"""
import pathlib
import tempfile

from tables import best, built, machine, peak, put

VARIABLES = 2000
ROWS = 2000
TERMS = 100


def names(width):
    """The names of the variables, each of so many bytes."""
    return [f"v{var}".ljust(width, "_") for var in range(VARIABLES)]


def entries(row):
    """The variables and coefficients of a row: decimals of up to four places."""
    return [((row * 37 + term * 19) % VARIABLES, f"{(row + term) % 90 + 1}.{(row * 7 + term) % 10000:04}") for term in range(TERMS)]


def lp_file(width):
    """An LP file with 200,000 terms in its rows and 2,000 integer variables."""
    known = names(width)
    lines = ["Minimize", " obj:", "Subject To"]
    for row in range(ROWS):
        lines.append(f" r{row}: " + "\n + ".join(f"{value} {known[var]}" for var, value in entries(row)) + " <= 1000000")
    lines += ["Bounds"] + [f" {name} <= 9" for name in known]
    return "\n".join(lines + ["Generals"] + [f" {name}" for name in known] + ["End", ""])


def mps_file(width):
    """The same model as an MPS file."""
    known = names(width)
    columns = [[] for _ in known]
    for row in range(ROWS):
        for var, value in entries(row):
            columns[var].append((row, value))
    lines = ["NAME  LARGE", "ROWS", " N  COST"] + [f" L  r{row}" for row in range(ROWS)]
    lines += ["COLUMNS", "    M  'MARKER'  'INTORG'"]
    for name, column in zip(known, columns):
        lines += [f"    {name}  r{row}  {value}" for row, value in column] or [f"    {name}  COST  0"]
    lines += ["    M  'MARKER'  'INTEND'", "RHS"] + [f"    B  r{row}  1000000" for row in range(ROWS)]
    return "\n".join(lines + ["BOUNDS"] + [f" UP B  {name}  9" for name in known] + ["ENDATA", ""])


def line(program, folder, name, text):
    """A line of the table."""
    path = pathlib.Path(folder, name)
    path.write_text(text)
    seconds, printed = best(program, ["--nodes", "1", name], folder)
    held = peak(program, ["--nodes", "1", name], folder)
    answer = printed.decode().split("\n")[0]
    size = path.stat().st_size / 2 ** 20
    return f"| {name} | {size:.1f} | {seconds:.2f} | {'-' if held is None else f'{held / 1024:.0f}'} | `{answer}` |"


def main():
    """Measures, and writes the part."""
    program = built("solpool")
    with tempfile.TemporaryDirectory() as folder:
        table = [line(program, folder, "short.lp", lp_file(6)), line(program, folder, "long.lp", lp_file(88)),
                 line(program, folder, "short.mps", mps_file(6)), line(program, folder, "long.mps", mps_file(84))]
    text = f"""## A large file, from its bytes to a model

Written by `bench/files.py`, on {machine()}.
Each file has 2,000 integer variables, 2,000 rows and 200,000 terms with decimals of four places; in the long ones a name has
some 85 bytes. The program reads the file, lowers it, builds the model, begins its search, and stops at the first node.
Seconds are the least of three runs, memory is the peak as `/usr/bin/time` tells it.

| File | MiB | Seconds | Peak memory, MiB | Printed first |
|---|---|---|---|---|
""" + "\n".join(table) + """

Reading, lowering and building grow with the bytes and the terms; sorting the terms of one row takes their number times its
logarithm.
"""
    put("files", text)
    print(text)


if __name__ == "__main__":
    main()
