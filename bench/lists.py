#!/usr/bin/env python3
"""Measures long lists on the built program, and writes their part of docs/performance.md.

usage: bench/lists.py        after the program was built, as by ./solpool
"""
import re
import shutil
import subprocess
import tempfile
import pathlib

from tables import best, built, machine, peak, put


def model(variables):
    """A file of binaries without rows and without an objective: every point is optimal."""
    names = [f"x{i}" for i in range(1, variables + 1)]
    return "\n".join(["Minimize", " obj:", "Binaries", " " + " ".join(names), "End", ""])


def write_calls(program, folder, name):
    """How many calls of the system's write the program makes, or None where strace can't say."""
    if shutil.which("strace") is None:
        return None
    counts = pathlib.Path(folder) / "counts"
    done = subprocess.run(["strace", "-f", "-c", "-e", "trace=write,writev", "-o", str(counts), str(program), name],
                          cwd=folder, stdin=subprocess.DEVNULL, stdout=subprocess.DEVNULL, stderr=subprocess.DEVNULL)
    if done.returncode or not counts.exists():
        return None
    calls = re.findall(r"^\s*[\d.]+\s+[\d.]+\s+\d+\s+(\d+)\s.*\bwritev?$", counts.read_text(), re.MULTILINE)
    return sum(map(int, calls)) if calls else None


def row(program, folder, variables):
    """A line of the table, and the peak of memory in KiB, which is None where there is none."""
    name = f"v{variables}.lp"
    pathlib.Path(folder, name).write_text(model(variables))
    words = ["--nodes", "200000", name]
    seconds, printed = best(program, words, folder)
    calls, held = write_calls(program, folder, name), peak(program, words, folder)
    said = f"{printed.count(b' :'):,}" if printed.startswith(b"status done") else " ".join(printed.decode().split("\n")[:2])
    return (f"| {variables} | {said} | {seconds:.3f} | {'-' if held is None else f'{held / 1024:.1f}'} | "
            f"{'-' if calls is None else calls} |"), held


def main():
    program = built("solpool")
    table, held = [], {}
    with tempfile.TemporaryDirectory() as folder:
        for variables in range(10, 18):
            line, held[variables] = row(program, folder, variables)
            table.append(line)
    each = ""
    if held[14] is not None and held[16] is not None:
        each = f"A listed point of 16 variables takes {(held[16] - held[14]) * 1024 / (65536 - 16384):.0f} bytes at the peak, with its nodes.\n"
    put("lists", f"""## Long lists

Written by `bench/lists.py`, on {machine()}. Files of binaries
without rows and without an objective: each point is listed, and N of them take a tree of 2 N - 1 nodes. Seconds are the least
of three runs, with the output in a file. Memory is the peak as `/usr/bin/time` tells it. Writes are the calls of the system's
`write`, as `strace -c` counts them.

| Binaries | Printed points | Seconds | Peak memory, MiB | Writes |
|---|---|---|---|---|
""" + "\n".join(table) + f"""

{each}
- Putting the found points in order takes their number times its logarithm.
- Printing takes no memory of its own. Lines are gathered into pieces of at most 64 KiB, so that the number of writes grows
  with the length of the output and not with the number of lines.
""")
    print("\n".join(table))


main()
