#!/usr/bin/env python3
"""Measures lists from one tree, and the first points of long lists, on the built populate_bench, and writes their part of
docs/performance.md.

usage: bench/populate.py        after populate_bench was built, by 'rt run' in crates/populate_bench
"""
import pathlib
import re
import tempfile

from families import assignment, demo, free, queens
from tables import best, built, machine, peak, put

LIMIT = 600_000
LISTS = [(demo(24), 0), (demo(24), 20), (demo(40), 0), (demo(40), 20), (demo(40), 50), (demo(60), 0), (demo(60), 5), (demo(60), 20),
         (demo(60), 30), (queens(8), 0), (assignment(7), 0)]
FIRST = [(demo(24), 10), (demo(40), 10), (demo(60), 1), (demo(60), 10), (demo(60), 100), (demo(60), 1000), (free(17), 10)]


def lines_of(model, *calls):
    """The model as populate_bench reads it, minimised, and the calls."""
    turn = -1 if model.maximised else 1
    lines = ["model" + " 0 1" * model.count, "cost " + " ".join(str(turn * c) for c in model.cost)]
    for terms, sign, side in model.rows:
        assert sign in ("<=", "="), sign
        lines.append(f"row {'-' if sign == '<=' else side} {side} " + " ".join(f"{j} {a}" for j, a in terms))
    return "\n".join([*lines, *calls]) + "\n"


def measured(program, folder, text):
    """Seconds, what was printed as lines, and the peak of memory in MiB."""
    given = pathlib.Path(folder, "lines")
    given.write_text(text)
    seconds, printed = best(program, [], folder, given=given)
    held = peak(program, [], folder, given=given)
    return f"{seconds:.3f}", printed.decode().splitlines(), "-" if held is None else f"{held / 1024:.1f}"


def nodes_of(line):
    """How a run ended, its nodes, and its found points."""
    end, nodes, found = re.match(r"(\w+) nodes (\d+) found (\d+)", line).groups()
    return end, int(nodes), int(found)


def list_row(program, folder, model, gap):
    seconds, printed, held = measured(program, folder, lines_of(model, f"gaps {gap} -", f"optimize {LIMIT}", f"populate {LIMIT} -", "count"))
    one, (end, nodes, _) = nodes_of(printed[0]), nodes_of(printed[1])
    said = f"{int(printed[2].split()[1]):,}" if end == "Done" else end
    return f"| {model.name}, gap {gap} | {said} | {one[1]:,} | {nodes:,} | {seconds} | {held} |"


def first_row(program, folder, model, k):
    seconds, printed, held = measured(program, folder, lines_of(model, f"optimize {LIMIT}", f"nbest {k} {LIMIT}"))
    one, (end, nodes, found) = nodes_of(printed[0]), nodes_of(printed[1])
    return f"| {model.name} | {k:,} | {end if end != 'Best' else 'done'} | {one[1]:,} | {nodes:,} | {found:,} | {seconds} | {held} |"


def main():
    program = built("populate_bench")
    lists, frees, firsts = [], [], []
    with tempfile.TemporaryDirectory() as folder:
        for model, gap in LISTS:
            lists.append(list_row(program, folder, model, gap))
            print(lists[-1], flush=True)
        for count in range(10, 18):
            frees.append(list_row(program, folder, free(count), 0))
            print(frees[-1], flush=True)
        for model, k in FIRST:
            firsts.append(first_row(program, folder, model, k))
            print(firsts[-1], flush=True)
    put("populate", f"""## Lists from one tree, and the first points of long ones

Written by `bench/populate.py`, on {machine()}. Seconds are the
least of three runs, with reading the model from lines; memory is the peak as `/usr/bin/time` tells it. Nodes are those behind the
proved optimum, and those in all. The models are the ones of `bench/families.py`.

| Model | Listed points | Nodes, optimum | Nodes in all | Seconds | Peak memory, MiB |
|---|---|---|---|---|---|
""" + "\n".join(lists + frees) + """

The first points of the list, without limits on the gaps:

| Model | First points | End | Nodes, optimum | Nodes in all | Found points | Seconds | Peak memory, MiB |
|---|---|---|---|---|---|---|---|
""" + "\n".join(firsts) + "\n")


if __name__ == "__main__":
    main()
