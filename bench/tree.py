#!/usr/bin/env python3
"""Measures the calls of the tree on chains and on full trees of up to 200,000 nodes, and writes its part of docs/performance.md.

usage: bench/tree.py [--loaded]      after 'rt run' in crates/tree_bench
"""
import pathlib
import subprocess
import sys
import tempfile

from tables import built, machine, peak, put

# the shape, the variables of its box, and the splits
SHAPES = [("chain", 1, 10_000), ("chain", 1, 100_000), ("chain", 100, 100_000),
          ("full", 17, 10_000), ("full", 17, 100_000), ("full", 2_000, 100_000)]
RUNS = 7


def lines_of(shape, variables, splits):
    """The lines that grow the tree, and those that are measured then: each with its name and how often it makes its call."""
    first = splits if shape == "chain" else 1
    begin = f"box {variables} 0 {first}" + " 0 1" * (variables - 1)
    asked = 100 if shape == "chain" else 20_000
    alone = f"boxes {splits}" if shape == "chain" else f"ask 0 1 {splits}"
    return begin, [("split", f"{shape} {splits}", splits), ("alone", alone, splits), ("close", "closeall", splits + 1),
                   ("box_of", f"ask {2 * splits} 0 {asked}", asked), ("reopen", "reopen 0", 2 * splits + 1)]


def measured(program, shape, variables, splits):
    """For each call the least processor nanoseconds that one took."""
    begin, steps = lines_of(shape, variables, splits)
    text = begin + "\ntime\n" + "".join(f"{line}\ntime\n" for _, line, _ in steps)
    least = {}
    for _ in range(RUNS):
        ran = subprocess.run([str(program)], input=text, capture_output=True, text=True, check=True)
        told = ran.stdout.splitlines()
        answers, times = told[2::2], [int(word) for word in told[1::2]]
        for (name, _, count), answer, before, after in zip(steps, answers, times, times[1:]):
            if str(count) not in answer and name != "reopen":
                sys.exit(f"{name}: {answer}, not {count}")
            took = (after - before) / count
            least[name] = min(least.get(name, took), took)
    return least


def held(program, shape, variables, splits, folder):
    """The bytes that the nodes take: the peak of a grown tree less that of one leaf."""
    given = pathlib.Path(folder) / "lines"
    peaks = []
    for count in (0, splits):
        begin, steps = lines_of(shape, variables, splits)
        grow = steps[0][1].replace(str(splits), str(count))
        given.write_text(f"{begin}\n{grow}\n")
        peaks.append(peak(program, [], folder, given))
    return None if None in peaks else (peaks[1] - peaks[0]) * 1024


def main():
    program = built("tree_bench")
    rows = []
    with tempfile.TemporaryDirectory() as folder:
        for shape, variables, splits in SHAPES:
            least = measured(program, shape, variables, splits)
            taken = held(program, shape, variables, splits, folder)
            nodes = 2 * splits + 1
            memory = "- | -" if taken is None else f"{taken / nodes:.0f} | {taken / 1e6:.1f}"
            split = max(0.0, least["split"] - least["alone"])
            rows.append(f"| {shape} | {variables:,} | {nodes:,} | {memory} | {split:.0f} | {least['split']:.0f} "
                        f"| {least['close']:.0f} | {least['box_of']:,.0f} | {least['reopen']:.1f} |")
    text = f"""## The tree

Written by `bench/tree.py`, on {machine()}. Processor nanoseconds a call, the least of {RUNS} runs, and memory: the process's peak less that with a tree of one node; MB are millions of bytes. In the chain each split but the last leaves a leaf on its left, so the last node is as deep as it can be; in the full tree all leaves lie at two depths. `split` stands without and with the making of the box that says whether it may be called; in the full tree the test that this box has points, which reads all its ranges, is part of both. `close` stands with the `open_leaf` that found its node, `box_of` is asked for the last node and makes a box of all variables, `reopen` is one pass in which every leaf is opened, told for each node.

| Tree | Variables | Nodes | Bytes a node | MB in all | `split` | with its box | `close` | `box_of` | `reopen` a node |
|---|---|---|---|---|---|---|---|---|---|
""" + "\n".join(rows) + """

A node takes at most 96 bytes, which the check computes, and a split 16 more for its two nodes; the lists of both grow by doubling. `open_leaf` reads one number: closing and splitting move it on, over each node once between two reopenings, so that `close` with it costs no more in ten times the nodes. `box_of` goes up to the root and back, and copies the root's box.
"""
    if "--loaded" in sys.argv:
        text += "\nThe machine was loaded with other work; processor time is counted for that reason.\n"
    put("tree", text)
    print(text)


main()
