#!/usr/bin/env python3
"""Measures the lists of near-optimal alternatives on the built program, beside other ways to get them, and writes its part of
docs/performance.md.

usage: bench/alternatives.py        after the program was built, as by ./solpool

Beside it, where they are installed: clasp (all points of an OPB file that holds the bound which the gap allows), glpsol in a
loop that cuts off each point found, and a walk over all points in C for the small ones. Each has the same five seconds.
"""
import pathlib
import re
import shutil
import subprocess
import tempfile
import time

from families import assignment, demo, free, halves, queens
from tables import best, built, machine, peak, put

BUDGET = 5
RUNS = 2

CASES = [(demo(24), 0), (demo(24), 20), (demo(40), 0), (demo(40), 20), (demo(60), 0), (demo(60), 5), (demo(60), 20),
         (demo(60), 30), (halves(), 0), (queens(6), 0), (queens(8), 0), (assignment(6), 0), (free(10), 0), (free(13), 0),
         (free(16), 0)]


def told(text, what):
    """The number behind a word at the begin of a line, or None."""
    found = re.search(rf"^{what} (-?\d+)$", text, re.MULTILINE)
    return int(found.group(1)) if found else None


def solpool(program, folder, model, gap):
    """Seconds, solutions (or what it says), the optimum, and the peak of memory in KiB."""
    pathlib.Path(folder, "m.lp").write_text(model.lp())
    words = ["--absgap", str(gap), "m.lp"]
    seconds, printed = best(program, words, folder, runs=RUNS)
    text = printed.decode()
    count = told(text, "solutions")
    said = f"{count:,}" if count is not None else " ".join(text.split("\n")[:2])
    return seconds, count, said, told(text, "optimum"), peak(program, words, folder)


def clasp(folder, model, least):
    """Seconds and points of clasp's enumeration, or None."""
    if shutil.which("clasp") is None:
        return None
    pathlib.Path(folder, "m.opb").write_text(model.opb(least))
    start = time.perf_counter()
    done = subprocess.run(["clasp", "-n", "0", "-q", f"--time-limit={BUDGET}", "m.opb"], cwd=folder, capture_output=True,
                          text=True, check=False)
    seconds = time.perf_counter() - start
    found = re.search(r"^c? ?Models\s*:\s*(\d+)(\+?)", done.stdout, re.MULTILINE)
    if found is None:
        return None
    return seconds, int(found.group(1)), found.group(2) == ""


def glpsol_loop(folder, model, gap):
    """Seconds and points until the objective leaves the gap or the time is over, or None."""
    if shutil.which("glpsol") is None or model.count > 64:
        return None
    cuts, first, start, count = [], None, time.perf_counter(), 0
    while time.perf_counter() - start < BUDGET:
        longer = type(model)(model.name, model.maximised, model.cost, model.rows + cuts)
        pathlib.Path(folder, "g.lp").write_text(longer.lp())
        subprocess.run(["glpsol", "--lp", "g.lp", "-w", "g.sol", "--tmlim", str(BUDGET)], cwd=folder,
                       stdout=subprocess.DEVNULL, check=False)
        solved = pathlib.Path(folder, "g.sol")
        if not solved.exists():
            return None
        lines = solved.read_text().splitlines()
        solved.unlink()
        told_line = next(line for line in lines if line.startswith("s mip"))
        status, value = told_line.split()[4], float(told_line.split()[5])
        if status != "o":
            return time.perf_counter() - start, count, status == "n"
        first = value if first is None else first
        if abs(value - first) > gap + 1e-6:
            return time.perf_counter() - start, count, True
        ones = {int(line.split()[1]) - 1 for line in lines if line.startswith("j ") and line.split()[2] == "1"}
        cuts.append(([(j, 1 if j not in ones else -1) for j in range(model.count)], ">=", 1 - len(ones)))
        count += 1
    return time.perf_counter() - start, count, False


C_WALK = r"""
#include <stdio.h>
#include <stdlib.h>
#include <string.h>
%(data)s
static int cmp(const void *a, const void *b) { long x = *(const long *)a, y = *(const long *)b; return (x > y) - (x < y); }
int main(void) {
    long *kept = malloc(sizeof(long) << 20), count = 0, least = 0, any = 0;
    for (int pass = 0; pass < 2; pass++) for (unsigned long p = 0; p < 1ul << N; p++) {
        long value = 0;
        for (int j = 0; j < N; j++) if (p >> j & 1) value += cost[j];
        int good = !(pass == 1 && value > least + GAP) && !(pass == 0 && any && value >= least);
        for (int i = 0; good && i < R; i++) {
            long sum = 0;
            for (int j = 0; j < N; j++) if (p >> j & 1) sum += row[i][j];
            good = sum >= lo[i] && sum <= hi[i];
        }
        if (!good) continue;
        if (pass == 0) { least = value; any = 1; } else kept[count++] = value;
    }
    qsort(kept, count, sizeof(long), cmp);
    printf("%%ld\n", count);
}
"""


def c_walk(folder, model, gap):
    """Seconds and points of a walk over all points in C, or None."""
    if shutil.which("gcc") is None or model.count > 24:
        return None
    turn = -1 if model.maximised else 1
    rows, lows, highs = [], [], []
    for terms, sign, side in model.rows:
        line = [0] * model.count
        for j, a in terms:
            line[j] += a
        rows.append("{" + ", ".join(map(str, line)) + "}")
        lows.append(str(side) if sign in (">=", "=") else "-(1l << 60)")
        highs.append(str(side) if sign in ("<=", "=") else "1l << 60")
    data = (f"enum {{ N = {model.count}, R = {len(rows)}, GAP = {gap} }};\n"
            f"static const long cost[N] = {{{', '.join(str(turn * c) for c in model.cost)}}};\n"
            f"static const long row[R + 1][N] = {{{', '.join([*rows, '{0}'])}}}, lo[R + 1] = {{{', '.join([*lows, '0'])}}}, "
            f"hi[R + 1] = {{{', '.join([*highs, '0'])}}};")
    pathlib.Path(folder, "walk.c").write_text(C_WALK % {"data": data})
    subprocess.run(["gcc", "-O2", "-o", "walk", "walk.c"], cwd=folder, check=True)
    start = time.perf_counter()
    done = subprocess.run(["./walk"], cwd=folder, capture_output=True, text=True, check=True)
    return time.perf_counter() - start, int(done.stdout), True


def shown(result, count):
    """What another way took; a + where it had not ended, and its number where it differs."""
    if result is None:
        return "-"
    seconds, points, whole = result
    if not whole:
        return f"over {BUDGET} ({points:,} so far)"
    return f"{seconds:.3f}" + ("" if points == count or count is None else f" (**{points:,}**)")


def main():
    program = built("solpool")
    lines = []
    with tempfile.TemporaryDirectory() as folder:
        for model, gap in CASES:
            seconds, count, said, optimum, held = solpool(program, folder, model, gap)
            least = None
            if optimum is not None:
                least = (-optimum if model.maximised else optimum) + gap
            others = [clasp(folder, model, least) if least is not None else None, glpsol_loop(folder, model, gap),
                      c_walk(folder, model, gap)]
            lines.append(f"| {model.name}, gap {gap} | {said} | {seconds:.3f} | {'-' if held is None else f'{held / 1024:.1f}'} | "
                         + " | ".join(shown(other, count) for other in others) + " |")
            print(lines[-1], flush=True)
    text = f"""## Near-optimal alternatives

Written by `bench/alternatives.py`, on {machine()}. Seconds of
`solpool --absgap GAP FILE`, the least of two runs, output in a file, and its peak memory in MiB. Beside it what others take
for all points within the same gap: clasp is told the optimum and counts the points of an OPB file that holds it; glpsol is
started anew for each point, which a row then cuts off; the C program walks over all points, twice. Each has five seconds.

| Model and gap | Solutions | Seconds | MiB | clasp | glpsol, in a loop | C, all points |
|---|---|---|---|---|---|---|
""" + "\n".join(lines) + "\n"
    put("alternatives", text)


main()
