#!/usr/bin/env python3
"""Runs every call that grows at the limit of what it takes, on the built programs, and one past it where a limit refuses.

usage: scripts/limits.py     after 'rt run' in crates/solpool, crates/reader_bench and crates/model_bench

No clause can say that memory is there, so a body that gives up early is proved. This table shows that none does: 2,000
variables, 10,000 rows and their names, 200,000 terms, a million tokens, 65,536 found points and the list of them, 1,000
words. What is printed is compared with what a formula says. Each line begins with PASS, FAIL or SKIP. Status 0 where
nothing failed, else 1.
"""
import itertools
import os
import pathlib
import subprocess
import sys
import tempfile

TOP = pathlib.Path(__file__).resolve().parent.parent
VARIABLES, ROWS, TERMS, TOKENS, WORDS = 2_000, 10_000, 200_000, 1_000_000, 1_000
USAGE = "usage: solpool [--absgap D] [--relgap D] [--nodes N] [--demo N] [FILE]\n"
STOPPED = "status nodelimit\nnodes 199999\n"


def program(name):
    return pathlib.Path(os.environ.get(name.upper(), TOP / "crates" / name / "out" / name))


def names(count):
    return " ".join(f"x{k}" for k in range(1, count + 1))


def model(variables, rows, objective="", last_label=None):
    """An LP file with binaries x1, x2, .. with these rows, which are named c1, c2, .. but perhaps the last one."""
    lines = ["Maximize", f"obj: {objective}".rstrip()]
    if rows:
        labels = [f"c{k}" for k in range(1, len(rows) + 1)]
        labels[-1] = last_label or labels[-1]
        lines += ["Subject To", *(f"{label}: {row}" for label, row in zip(labels, rows))]
    return "\n".join([*lines, "Binaries", names(variables), "End", ""])


def sum_of(variables, times=1):
    return " + ".join(f"x{k}" for _ in range(times) for k in range(1, variables + 1))


def listing(variables):
    """What is printed for a model without an objective and rows: all points in lexicographic order."""
    lines = ["status done", "optimum 0", f"solutions {2 ** variables}"]
    for point in itertools.product((0, 1), repeat=variables):
        lines.append("0 :" + "".join(f" x{k} 1" for k, v in enumerate(point, 1) if v))
    return "\n".join(lines) + "\n"


def cases():
    """The name of each case, the file, what solpool prints, and its status."""
    one = "status done\noptimum 1\nsolutions 1\n1 : x1 1\n"
    rows = ["x1 <= 1"] * ROWS
    yield f"{VARIABLES} variables", model(VARIABLES, []), STOPPED, 0
    yield f"{VARIABLES + 1} variables", model(VARIABLES + 1, []), "refused 12 too many variables\n", 1
    yield f"the {VARIABLES}th variable in the objective", model(VARIABLES, [], f"x{VARIABLES}"), STOPPED, 0
    yield "a variable behind them that isn't whole", model(VARIABLES - 1, [], f"x{VARIABLES}"), \
        f"refused 3 continuous x{VARIABLES}\n", 1
    yield f"{ROWS} rows", model(1, rows, "x1"), one, 0
    yield f"{ROWS + 1} rows", model(1, rows + ["x1 <= 1"], "x1"), "refused 12 too many rows\n", 1
    yield f"the {ROWS - 1}th row's name twice", model(1, rows, "x1", f"c{ROWS - 1}"), \
        f"refused 8 duplicate name line {ROWS + 3}\n", 1
    wide = [f"{sum_of(16, 1_250)} <= 999999999"] * (TERMS // 20_000)
    yield f"{TERMS} terms", model(16, wide), listing(16), 0
    yield f"{TERMS + 1} terms", model(16, wide, "x1"), "refused 12 too many terms\n", 1
    yield "65,536 found points, all listed", model(16, []), listing(16), 0
    yield "65,536 found points, one listed", model(16, [], sum_of(16)), \
        "status done\noptimum 16\nsolutions 1\n16 :" + "".join(f" x{k} 1" for k in range(1, 17)) + "\n", 0
    yield "131,072 points", model(17, []), STOPPED, 0


def verdict(name, holds):
    print(f"{'PASS' if holds else 'FAIL'} {name}")
    return holds


def run_models(folder):
    held = True
    for name, text, wanted, status in cases():
        file = pathlib.Path(folder, "limit.lp")
        file.write_text(text)
        done = subprocess.run([program("solpool"), file], capture_output=True, text=True, timeout=120)
        held &= verdict(name, done.stdout == wanted and done.returncode == status)
    return held


def run_words():
    done = subprocess.run([program("solpool"), *["w"] * WORDS], capture_output=True, text=True, timeout=120)
    return verdict(f"{WORDS} words", done.stdout == USAGE and done.returncode == 2)


def run_tokens():
    text = b"x + " * (TOKENS // 2)
    done = subprocess.run([program("reader_bench"), "tokens"], input=text, capture_output=True, timeout=120)
    return verdict(f"{TOKENS} tokens", done.returncode == 0 and str(TOKENS).encode() in done.stdout)


def run_built_model():
    held = True
    for question in ("feasible", "value"):
        words = [program("model_bench"), question, str(VARIABLES), str(TERMS - VARIABLES), "1"]
        done = subprocess.run(words, capture_output=True, text=True, timeout=120)
        held &= verdict(f"a model of {VARIABLES} variables and {TERMS} terms, {question}", done.returncode == 0)
    return held


def main():
    missing = [name for name in ("solpool", "reader_bench", "model_bench") if not program(name).is_file()]
    for name in missing:
        print(f"SKIP what {name} runs: it isn't built")
    held = True
    with tempfile.TemporaryDirectory() as folder:
        held &= "solpool" in missing or run_models(folder) & run_words()
    held &= "reader_bench" in missing or run_tokens()
    held &= "model_bench" in missing or run_built_model()
    return 0 if held else 1


if __name__ == "__main__":
    sys.exit(main())
