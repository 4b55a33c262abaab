#!/usr/bin/env python3
"""Measures offers into a full pool and refreshes, and writes its part of docs/performance.md.

usage: bench/pool.py       after 'rt run' in crates/command_bench
"""
import pathlib
import resource
import subprocess
import tempfile

from tables import built, machine, peak, put

OFFERS = 20_000
MEMBERS = [1_000, 10_000, 100_000]
REFRESHED = [1_000, 10_000, 100_000]
RUNS = 3


def spent(program, words, folder, given=None):
    """The least processor seconds of some runs."""
    least = None
    for _ in range(RUNS):
        before = resource.getrusage(resource.RUSAGE_CHILDREN)
        with open(given or "/dev/null", "rb") as source:
            subprocess.run([str(program), *words], cwd=folder, stdin=source, stdout=subprocess.DEVNULL, check=True)
        after = resource.getrusage(resource.RUSAGE_CHILDREN)
        seconds = after.ru_utime - before.ru_utime + after.ru_stime - before.ru_stime
        least = seconds if least is None else min(least, seconds)
    return least


def offered(program, members, folder):
    """The microseconds of an offer into a full pool of so many members, those of one while it fills, and bytes a member."""
    empty = spent(program, ["fill", "1", "0"], folder)
    filled = spent(program, ["fill", str(members), "0"], folder)
    whole = spent(program, ["fill", str(members), str(OFFERS)], folder)
    small, large = (peak(program, ["fill", str(count), "0"], folder) for count in (1, members))
    held = None if small is None or large is None or members < 10_000 else (large - small) * 1024 / members
    return 1e6 * (whole - filled) / OFFERS, 1e6 * (filled - empty) / members, held


def refreshed(program, members, folder):
    """The nanoseconds of a refresh for each point, where all are members, and where the other half is."""
    points = [(serial, (serial * 7919) % 100_003) for serial in range(1, members + 1)]
    offers = "".join(f"offer {serial} {value} 1\n" for serial, value in points)
    half = "retain " + " ".join(str(serial) for serial, _ in points[::2]) + "\n"
    refresh = "refresh " + " ".join(f"{serial} {value} 1" for serial, value in points) + "\n"
    given = pathlib.Path(folder) / "events"
    times = []
    for text in (offers, offers + refresh, offers + half, offers + half + refresh):
        given.write_text(text)
        times.append(spent(program, ["pool"], folder, given))
    return 1e9 * (times[1] - times[0]) / members, 1e9 * (times[3] - times[2]) / members


def main():
    program = built("command_bench")
    rows, fresh = [], []
    with tempfile.TemporaryDirectory() as folder:
        for members in MEMBERS:
            full, filling, held = offered(program, members, folder)
            memory = "-" if held is None else f"{held:.0f}"
            rows.append(f"| {members:,} | {full:.2f} | {filling:.2f} | {memory} |")
        for members in REFRESHED:
            same, half = refreshed(program, members, folder)
            fresh.append(f"| {members:,} | {same:,.0f} | {half:,.0f} |")
    text = f"""## The pool

Written by `bench/pool.py`, on {machine()}. Processor microseconds of an offer under Worst: into a pool that is full, where each offer is better than most members and drops the worst one, the mean of {OFFERS:,}; and while the pool fills. Bytes a member are the process's peak less that of a pool of one member. Each time is the least of {RUNS} runs.

| Members | Microseconds an offer, full | Microseconds an offer, filling | Bytes a member |
|---|---|---|---|
""" + "\n".join(rows) + """

An offer is found its place by halves, in the logarithm of the members; what grows with their number is moves in memory: of the keys behind that place in the list by value, 8 bytes each, and of the serials behind the one that a dropped member had, 4 bytes each.

Nanoseconds of a refresh for each point that it is told, its line's reading included: where all points are members, and where every second one is.

| Points | All are members | Half of them are |
|---|---|---|
""" + "\n".join(fresh) + """

A refresh finds each point's serial by halves, so a point that is a member costs the logarithm of the members. One that isn't costs an offer.
"""
    put("pool", text)
    print(text)


main()
