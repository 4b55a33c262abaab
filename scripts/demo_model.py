"""Writes the knapsack of N items that measurements use: demo_model.py N > FILE.lp

Item j from 1 to N is worth (37 j mod 101) + 1 and weighs (53 j mod 97) + 1, and half of all weights, rounded down, may be
taken. examples/demo60.lp is the one of 60 items.
"""
import sys


def sum_of(numbers):
    """The numbers as a sum, a few terms to a line."""
    terms = [f"{number} x{place}" for place, number in enumerate(numbers, 1)]
    return "\n   ".join(" + ".join(terms[at:at + 8]) + (" +" if at + 8 < len(terms) else "") for at in range(0, len(terms), 8))


def demo_model(items):
    worth = [37 * item % 101 + 1 for item in range(1, items + 1)]
    weight = [53 * item % 97 + 1 for item in range(1, items + 1)]
    names = [f"x{item}" for item in range(1, items + 1)]
    binaries = "\n ".join(" ".join(names[at:at + 15]) for at in range(0, items, 15))
    return (f"\\ {items} items, of which those are taken that are worth most within half of all weights\n"
            f"Maximize\n worth: {sum_of(worth)}\nSubject To\n weight: {sum_of(weight)} <= {sum(weight) // 2}\n"
            f"Binaries\n {binaries}\nEnd\n")


if __name__ == "__main__":
    print(demo_model(int(sys.argv[1])), end="")
