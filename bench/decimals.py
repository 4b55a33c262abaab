#!/usr/bin/env python3
"""Measures what it takes to read and to print a number of ten digits, beside Rust's `str::parse::<f64>` and
`i128::to_string`, and writes its part of docs/performance.md.

usage: bench/decimals.py     after 'rt run' in crates/reader_bench; needs rustc, and builds bench/decimal_bench.rs alone
"""
import struct
import sys
import tempfile

from tables import best, built, machine, put, rust_program

TEXTS = ["1234567890", "9.876543210", "31415.92654", "2718281828", "57721566.49", "1414213562", "161803398.9",
         "6931471806"]
NUMBERS = [1234567890, -9876543210, 3141592654, -2718281828, 5772156649, -1414213562, 1618033989, -6931471806]
# the two numbers of rounds; each is a multiple of 40, since the numbers repeat after 8 rounds and their places after 10
FEW, MANY = 4_000_000, 24_000_000


def digits_and_places(text):
    """The number of a text without sign and exponent, with the fewest places: its digits as a number, and its places."""
    whole, _, fraction = text.partition(".")
    fraction = fraction.rstrip("0")
    return int(whole + fraction), len(fraction)


def printed(number, places):
    """The number over a power of ten, with as few places as it has."""
    sign, digits = "-" * (number < 0), str(abs(number)).rjust(places + 1, "0")
    whole, fraction = digits[:len(digits) - places], digits[len(digits) - places:].rstrip("0")
    return sign + whole + "." * bool(fraction) + fraction


def weight(text):
    """What a printed text adds to a checksum: its length and the byte in its middle."""
    return len(text) + ord(text[len(text) // 2])


def expected(question, rounds):
    """The checksums of the proved program and of the other one."""
    if question == "read":
        sums = [sum(map(sum, map(digits_and_places, TEXTS))) * 5,
                sum(struct.unpack("<Q", struct.pack("<d", float(text)))[0] for text in TEXTS) * 5]
    else:
        sums = [sum(weight(printed(NUMBERS[i % 8], i % 10)) for i in range(40)),
                sum(weight(str(number)) for number in NUMBERS) * 5]
    modulus = [2 ** 128 if question == "read" else 2 ** 64, 2 ** 64]
    return [b"checksum %d\n" % (each * (rounds // 40) % m) for each, m in zip(sums, modulus)]


def each_number(program, question, which, folder):
    """Nanoseconds a number, by the difference of two numbers of rounds."""
    seconds = []
    for rounds in (FEW, MANY):
        least, text = best(program, [question, str(rounds)], folder)
        if text != expected(question, rounds)[which]:
            sys.exit(f"{question} {rounds}: {program.name} prints {text} and not {expected(question, rounds)[which]}")
        seconds.append(least)
    return (seconds[1] - seconds[0]) / (MANY - FEW) * 1e9


def main():
    proved = built("reader_bench")
    with tempfile.TemporaryDirectory() as folder:
        plain, rust = rust_program("decimal_bench", folder)
        table = []
        for question, call, other in [("read", "`Numeral::read`", "`str::parse::<f64>`"),
                                      ("print", "`print`", "`i128::to_string`")]:
            here = each_number(proved, question, 0, folder)
            there = each_number(plain, question, 1, folder)
            table.append(f"| {call} | {here:.1f} | {other} | {there:.1f} | {here / there:.2f} |")
    text = f"""## A number

Written by `bench/decimals.py`, on {machine()}. Nanoseconds for each of {MANY - FEW:,} numbers of
ten digits: the difference between runs of two numbers of rounds, each the least of three. Half of the texts that are read
have a point; what is printed has from 0 to 9 decimal places. Beside it what Rust has ({rust}, `-O`): a float is
rounded, and `to_string` makes a whole number's text in memory of its own.

| Call | ns a number, proved | In Rust | ns a number, Rust | Proved over Rust |
|---|---|---|---|---|
""" + "\n".join(table) + """

Both calls take no memory, and both grow with the length of the text alone.
"""
    put("decimal", text)
    print(text)


if __name__ == "__main__":
    main()
