"""A slow tokenizer of LP files, to compare the proved one with.

It shares nothing with the proved one but the rules: each token is found by trying every front of what is left, the longest
first, and a number's value is a fraction that is asked for its decimal places.
"""
import re
from fractions import Fraction

NAME = re.compile(rb"[A-Za-z!\"#$%&(),;?@_'`{}~][A-Za-z0-9!\"#$%&(),.;?@_'`{}~]*")
NUMBER = re.compile(rb"(?:[0-9]+|[0-9]+\.[0-9]*|\.[0-9]+)(?:[eE][+-]?[0-9]+)?")
SYMBOLS = set(b"+ - : :: < <= =< > >= => = -> <-> [ ] * ^ /".split())
BLANKS = b" \t\r\n"
LONGEST_NAME = 255
# A number below MOST has so many digits at most, and so many places are kept.
PLACES = 30
MOST = 10 ** 30
# An exponent beyond this decides alone whether a number is huge or has too many places, since files here are short.
FARTHEST = 10_000


def value_of(text):
    """The value of a numeral without sign, as 'P/S' for P over 10 to the S with the least S, as 'huge', or as 'wide'."""
    digits, _, power = text.decode("ascii").lower().partition("e")
    exponent = max(-FARTHEST, min(FARTHEST, int(power or "0")))
    value = Fraction(digits) * Fraction(10) ** exponent
    if value >= MOST:
        return "huge"
    for places in range(PLACES + 1):
        scaled = value * 10 ** places
        if scaled.denominator == 1:
            return f"{scaled.numerator}/{places}" if scaled < MOST else "wide"
    return "wide"


def longest(data):
    """The letter of the kind and the text of the longest token that the bytes begin with, or None without one."""
    for size in range(len(data), 0, -1):
        front = data[:size]
        if NAME.fullmatch(front):
            return "n", front
        if NUMBER.fullmatch(front):
            return "#", front
        if front in SYMBOLS:
            return "$", front
    return None


def behind_gap(data, place, line):
    """The place of the next token behind blanks and comments, and its line."""
    while place < len(data):
        if data[place] == ord("\\"):
            end = data.find(b"\n", place)
            place = len(data) if end < 0 else end
        elif data[place] in BLANKS:
            line += data[place] == ord("\n")
            place += 1
        else:
            break
    return place, line


def tokens(data):
    """The tokens as a list of texts, such as 'nx1@3', '#2.50=25/1@3' or '$<=@4', or the fault as one text.

    The list ends with the word 'end' in any case, where it is the first token of its line and no colon follows it there.
    """
    found, line_before = [], 0
    place, line = behind_gap(data, 0, 1)
    while place < len(data):
        hit = longest(data[place:])
        if hit is None:
            return f"fault BadByte line {line}"
        kind, text = hit
        if kind == "n" and len(text) > LONGEST_NAME:
            return f"fault LongName line {line}"
        value = value_of(text) if kind == "#" else None
        if value == "wide":
            return f"fault Wide line {line}"
        found.append(f"{kind}{text.decode('ascii')}{'=' + value if value else ''}@{line}")
        place += len(text)
        if text.lower() == b"end" and line_before < line and not data[place:].lstrip(b" \t\r").startswith(b":"):
            break
        line_before = line
        place, line = behind_gap(data, place, line)
    return found
