"""What a line of a session says, slowly: a reference for scripts/compare_commands.py.

Everything is read from the whole line by regular expressions and exact fractions; nothing is shared with the program.
"""
import fractions
import re

NUMERAL = re.compile(rb"[+-]?(?:(\d+)(?:\.(\d*))?|\.(\d+))(?:[eE]([+-]?\d+))?\Z")
INFINITE = re.compile(rb"([+-]?)(?:inf|infinity)\Z", re.IGNORECASE)
MOST = 2100000000


class Bad(Exception):
    """A word isn't what it should be."""


def numeral(word):
    """A number with its least places as (digits, places), 'huge' with a sign, or None where the word is no numeral."""
    found = INFINITE.match(word)
    if found:
        return ("huge", found.group(1) == b"-")
    found = NUMERAL.match(word)
    if not found:
        return None
    whole, part, lone, exponent = found.groups()
    part = part if part is not None else (lone or b"")
    digits = (whole or b"") + part
    power = int(exponent or b"0") - len(part)
    negative = word.startswith(b"-")
    value = int(digits)
    if value == 0:
        return (0, 0)
    if len(str(value)) + power > 30:
        return ("huge", negative)
    if power < -5000:
        return "wide"
    exact = fractions.Fraction(value) * fractions.Fraction(10) ** power
    for places in range(31):
        scaled = exact * 10 ** places
        if scaled.denominator == 1:
            if scaled.numerator >= 10 ** 30:
                return "wide"
            return (-scaled.numerator if negative else scaled.numerator, places)
    return "wide"


def value(number):
    return fractions.Fraction(number[0], 10 ** number[1])


def is_exact(number):
    return isinstance(number, tuple) and number[0] != "huge"


def whole(word, least, most):
    if not re.fullmatch(rb"\d+", word):
        raise Bad
    number = int(word)
    if not least <= number <= most:
        raise Bad
    return number


def gap(word):
    number = numeral(word)
    if number is None or number == "wide":
        raise Bad
    if number[0] == "huge":
        if number[1]:
            raise Bad
        return "unlimited"
    if number[0] < 0:
        raise Bad
    if value(number) >= 10 ** 20:
        return "unlimited"
    if number[0] >= 10 ** 12 or number[1] > 12:
        raise Bad
    return f"{number[0]}/{number[1]}"


def bound(word, lower):
    number = numeral(word)
    if number is None or number == "wide":
        raise Bad
    if number[0] == "huge":
        if number[1] != lower:
            raise Bad
        return "none"
    if (lower and value(number) <= -10 ** 20) or (not lower and value(number) >= 10 ** 20):
        return "none"
    return f"{number[0]}/{number[1]}"


def name_of_filter(word):
    if len(word) > 255:
        raise Bad
    return word


def expression(words):
    """The terms up to the comparison, by one regular expression over the kinds of words."""
    kinds = "".join("s" if w in (b"+", b"-") else "<" if w == b"<=" else "#" if numeral(w) is not None else "n" for w in words)
    found = re.match(r"((?:s?#?n)(?:s#?n)*)<", kinds)
    if not found:
        raise Bad
    terms, sign, coefficient = [], 1, None
    for word, kind in zip(words, found.group(1)):
        if kind == "s":
            sign = -1 if word == b"-" else 1
        elif kind == "#":
            coefficient = numeral(word)
            if word[:1] in (b"+", b"-") or not is_exact(coefficient):
                raise Bad
        else:
            digits, places = coefficient if coefficient is not None else (1, 0)
            terms.append(word + f"*{sign * digits}/{places}".encode())
            sign, coefficient = 1, None
    return terms, words[len(found.group(1)) + 1:]


def distance(word):
    parts = word.rsplit(b":", 2)
    if len(parts) != 3 or not parts[0]:
        raise Bad
    weight = numeral(parts[1])
    if weight is None or not is_exact(weight):
        raise Bad
    if not re.fullmatch(rb"-?\d+", parts[2]) or abs(int(parts[2])) > 10 ** 15:
        raise Bad
    return parts[0] + f"*{weight[0]}/{weight[1]}@{int(parts[2])}".encode()


def setting(words):
    if len(words) != 4 or words[0].lower() != b"mip":
        raise Bad
    group, key, word = words[1].lower(), words[2].lower(), words[3]
    if group == b"pool" and key in (b"absgap", b"relgap"):
        return key + b" " + gap(word).encode()
    if group == b"pool" and key == b"capacity":
        return b"capacity %d" % whole(word, 0, MOST)
    if group == b"pool" and key == b"intensity":
        return b"intensity %d" % whole(word, 0, 4)
    if group == b"pool" and key == b"replace":
        return b"replace " + (b"fifo", b"worst")[whole(word, 0, 1)]
    if group == b"limits" and key == b"populate":
        return b"limit populate %d" % whole(word, 1, MOST)
    if group == b"limits" and key == b"nodes":
        return b"limit nodes %d" % whole(word, 1, 200000)
    raise Bad


def filters(words):
    kind = words[0].lower() if words else b""
    if kind == b"delete" and len(words) == 2:
        return b"delete " + name_of_filter(words[1])
    if kind == b"range" and len(words) >= 4 and words[3] == b"<=":
        name, low = name_of_filter(words[1]), bound(words[2], True)
        terms, rest = expression(words[4:])
        if len(rest) != 1:
            raise Bad
        return b"range " + name + f" {low} {bound(rest[0], False)} ".encode() + b" ".join(terms)
    if kind == b"diversity" and len(words) >= 5:
        name, low, high = name_of_filter(words[1]), bound(words[2], True), bound(words[3], False)
        return b"diversity " + name + f" {low} {high} ".encode() + b" ".join(distance(word) for word in words[4:])
    raise Bad


def arguments(verb, words):
    if verb in (b"optimize", b"populate", b"quit"):
        if words:
            raise Bad
        return verb
    if verb == b"set":
        return setting(words)
    if verb == b"filter":
        return filters(words)
    if verb == b"write":
        if len(words) != 2 or words[0].lower() != b"tree":
            raise Bad
        return b"write " + words[1]
    if len(words) != 1:
        raise Bad
    word = words[0]
    if verb == b"read":
        if not word.lower().endswith((b".lp", b".mps")):
            raise Bad
        return b"read " + word
    if verb == b"nbest":
        return b"nbest %d" % whole(word, 1, MOST)
    if word.lower() not in (b"found", b"pool", b"settings", b"model", b"filters"):
        raise Bad
    return b"display " + word.lower()


VERBS = (b"read", b"optimize", b"populate", b"nbest", b"set", b"filter", b"display", b"write", b"quit")


def said_by(line):
    """What the program prints of the line."""
    if len(line) > 4096:
        return b"long line"
    words = [word for word in re.split(rb"[ \t]", line) if word]
    if not words:
        return b"blank"
    verb = words[0].lower()
    if verb not in VERBS:
        return b"unknown command"
    try:
        return arguments(verb, words[1:])
    except Bad:
        return b"bad argument"
