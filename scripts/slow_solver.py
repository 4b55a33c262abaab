"""A slow solver of model files, to compare the program with.

It reads a file by the slow readers, lowers it by the slow lowering, goes over every point of the closed box with exact
fractions, and says what has to be printed. It shares nothing with the proved program but the rules of docs/formats.md.
"""
import re
from fractions import Fraction
from itertools import product
from math import floor, prod

import compare_lowering as lowering
import slow_lp
from mps_files import read_mps

NUMBERS = {"syntax": 1, "wide numeral": 2, "duplicate name": 8, "unknown name": 9, "unsupported": 10}
SENSES = {"L": "le", "G": "ge", "E": "eq", "B": "in"}
KINDS = {"C": "con", "I": "int", "B": "bin", "continuous": "con", "integer": "int"}
COUNTED = {"Variables": "variables", "Rows": "rows", "Terms": "terms", "Indicators": "indicators", "Sos": "sos"}
NAMED = {"Continuous": "3 continuous", "OpenVariable": "4 open variable", "WideBound": "5 wide bound",
         "NegativeUpper": "11 negative upper"}
PLACED = {"WideRow": "6 wide row", "BadIndicator": "13 bad indicator", "BadSos": "14 bad sos"}
CEILING = 10 ** 36
MOST_POINTS = 10 ** 6
OPTIMA = (Fraction(0), None)


def value(word):
    """A value P/S of a slow reader as the slow lowering reads it."""
    if word in (".", "-"):
        return "-"
    if "/" not in word:
        return ("-" if word[0] == "-" else "") + "inf"
    top, places = word.split("/")
    return f"{top}e-{places}"


def lp_terms(words):
    """Terms VAR:VALUE."""
    return " ".join(f"{var} {value(number)}" for var, number in (word.split(":") for word in words))


def lp_row(words):
    """A row of the slow LP reader."""
    used = 3 if words[0] == "B" else 2
    return " ".join([SENSES[words[0]], *map(value, words[1:used]), lp_terms(words[used:])])


def lp_draft(text):
    """The names, and the lines of the draft, that the slow LP reader says."""
    names, lines = [], []
    for head, *words in (line.split(" ") for line in text.split("\n")):
        if head == "max":
            lines.append("max")
        elif head == "var":
            names.append(words[0])
            lines.append(" ".join(["var", KINDS[words[1]], value(words[2]), value(words[3])] + words[4:]).replace(" .", ""))
        elif head == "cost":
            lines.append(f"cost {lp_terms(words)}")
        elif head == "constants":
            lines += [f"add {value(word)}" for word in words]
        elif head == "row":
            lines.append(f"row {lp_row(words)}")
        elif head == "if":
            lines.append(f"if {words[0]} {words[1]} {lp_row(words[2:])}")
        elif head == "set":
            lines.append(f"set {words[0]} {lp_terms(words[1:])}")
    return names, lines


def mps_row(words):
    """A row of the slow MPS reader."""
    if words[0] == "ranged":
        sides, terms = [words[1].lower(), value(words[2]), value(words[3])], words[4:]
    else:
        sides, terms = [words[0], value(words[1])], words[2:]
    return " ".join(sides + [word if at % 2 == 0 else value(word) for at, word in enumerate(terms)])


def mps_draft(found):
    """The names, and the lines of the draft, that the slow MPS reader says."""
    names, lines = [], ["max"] if found[0] == "maximize" else []
    for head, *words in (line.split(" ") for line in found[1:]):
        if head == "var":
            names.append(words[0])
            lines.append(" ".join(["var", KINDS[words[1]], value(words[2]), value(words[3]), *words[4:]]))
        elif head == "cost":
            lines.append(f"cost {words[0]} {value(words[1])}")
        elif head == "constant":
            lines.append(f"add {value(words[0])}")
        elif head == "row":
            lines.append(f"row {mps_row(words)}")
        else:
            lines.append(f"if {words[0]} {words[1]} {mps_row(words[2:])}")
    return names, lines


def refusal(text, names):
    """The printed refusal of a lowering."""
    kind, number = re.fullmatch(r"(\w+?)(?:\((?:\w+\()?(\w+)\)*)?", text).groups()
    if kind == "TooMany":
        return f"refused 12 too many {COUNTED[number]}"
    if kind in NAMED:
        return f"refused {NAMED[kind]} {names[int(number)]}"
    return f"refused {PLACED[kind]} {int(number) + 1}" if kind in PLACED else "refused 7 wide objective"


def decimal(number):
    """An exact decimal without needless digits."""
    places = lowering.places(number)
    digits = str(abs(int(number * 10 ** places))).rjust(places + 1, "0")
    whole, rest = digits[:len(digits) - places], digits[len(digits) - places:]
    return ("-" if number < 0 else "") + whole + ("." + rest if rest else "")


def total(terms, point):
    """The sum of the terms at a point."""
    return sum((number * point[var] for var, number in terms), Fraction(0))


def row_holds(row, point):
    """Whether a row in whole units holds at the point."""
    terms, low, high = row
    reached = sum(number * point[var] for var, number in terms)
    return (low is None or low <= reached) and (high is None or reached <= high)


def set_holds(a_set, point):
    """Whether the set, in order of weight, allows the point."""
    kind, members = a_set
    places = [place for place, (var, _) in enumerate(sorted(members, key=lambda m: m[1])) if point[var] != 0]
    return len(places) <= 1 or (kind == "2" and len(places) == 2 and places[1] == places[0] + 1)


def box_of(draft):
    """The closed box, and the cores of the semi-integer variables."""
    stated = [lowering.stated_bounds(place, var) for place, var in enumerate(draft["vars"])]
    cores = {place: stated[place] for place, var in enumerate(draft["vars"]) if var[3]}
    stated = [lowering.widened(*b) if place in cores else b for place, b in enumerate(stated)]
    return lowering.close(stated, draft["rows"], cores), cores


def is_feasible(draft, cores, point):
    """Whether a point of the box is feasible."""
    return (all(point[var] == 0 or low <= point[var] <= high for var, (low, high) in cores.items())
            and all(row_holds(row, point) for row in draft["rows"])
            and all(point[var] != int(on) or row_holds(row, point) for var, on, row in draft["ifs"])
            and all(set_holds(a_set, point) for a_set in draft["sets"]))


def cut_of(best, scale, gaps):
    """The greatest objective that is listed, in whole units and minimised, where the best one is that."""
    absolute, relative = gaps
    parts = [CEILING]
    if absolute is not None:
        parts.append(best + floor(absolute * 10 ** scale))
    if relative is not None:
        parts.append(best + floor(relative * abs(best)))
    return min(parts)


def listed(draft, names, gaps):
    """The lines of the list of all points within the gaps of the optimum, best first and then in lexicographic order; None
    where there are too many points to go over."""
    box, cores = box_of(draft)
    if prod(max(0, high - low + 1) for low, high in box) > MOST_POINTS:
        return None
    found = [(sum(draft["constants"], total(draft["cost"], point)), point)
             for point in product(*(range(low, high + 1) for low, high in box)) if is_feasible(draft, cores, point)]
    if not found:
        return ["status done", "infeasible", "solutions 0"]
    scale = max(map(lowering.places, [number for _, number in draft["cost"]] + draft["constants"]), default=0)
    turn = -1 if draft["max"] else 1
    best = turn * (max if draft["max"] else min)(reached for reached, _ in found)
    cut = cut_of(int(best * 10 ** scale), scale, gaps)
    chosen = sorted((turn * reached, point) for reached, point in found if turn * reached * 10 ** scale <= cut)
    lines = ["status done", f"optimum {decimal(turn * best)}", f"solutions {len(chosen)}"]
    for reached, point in chosen:
        lines.append(" ".join([f"{decimal(turn * reached)} :"] + [f"{name} {at}" for name, at in zip(names, point) if at]))
    return lines


def read(name, data):
    """The names and the draft's lines of a file, or its printed refusal."""
    if name.lower().endswith(".lp"):
        found = slow_lp.read(data)
        if not found.startswith("refused "):
            return lp_draft(found)
        _, kind, line = found.split(" ")
        kind = re.sub(r"(?<!^)([A-Z])", r" \1", kind).lower()
    elif name.lower().endswith(".mps"):
        found = read_mps(data)
        if not isinstance(found, str):
            return mps_draft(found)
        kind, line = found.removeprefix("refused ").split(" line ")
    else:
        return "refused 41 bad argument"
    return f"refused {NUMBERS[kind]} {kind} line {line}"


def printed(name, data, gaps=OPTIMA):
    """The lines that the program has to print of a file, where the node limit doesn't stop it. The gaps are the absolute and
    the relative one, None where there is no limit."""
    found = read(name, data)
    if isinstance(found, str):
        return [found]
    names, lines = found
    try:
        lowering.lowered(lines)
    except lowering.Refused as reason:
        return [refusal(str(reason), names)]
    return listed(lowering.parsed(lines), names, gaps)
