"""A slow reader of MPS files, to compare the proved one with.

It shares nothing with the proved one but the rules of docs/formats.md: it keeps names in dictionaries, fills rows and
columns as it goes, stops by an exception, and a number's value is a fraction (lp_tokens.value_of).
"""
import re

from lp_tokens import value_of

NUMBER = re.compile(rb"([+-]?)((?:[0-9]+\.?[0-9]*|\.[0-9]+)(?:[eE][+-]?[0-9]+)?)")
INFINITE = re.compile(rb"([+-]?)(?:inf|infinity)", re.IGNORECASE)
LONGEST_NAME = 255
LAST = [b"RHS", b"RANGES", b"BOUNDS", b"INDICATORS"]
BEFORE = {b"NAME": [], b"OBJSENSE": [], b"ROWS": [], b"COLUMNS": [b"ROWS"], b"ENDATA": [b"COLUMNS"],
          **{head: [b"COLUMNS"] for head in LAST}}
NOT_BEFORE = {b"NAME": [b"ROWS"], b"OBJSENSE": [b"ROWS"], b"ROWS": [b"COLUMNS"], b"COLUMNS": LAST}
DIRECTIONS = {b"MAX": True, b"MAXIMIZE": True, b"MIN": False, b"MINIMIZE": False}
VALUED = [b"UP", b"LO", b"FX", b"LI", b"UI", b"SC"]
VALUELESS = [b"FR", b"MI", b"PL", b"BV"]
ZERO = "0/0"


class Fault(Exception):
    """Why a line isn't of the format."""


def need(holds, kind):
    """Raises the fault unless this holds."""
    if not holds:
        raise Fault(kind)


def numeral(word):
    """The value of a word: 'P/S', '+huge' or '-huge'."""
    infinite = INFINITE.fullmatch(word)
    if infinite:
        return ("-" if infinite.group(1) == b"-" else "+") + "huge"
    number = NUMBER.fullmatch(word)
    need(number, "syntax")
    sign = "-" if number.group(1) == b"-" else ""
    value = value_of(number.group(2))
    need(value != "wide", "wide numeral")
    if value == "huge":
        return (sign or "+") + "huge"
    return value if value.startswith("0/") else sign + value


def exact(word):
    """The value of a word that may not be huge."""
    value = numeral(word)
    need(not value.endswith("huge"), "wide numeral")
    return value


def opposite(value):
    """Minus the value."""
    if value == ZERO:
        return value
    return value[1:] if value.startswith("-") else "-" + value


def name(word):
    """A name, which has at most so many bytes."""
    need(len(word) <= LONGEST_NAME, "syntax")
    return word


class File:
    """What was read of a file so far."""

    def __init__(self):
        self.section, self.seen = None, []
        self.maximize = None
        self.kinds, self.objective = {}, None
        self.columns, self.opened = {}, False
        self.entries = []                       # (row, column, value) in the order of the lines
        self.sides, self.ranges = {}, {}
        self.sets = {}
        self.bounds = []                        # (column, kind, value) in the order of the lines
        self.indicators = {}                    # row -> (column, on), in the order of the lines

    def head(self, words):
        """A section line."""
        word = words[0].upper()
        need(word in BEFORE, "unsupported")
        most = {b"NAME": len(words), b"OBJSENSE": 2}.get(word, 1)
        need(len(words) <= most, "syntax")
        need(word not in self.seen and all(w in self.seen for w in BEFORE[word]), "syntax")
        need(not any(w in self.seen for w in NOT_BEFORE.get(word, [])), "syntax")
        self.section = word
        self.seen.append(word)
        if word == b"OBJSENSE" and len(words) == 2:
            self.direction(words[1:])

    def direction(self, words):
        """A direction, behind OBJSENSE or on a data line of it."""
        need(len(words) == 1 and words[0].upper() in DIRECTIONS and self.maximize is None, "syntax")
        self.maximize = DIRECTIONS[words[0].upper()]

    def row(self, words):
        """A data line of ROWS."""
        need(len(words) == 2 and words[0].upper() in (b"N", b"L", b"G", b"E"), "syntax")
        need(name(words[1]) not in self.kinds, "duplicate name")
        self.kinds[words[1]] = words[0].upper()
        if words[0].upper() == b"N" and self.objective is None:
            self.objective = words[1]

    def declared_row(self, word):
        """A row that is declared."""
        need(name(word) in self.kinds, "unknown name")
        return word

    def declared_column(self, word):
        """A column that is declared."""
        need(name(word) in self.columns, "unknown name")
        return word

    def column(self, words):
        """A data line of COLUMNS."""
        if len(words) == 3 and words[1].upper() == b"'MARKER'":
            name(words[0])
            need(words[2].upper() == (b"'INTEND'" if self.opened else b"'INTORG'"), "syntax")
            self.opened = not self.opened
            return
        need(len(words) in (3, 5), "syntax")
        column = name(words[0])
        found = [(self.declared_row(words[at]), column, exact(words[at + 1])) for at in range(1, len(words), 2)]
        self.columns.setdefault(column, self.opened)
        self.entries += found

    def check_set(self, section, word):
        """A set, which is the first one of its section."""
        need(self.sets.get(section, name(word)) == word, "unsupported")

    def pairs(self, words, reads):
        """The rows and values of a line of RHS or RANGES."""
        need(2 <= len(words) <= 5, "syntax")
        named, words = (words[0], words[1:]) if len(words) % 2 else (b"", words)
        self.check_set(self.section, named)
        found = []
        for at in range(0, len(words), 2):
            row = self.declared_row(words[at])
            found.append((row, reads(row, words[at + 1])))
        self.sets[self.section] = named
        return found

    def side(self, words):
        """A data line of RHS."""
        self.sides.update(self.pairs(words, lambda row, word: (exact if row == self.objective else numeral)(word)))

    def range_of(self, words):
        """A data line of RANGES."""
        self.ranges.update(self.pairs(words, lambda _, word: exact(word)))

    def bound(self, words):
        """A data line of BOUNDS."""
        kind = words[0].upper()
        need(kind in VALUED + VALUELESS, "syntax")
        need(len(words) in ((3, 4) if kind in VALUED else (2, 3, 4)), "syntax")
        named = len(words) == 4 or (kind in VALUELESS and len(words) == 3)
        rest = words[2:] if named else words[1:]
        self.check_set(b"BOUNDS", words[1] if named else b"")
        column = self.declared_column(rest[0])
        value = numeral(rest[1]) if kind in VALUED else None
        self.sets[b"BOUNDS"] = words[1] if named else b""
        self.bounds.append((column, kind, value))

    def indicator(self, words):
        """A data line of INDICATORS."""
        need(len(words) == 4 and words[0].upper() == b"IF", "syntax")
        row = self.declared_row(words[1])
        need(self.kinds[row] != b"N", "syntax")
        need(row not in self.indicators, "duplicate name")
        column = self.declared_column(words[2])
        value = numeral(words[3])
        need(value in ("0/0", "1/0"), "syntax")
        self.indicators[row] = column, value == "1/0"

    def data(self, words):
        """A data line."""
        reads = {b"OBJSENSE": self.direction, b"ROWS": self.row, b"COLUMNS": self.column, b"RHS": self.side,
                 b"RANGES": self.range_of, b"BOUNDS": self.bound, b"INDICATORS": self.indicator}
        need(self.section in reads, "syntax")
        reads[self.section](words)

    def var(self, column):
        """What is stated of a column: whether it is integer, its bounds, and whether it is semi-integer."""
        stated = [(kind, value) for of, kind, value in self.bounds if of == column]
        integer, lower, upper, semi = self.columns[column], "-", "-", False
        if integer and not stated:
            lower, upper = ZERO, "1/0"
        for kind, value in stated:
            lower = {b"LO": value, b"FX": value, b"LI": value, b"FR": "-huge", b"MI": "-huge",
                     b"BV": ZERO}.get(kind, lower)
            upper = {b"UP": value, b"FX": value, b"UI": value, b"SC": value, b"FR": "+huge", b"PL": "+huge",
                     b"BV": "1/0"}.get(kind, upper)
            integer = integer or kind in (b"BV", b"LI", b"UI")
            semi = semi or kind == b"SC"
        return f"{'integer' if integer else 'continuous'} {lower} {upper}{' semi' if semi else ''}"

    def row_text(self, row, places):
        """What a row is held to, and its terms."""
        side = self.sides.get(row, ZERO)
        word = {b"L": "le", b"G": "ge", b"E": "eq"}[self.kinds[row]]
        text = f"{word} {side}"
        if row in self.ranges:
            text = f"ranged {self.kinds[row].decode()} {side} {self.ranges[row]}"
        return " ".join([text, *self.terms(row, places)])

    def terms(self, row, places):
        """The terms of a row, in the order of the lines."""
        return [f"{places[column]} {value}" for of, column, value in self.entries if of == row]

    def draft(self):
        """The draft, as reader_bench prints it."""
        places = {column: place for place, column in enumerate(self.columns)}
        found = ["maximize" if self.maximize else "minimize"]
        found += [f"var {column.decode('latin-1')} {self.var(column)}" for column in self.columns]
        found += [f"cost {term}" for term in self.terms(self.objective, places)]
        if self.objective in self.sides:
            found.append(f"constant {opposite(self.sides[self.objective])}")
        for row, kind in self.kinds.items():
            if kind != b"N" and row not in self.indicators:
                found.append("row " + self.row_text(row, places))
        for row, (column, on) in self.indicators.items():
            found.append(f"indicator {places[column]} {int(on)} {self.row_text(row, places)}")
        return found


def lines_of(data):
    """The lines of a file; a carriage return before a line feed is dropped."""
    lines = data.split(b"\n")
    last = lines.pop()
    lines = [line[:-1] if line.endswith(b"\r") else line for line in lines]
    return lines + [last] if last else lines


def read_mps(data):
    """The draft as a list of lines of text, or the refusal as one text."""
    file, number = File(), 0
    for number, line in enumerate(lines_of(data), 1):
        words = [word for word in re.split(rb"[ \t]+", line) if word]
        if not words or line.startswith(b"*"):
            continue
        try:
            if line[:1] in (b" ", b"\t"):
                file.data(words)
            else:
                file.head(words)
        except Fault as fault:
            return f"refused {fault} line {number}"
        if file.section == b"ENDATA":
            return file.draft()
    return f"refused syntax line {max(1, number)}"
