"""A slow reader of LP files, to compare the proved one with.

It takes whole lists of tokens apart by trying every way, rule by rule, and finds the fault by trying for each front of the
list whether some completion is accepted. It shares nothing with the proved reader but the rules.
"""
from lp_tokens import tokens as cut

INFINITIES = {"inf", "infinity"}
MINIMIZE, MAXIMIZE = {"minimize", "minimum", "min"}, {"maximize", "maximum", "max"}
WORDS = {"st": "rows", "s.t.": "rows", "st.": "rows", "bounds": "bounds", "bound": "bounds", "general": "general",
         "generals": "general", "gen": "general", "integer": "general", "integers": "general", "int": "general",
         "binary": "binary", "binaries": "binary", "bin": "binary", "sos": "sos", "end": "end", "semi": "semi", "semis": "semi"}
PAIRS = {("subject", "to"): "rows", ("such", "that"): "rows", ("lazy", "constraints"): "rows", ("user", "cuts"): "cuts"}
LESS, GREATER = {"<", "<=", "=<"}, {">", ">=", "=>"}


class Token:
    """A token: its kind (n, #, $), text, value, line, and whether it is the first of its line."""

    def __init__(self, kind, text, value, line, first):
        self.kind, self.text, self.value, self.line, self.first = kind, text, value, line, first


def parse_tokens(found):
    """The tokens of the texts that the slow tokenizer makes."""
    result, before = [], 0
    for item in found:
        kind, rest = item[0], item[1:]
        rest, _, line = rest.rpartition("@")
        value = None
        if kind == "#":
            rest, _, value = rest.rpartition("=")
        line = int(line)
        result.append(Token(kind, rest, value, line, line > before))
        before = line
    return result


def is_sym(ts, i, text):
    return i < len(ts) and ts[i].kind == "$" and ts[i].text == text


def is_colon(ts, i):
    return is_sym(ts, i, ":") or is_sym(ts, i, "::")


def word(ts, i):
    return ts[i].text.lower() if i < len(ts) and ts[i].kind == "n" else None


def heading(ts, i):
    """The section whose word counts at the place, and the place behind it."""
    if i >= len(ts) or not ts[i].first or ts[i].kind != "n":
        return None
    text = word(ts, i)
    if i == 0:
        section = "min" if text in MINIMIZE else "max" if text in MAXIMIZE else None
        return (section, 1) if section and not is_colon(ts, 1) else None
    if text == "semi" and is_sym(ts, i + 1, "-") and not ts[i + 1].first and word(ts, i + 2) == "continuous" \
            and not ts[i + 2].first and not is_colon(ts, i + 3):
        return "semi", i + 3
    if text in WORDS:
        return None if is_colon(ts, i + 1) else (WORDS[text], i + 1)
    if i + 1 < len(ts) and not ts[i + 1].first and (text, word(ts, i + 1)) in PAIRS and not is_colon(ts, i + 2):
        return PAIRS[text, word(ts, i + 1)], i + 2
    return None


def name(ts, i):
    """A name at the place that is no infinity and no section word that counts."""
    if i < len(ts) and ts[i].kind == "n" and word(ts, i) not in INFINITIES and not heading(ts, i):
        return ts[i].text
    return None


def number(ts, i):
    """The value of the number or the infinity at the place."""
    if i < len(ts) and ts[i].kind == "#":
        return ts[i].value
    return "huge" if word(ts, i) in INFINITIES else None


def signs(ts, i):
    """Every way to take signs: the sign and the place behind."""
    sign = 1
    yield 0, sign, i
    count = 0
    while is_sym(ts, i, "+") or is_sym(ts, i, "-"):
        sign, i, count = sign * (-1 if ts[i].text == "-" else 1), i + 1, count + 1
        yield count, sign, i


def signed(sign, value):
    if value == "huge":
        return "-inf" if sign < 0 else "inf"
    digits = value.split("/")[0]
    return value if sign > 0 or digits == "0" else "-" + value


def values(ts, i):
    for _, sign, j in signs(ts, i):
        if number(ts, j) is not None:
            yield signed(sign, number(ts, j)), j + 1


def relations(ts, i):
    if i < len(ts) and ts[i].kind == "$":
        for sense, texts in (("L", LESS), ("G", GREATER), ("E", {"="})):
            if ts[i].text in texts:
                yield sense, i + 1


def items(ts, i, constants):
    """Every way to take an item: how many signs, the item and the place behind."""
    for count, sign, j in signs(ts, i):
        if name(ts, j) is not None:
            yield count, ("t", name(ts, j), signed(sign, "1/0")), j + 1
        value = number(ts, j)
        if value not in (None, "huge"):
            if name(ts, j + 1) is not None:
                yield count, ("t", name(ts, j + 1), signed(sign, value)), j + 2
            elif constants:
                yield count, ("c", signed(sign, value)), j + 1


def sums(ts, i, constants, first=True):
    """Every sum: its items and the place behind, at which no sign stands."""
    for count, item, j in items(ts, i, constants):
        if not first and count == 0:
            continue
        if is_sym(ts, j, "+") or is_sym(ts, j, "-"):
            for more, k in sums(ts, j, constants, False):
                yield [item] + more, k
        else:
            yield [item], j


def labels(ts, i):
    yield None, i
    if name(ts, i) is not None and is_sym(ts, i + 1, ":"):
        yield name(ts, i), i + 2


def mirrored(sense):
    return {"L": "G", "G": "L", "E": "E"}[sense]


def rows(ts, i):
    """Every row at the place: its name, its kind with its parts, and the place behind."""
    for label, j in labels(ts, i):
        for items_, k in sums(ts, j, False):
            for sense, m in relations(ts, k):
                for value, n in values(ts, m):
                    yield label, ("row", items_, sense + " " + value), n
        for left, k in values(ts, j):
            for sense, m in relations(ts, k):
                for items_, n in sums(ts, m, False):
                    yield label, ("row", items_, mirrored(sense) + " " + left), n
                    for other, p in relations(ts, n):
                        if other == sense and sense != "E":
                            for right, q in values(ts, p):
                                low, high = (left, right) if sense == "L" else (right, left)
                                yield label, ("row", items_, "B " + low + " " + high), q
        if name(ts, j) is not None and is_sym(ts, j + 1, "=") and number(ts, j + 2) in ("0/0", "1/0") and is_sym(ts, j + 3, "->"):
            for items_, k in sums(ts, j + 4, False):
                for sense, m in relations(ts, k):
                    for value, n in values(ts, m):
                        yield label, ("if", name(ts, j), number(ts, j + 2) == "1/0", items_, sense + " " + value), n


def bounds(ts, i):
    """Every bound at the place: what it does to its variable, and the place behind."""
    variable = name(ts, i)
    if variable is not None:
        for sense, j in relations(ts, i + 1):
            for value, k in values(ts, j):
                yield variable, [(sense, value)], k
        if word(ts, i + 1) == "free":
            yield variable, [("G", "-inf"), ("L", "inf")], i + 2
    for left, j in values(ts, i):
        for sense, k in relations(ts, j):
            variable = name(ts, k)
            if variable is not None:
                yield variable, [(mirrored(sense), left)], k + 1
                for other, m in relations(ts, k + 1):
                    if other == sense and sense != "E":
                        for right, n in values(ts, m):
                            yield variable, [(mirrored(sense), left), (sense, right)], n


class Draft:
    """What a file means, in the order of the file."""

    def __init__(self, maximize):
        self.maximize, self.names, self.kinds, self.bounds = maximize, [], {}, {}
        self.cost, self.constants, self.rows, self.indicators, self.sets = [], [], [], [], []

    def declare(self, text):
        if text not in self.kinds:
            self.names.append(text)
            self.kinds[text] = ["C", False]
            self.bounds[text] = [None, None]
        return self.names.index(text)

    def terms(self, items_):
        return [(self.declare(item[1]), item[2]) for item in items_ if item[0] == "t"]

    def text(self):
        """The draft as lines of text."""
        lines = ["max" if self.maximize else "min"]
        for text in self.names:
            kind, semi = self.kinds[text]
            low, high = self.bounds[text]
            lines.append(f"var {text} {kind} {low or '.'} {high or '.'} {'semi' if semi else '.'}")
        show = lambda terms: "".join(f" {var}:{value}" for var, value in terms)
        lines.append("cost" + show(self.cost))
        lines.append("constants" + "".join(" " + value for value in self.constants))
        lines += [f"row {sides}" + show(terms) for terms, sides in self.rows]
        lines += [f"if {var} {int(on)} {sides}" + show(terms) for var, on, terms, sides in self.indicators]
        lines += [f"set {kind}" + show(members) for kind, members in self.sets]
        return "\n".join(lines)


def entries(ts, i, section, fresh, opened):
    """Every list of entries up to the end of the tokens."""
    found = heading(ts, i)
    if found:
        if found[0] == "end":
            if found[1] == len(ts):
                yield []
        elif found[0] in ("rows", "bounds", "general", "binary", "semi", "sos"):
            for more in entries(ts, found[1], found[0], True, False):
                yield [("turn",)] + more
        return
    if i >= len(ts):
        return
    if section == "rows" and (fresh or ts[i].first):
        for label, row, j in rows(ts, i):
            for more in entries(ts, j, section, False, False):
                yield [("row", label, row)] + more
    if section == "bounds" and (fresh or ts[i].first):
        for variable, sides, j in bounds(ts, i):
            for more in entries(ts, j, section, False, False):
                yield [("bound", variable, sides)] + more
    if section in ("general", "binary", "semi") and name(ts, i) is not None:
        for more in entries(ts, i + 1, section, False, False):
            yield [("list", section, name(ts, i))] + more
    if section == "sos":
        for label, j in labels(ts, i):
            if name(ts, j) is not None and word(ts, j) in ("s1", "s2") and is_sym(ts, j + 1, "::"):
                for more in entries(ts, j + 2, section, False, True):
                    yield [("set", label, word(ts, j))] + more
        if opened and name(ts, i) is not None and is_sym(ts, i + 1, ":"):
            for _, sign, j in signs(ts, i + 2):
                if number(ts, j) not in (None, "huge"):
                    for more in entries(ts, j + 1, section, False, True):
                        yield [("member", name(ts, i), signed(sign, number(ts, j)))] + more


def files(ts):
    """Every file that the tokens are: direction, objective's items and entries."""
    found = heading(ts, 0)
    if not found or found[0] not in ("min", "max"):
        return
    for _, i in labels(ts, found[1]):
        for more in entries(ts, i, "objective", True, False):
            yield found[0] == "max", [], more
        for items_, j in sums(ts, i, True):
            for more in entries(ts, j, "objective", False, False):
                yield found[0] == "max", items_, more


def meaning(maximize, items_, more):
    """The draft, or None where a name comes twice."""
    draft = Draft(maximize)
    row_names, set_names = set(), set()
    draft.cost = draft.terms(items_)
    draft.constants = [item[1] for item in items_ if item[0] == "c"]
    for entry in more:
        if entry[0] == "row":
            if entry[1] is not None:
                if entry[1] in row_names:
                    return None
                row_names.add(entry[1])
            if entry[2][0] == "row":
                draft.rows.append((draft.terms(entry[2][1]), entry[2][2]))
            else:
                var = draft.declare(entry[2][1])
                draft.indicators.append((var, entry[2][2], draft.terms(entry[2][3]), entry[2][4]))
        elif entry[0] == "bound":
            draft.declare(entry[1])
            for sense, value in entry[2]:
                if sense in "GE":
                    draft.bounds[entry[1]][0] = value
                if sense in "LE":
                    draft.bounds[entry[1]][1] = value
        elif entry[0] == "list":
            draft.declare(entry[2])
            if entry[1] == "general" and draft.kinds[entry[2]][0] != "B":
                draft.kinds[entry[2]][0] = "I"
            if entry[1] == "binary":
                draft.kinds[entry[2]][0] = "B"
            if entry[1] == "semi":
                draft.kinds[entry[2]][1] = True
        elif entry[0] == "set":
            if entry[1] is not None:
                if entry[1] in set_names:
                    return None
                set_names.add(entry[1])
            draft.sets.append((entry[2][1], []))
        elif entry[0] == "member":
            draft.sets[-1][1].append((draft.declare(entry[1]), entry[2]))
    return draft


def drafts(ts):
    return [draft.text() for draft in (meaning(*file) for file in files(ts)) if draft]


TAILS = ["", "@end", "min @end", "@x @end", "1 @end", "x >= 1 @end", ">= 1 @end", ">= x @end", "1 >= x @end", ": 1 @end", ": S1 :: @end",
         ":: @end", "S1 :: @end", "to @end", "that @end", "constraints @end", "continuous @end", ": x >= 1 @end", ": @end",
         "@x >= 1 @end", ": x @end", ":: x : 1 @end"]


def tail_tokens(ts, tail):
    line = ts[-1].line if ts else 1
    result = []
    for piece in tail.split():
        first = piece.startswith("@") or (not ts and not result)
        text = piece.lstrip("@")
        if piece.startswith("@"):
            line += 1
        kind = "#" if text == "1" else "$" if not text[0].isalpha() else "n"
        result.append(Token(kind, text, "1/0" if kind == "#" else None, line, first))
    return result


def goes_on(ts):
    """Whether some accepted list begins with the tokens."""
    return any(drafts(ts + tail_tokens(ts, tail)) for tail in TAILS)


def replaced(token, kind, text, value=None):
    return Token(kind, text, value, token.line, token.first)


def section_of(ts, i):
    """The section in which the token stands, and where its word ends."""
    section, end, k = None, 0, 0
    while k < i:
        found = heading(ts, k)
        if found and found[1] <= i:
            section, end = found
            k = found[1]
        else:
            k += 1
    return section, end


def names_before(ts, i, section):
    """The names that rows, or sets, have among the tokens before the place."""
    result = set()
    for k in range(i - 1):
        if ts[k].kind == "n" and is_sym(ts, k + 1, ":") and section_of(ts, k)[0] == section:
            if section == "rows" or word(ts, k + 2) in ("s1", "s2") and k + 2 < i:
                result.add(ts[k].text)
    return result


def kind_of(ts, i):
    """The kind and the line of the fault at the place."""
    token = ts[i]
    section, end = section_of(ts, i)
    one = lambda k: replaced(ts[k], "#", "1", "1/0")
    cuts = any(heading(ts, k) and heading(ts, k)[0] == "cuts" for k in (i - 1, i) if k >= 0)
    if token.text in ("[", "<->") and token.kind == "$" or cuts:
        return "Unsupported", token.line
    if name(ts, i) is not None and i > 0 and number(ts, i - 1) == "huge":
        if goes_on(ts[:i - 1] + [one(i - 1), replaced(token, "n", "zz")]):
            return "WideNumeral", ts[i - 1].line
    if number(ts, i) == "huge":
        if section in ("min", "max", "sos"):
            wide = goes_on(ts[:i] + [one(i)])
        else:
            wide = name(ts, i + 1) is not None and goes_on(ts[:i] + [one(i)])
        if wide:
            return "WideNumeral", token.line
    if section == "rows" and is_sym(ts, i, ":") and ts[i - 1].kind == "n" and ts[i - 1].text in names_before(ts, i - 1, "rows") \
            and goes_on(ts[:i]) and (i - 1 == end or ts[i - 1].first) and goes_on(ts[:i - 1] + [replaced(ts[i - 1], "n", "zz"), token]):
        return "DuplicateName", token.line
    if section == "sos":
        taken = names_before(ts, i, "sos")
        if i == end and name(ts, i) in taken:
            return "DuplicateName", token.line
        if i == end + 1 and is_sym(ts, i, ":") and ts[i - 1].kind == "n" and ts[i - 1].text in taken:
            return "DuplicateName", token.line
        if word(ts, i) in ("s1", "s2") and is_sym(ts, i - 1, ":") and ts[i - 2].kind == "n" and ts[i - 2].text in taken and i - 2 >= end:
            if goes_on(ts[:i - 2] + [replaced(ts[i - 2], "n", "zz"), ts[i - 1], token]):
                return "DuplicateName", token.line
    return "Syntax", token.line


def read(data):
    """The draft of the bytes as text, or the refusal."""
    found = cut(data)
    if isinstance(found, str):
        kind, line = found.split()[1], found.split()[-1]
        return f"refused {'WideNumeral' if kind == 'Wide' else 'Syntax'} {line}"
    ts = parse_tokens(found)
    answers = drafts(ts)
    if answers:
        assert len(set(answers)) == 1, answers
        return answers[0]
    low, high = 0, len(ts)
    if goes_on(ts):
        return f"refused Syntax {ts[-1].line if ts else 1}"
    while high - low > 1:
        middle = (low + high) // 2
        low, high = (middle, high) if goes_on(ts[:middle]) else (low, middle)
    kind, line = kind_of(ts, low)
    return f"refused {kind} {line}"
