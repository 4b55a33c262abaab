"""The families of models that the measurements of the search run on, as LP and OPB files and as data."""


class Binary:
    """A model of binaries: the objective is maximised or minimised, and each row is (coefficients by place, sign, side)."""

    def __init__(self, name, maximised, cost, rows):
        self.name, self.maximised, self.cost, self.rows = name, maximised, cost, rows
        self.count = len(cost)

    def lp(self):
        """The model as an LP file."""
        def added(terms):
            return " ".join(f"{'-' if a < 0 else '+'} {abs(a)} x{j + 1}" for j, a in terms) or "0 x1"
        lines = ["Maximize" if self.maximised else "Minimize", " obj: " + added([(j, c) for j, c in enumerate(self.cost) if c]),
                 "Subject To"]
        lines += [f" r{i + 1}: {added(terms)} {sign} {side}" for i, (terms, sign, side) in enumerate(self.rows)]
        return "\n".join([*lines, "Binaries", *(f" x{j + 1}" for j in range(self.count)), "End", ""])

    def opb(self, least):
        """The points whose minimised objective is at most `least`, as an OPB file without an objective."""
        def added(terms):
            return " ".join(f"{a:+d} x{j + 1}" for j, a in terms)
        rows = []
        for terms, sign, side in self.rows:
            if sign == "<=":
                rows.append(f"{added([(j, -a) for j, a in terms])} >= {-side} ;")
            else:
                rows.append(f"{added(terms)} {sign} {side} ;")
        turn = 1 if self.maximised else -1
        cost = [(j, turn * c) for j, c in enumerate(self.cost) if c]
        if cost:
            rows.append(f"{added(cost)} >= {-least} ;")
        return f"* #variable= {self.count} #constraint= {len(rows)}\n" + "\n".join(rows) + "\n"


def demo(count):
    """One knapsack of uneven gains and weights, half of which fit in."""
    weights = [(53 * j) % 97 + 1 for j in range(1, count + 1)]
    gains = [(37 * j) % 101 + 1 for j in range(1, count + 1)]
    return Binary(f"demo {count}", True, gains, [(list(enumerate(weights)), "<=", sum(weights) // 2)])


def queens(size):
    """As many queens as rows on a board of that size, none of which takes another; no objective."""
    def place(row, column):
        return row * size + column
    rows = [([(place(r, c), 1) for c in range(size)], "=", 1) for r in range(size)]
    rows += [([(place(r, c), 1) for r in range(size)], "=", 1) for c in range(size)]
    for step in range(-(size - 2), size - 1):
        rows.append(([(place(r, r + step), 1) for r in range(size) if 0 <= r + step < size], "<=", 1))
    for total in range(1, 2 * size - 2):
        rows.append(([(place(r, total - r), 1) for r in range(size) if 0 <= total - r < size], "<=", 1))
    return Binary(f"queens {size}", False, [0] * (size * size), rows)


def assignment(size):
    """All ways to give each worker one task; no objective."""
    rows = [([(w * size + t, 1) for t in range(size)], "=", 1) for w in range(size)]
    rows += [([(w * size + t, 1) for w in range(size)], "=", 1) for t in range(size)]
    return Binary(f"assignment {size} x {size}", False, [0] * (size * size), rows)


def free(count):
    """A box of binaries without rows and without an objective."""
    return Binary(f"{count} free binaries", False, [0] * count, [])


def halves():
    """31 binaries whose sum is maximised while twice their sum is at most 31."""
    return Binary("31 binaries, twice their sum at most 31", True, [1] * 31, [([(j, 2) for j in range(31)], "<=", 31)])
