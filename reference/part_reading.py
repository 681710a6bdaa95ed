"""Which cores are compound, and their parts, as `docs/CORES.md` has them, with code of their own."""
import functools, math

from integers import Integer, boolean, fresh, opposite


def cost_of_order(steps):
    return 2 * max(0, steps - 1)


def cost_of_table(n, m):
    return 6 * (n + 1) * (m + 1)


def has_network(n, m):
    return n >= 1 and m >= 1 and n + m >= 3


@functools.lru_cache(None)
def cost_of_network(n, m, steps):
    """The cost of the network of n and m atoms for a sum of so many steps."""
    wires = n + m
    halves = cost_of_unit_sum((n + 1) // 2, (m + 1) // 2) + cost_of_unit_sum(n // 2, m // 2)
    equal = 3 * (wires + steps + 2) + 5 * (min(wires, steps) + 1) + cost_of_order(wires) + cost_of_order(steps)
    return halves + wires + 16 * ((wires - 1) // 2) + equal


@functools.lru_cache(None)
def cost_of_unit_sum(n, m):
    """The cost of a sum of n and m steps of weight 1, with n + m steps."""
    table = cost_of_table(n, m)
    least = min(table, cost_of_network(n, m, n + m)) if has_network(n, m) else table
    return cost_of_order(n) + cost_of_order(m) + cost_of_order(n + m) + least


def divisor(*ints):
    """The greatest common divisor of all weights."""
    return math.gcd(*(weight for a in ints for _, weight in a.steps))


def network_is_cheaper(a, b, c):
    if not a.steps or not b.steps:
        return False
    g = divisor(a, b)
    n, m = (a.high - a.low) // g, (b.high - b.low) // g
    return has_network(n, m) and cost_of_network(n, m, len(c.steps)) < cost_of_table(len(a.steps), len(b.steps))


def is_basic(core):
    form = core[0]
    if form == "Parity":
        return len(core[1]) <= 3
    if form == "Amo":
        return len(core[1]) <= 4
    if form == "Sum3":
        return not network_is_cheaper(*core[1:])
    return form not in ("Count", "Sum", "AllDiff", "Lex")


def sums(a, b):
    """The values of a fresh integer that stands for a sum."""
    g, span = divisor(a, b), a.high - a.low + b.high - b.low
    if g == 0:
        return [a.low + b.low]
    if (len(a.steps) + 1) * (len(b.steps) + 1) - 1 <= span // g:
        return sorted({v + w for v in a.values() for w in b.values()})
    return list(range(a.low + b.low, a.high + b.high + 1, g))


class Parts:
    """The parts of a compound core over the next variables."""

    def __init__(self, core, variable):
        self.variable, self.made = variable, []
        getattr(self, core[0])(*core[1:])

    def add(self, *core):
        self.made.append(core)

    def atom(self):
        self.variable += 1
        return self.variable

    def atoms(self, count):
        return [self.atom() for _ in range(count)]

    def integer(self, values):
        made = fresh(values, self.variable + 1)
        self.variable += len(made.steps)
        return made

    def Parity(self, ls, odd):
        t = self.atom()
        self.add("Parity", (*ls[:2], t), False)
        self.add("Parity", (*ls[2:], t), odd)

    def Amo(self, ls):
        t = self.atom()
        self.add("Amo", (*ls[:3], -t))
        self.add("Amo", (*ls[3:], t))

    def Count(self, ls, c):
        half = (len(ls) + 1) // 2
        counts = []
        for part in (ls[:half], ls[half:]):
            if len(part) < 2:
                counts.append(boolean(part[0]) if part else Integer(0))
                continue
            counts.append(self.integer(range(len(part) + 1)))
            self.add("Count", part, counts[-1])
        self.add("Sum3", *counts, c)

    def Sum(self, ints, k):
        if len(ints) <= 1:
            self.add("Sum3", *ints, *[Integer(0)] * (2 - len(ints)), Integer(k))
        elif len(ints) == 2:
            self.add("Sum3", ints[0], Integer(0), ints[1].negated().shifted(k))
        elif len(ints) == 3:
            self.add("Sum3", *ints[:2], ints[2].negated().shifted(k))
        else:
            z = self.integer(sums(*ints[:2]))
            self.add("Sum3", *ints[:2], z)
            self.add("Sum", (*ints[2:], z), k)

    def Sum3(self, a, b, c):
        g = divisor(a, b)
        first, second = ([atom for atom, weight in side.steps for _ in range(weight // g)] for side in (a, b))

        def unit(atoms):
            return Integer(0, tuple((atom, 1) for atom in atoms))

        odd, even = ([side[start::2] for side in (first, second)] for start in (0, 1))
        d = self.atoms(len(odd[0]) + len(odd[1]))
        e = self.atoms(len(even[0]) + len(even[1]))
        wires = len(first) + len(second)
        out = [d[0]]
        comparators = []
        for i in range((wires - 1) // 2):
            pair = self.atoms(2)
            comparators.append((d[i + 1], e[i], *pair))
            out += pair
        if wires % 2 == 0:
            out.append(e[-1] if len(first) % 2 == 0 else d[-1])
        self.add("Ladder", a)
        self.add("Ladder", b)
        self.add("Sum3", unit(odd[0]), unit(odd[1]), unit(d))
        self.add("Sum3", unit(even[0]), unit(even[1]), unit(e))
        for each in comparators:
            self.add("Comp", *each)
        self.add("EqR", "T", Integer(a.low + b.low, tuple((atom, g) for atom in out)), c)

    def AllDiff(self, ints, conditions):
        marks = [(v, i, self.atom()) for i, a in enumerate(ints) for v in a.values()]
        for a in ints:
            self.add("Ladder", a)
        for v, i, mark in marks:
            self.add("Conj", mark, (ints[i].at(v), opposite(ints[i].at(v + 1)), conditions[i]))
        values = sorted({v for v, _, _ in marks})
        each = [tuple(mark for v, _, mark in marks if v == value) for value in values]
        for same in each:
            self.add("Amo", same)
        if all(c == "T" for c in conditions) and len(values) == len(ints):
            for same in each:
                self.add("Clause", same)

    def Lex(self, r, strict, front, back):
        if not front:
            self.add("Clause", (opposite(r) if strict else r,))
        elif len(front) == 1:
            self.add("LeqR", *((opposite(r), back[0], front[0]) if strict else (r, front[0], back[0])))
        else:
            l, g, t, u = self.atoms(4)
            self.add("LeqR", l, front[0], back[0])
            self.add("LeqR", g, back[0], front[0])
            self.add("Lex", t, strict, front[1:], back[1:])
            self.add("Conj", -u, (g, -t))
            self.add("Conj", r, (l, u))
