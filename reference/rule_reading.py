"""The equations that the rules of `docs/CORES.md` state of a core, with code of their own: pairs of atoms, in either
order. A core is trimmed."""
import collections, functools

from core_reading import integers, meets, variables
from integers import opposite

# The table rule looks at cores of at most so many variables.
MOST = 8


def constant(a):
    return not a.steps


def floor(a, b):
    return a // b


def ceiling(a, b):
    return -(-a // b)


def order(core):
    for a in integers(core):
        for (p, _), (q, _) in zip(a.steps, a.steps[1:]):
            if q == "T":
                yield p, "T"
            if p == "F":
                yield q, "F"
            if q == opposite(p):
                yield p, "T"


def of_clause(ls):
    if not ls:
        yield "T", "F"
    if len(ls) == 1:
        yield ls[0], "T"


def of_parity(ls, odd):
    if not ls and odd:
        yield "T", "F"
    if len(ls) == 1:
        yield ls[0], "T" if odd else "F"
    if len(ls) == 2:
        yield ls[0], opposite(ls[1]) if odd else ls[1]


def of_conj(r, ls):
    if not ls:
        yield r, "T"
    if len(ls) == 1:
        yield r, ls[0]
    if r == "T":
        for l in ls:
            yield l, "T"


def of_amo(ls):
    for i, l in enumerate(ls):
        if l == "T":
            for m in ls[:i] + ls[i + 1 :]:
                yield m, "F"


def of_leq(r, a, b):
    if r == "T":
        yield a.at(b.high + 1), "F"
        yield b.at(a.low), "T"
    if r == "F":
        yield a.at(b.low + 1), "T"
        yield b.at(a.high), "F"
    if a.high <= b.low:
        yield r, "T"
    if a.low > b.high:
        yield r, "F"
    if constant(a):
        yield r, b.at(a.low)
    if constant(b):
        yield r, opposite(a.at(b.low + 1))


def of_eq(r, a, b):
    if r == "T":
        for v in a.values() + b.values():
            yield a.at(v), b.at(v)
    if a.high < b.low or b.high < a.low:
        yield r, "F"
    if a == b:
        yield r, "T"
    for one, d in ((a, b), (b, a)):
        if not constant(one):
            continue
        v = one.low
        if r == "F":
            yield d.at(v), d.at(v + 1)
        if v not in d.values():
            yield r, "F"
        if v == d.low:
            yield r, opposite(d.at(v + 1))
        if v == d.high:
            yield r, d.at(v)


def of_sum3(a, b, c):
    yield c.at(a.low + b.low), "T"
    yield c.at(a.high + b.high + 1), "F"
    for one, other in ((a, b), (b, a)):
        yield one.at(c.low - other.high), "T"
        yield one.at(c.high - other.low + 1), "F"
        if constant(one):
            for v in other.values() + [w - one.low for w in c.values()]:
                yield other.at(v), c.at(v + one.low)
    if constant(c):
        for v in a.values() + [c.low - w for w in b.values()]:
            yield a.at(v), opposite(b.at(c.low - v + 1))


def of_count(ls, c):
    yield c.at(0), "T"
    yield c.at(len(ls) + 1), "F"
    for l in ls:
        if c.low == len(ls):
            yield l, "T"
        if c.high == 0:
            yield l, "F"


def of_sum(ints, k):
    if not ints and k != 0:
        yield "T", "F"
    low, high = sum(a.low for a in ints), sum(a.high for a in ints)
    for a in ints:
        yield a.at(k - (high - a.high)), "T"
        yield a.at(k - (low - a.low) + 1), "F"


def of_max(ints, c):
    tops = sorted(a.high for a in ints)
    for a in ints:
        yield c.at(a.low), "T"
        yield a.at(c.high + 1), "F"
    yield c.at(tops[-1] + 1), "F"
    for v in c.values():
        if v > tops[-1]:
            yield c.at(v), "F"
    if tops[-2:-1] == tops[-1:]:
        return
    for a in ints:
        if a.high == tops[-1]:
            for v in c.values() + a.values():
                if all(v > top for top in tops[:-1]):
                    yield c.at(v), a.at(v)


def of_prod(a, b, c):
    ends = [x * y for x in (a.low, a.high) for y in (b.low, b.high)]
    yield c.at(min(ends)), "T"
    yield c.at(max(ends) + 1), "F"
    for one, other in ((a, b), (b, a)):
        if one.low >= 0 and other.low >= 1 and c.low >= 0:
            yield one.at(ceiling(c.low, other.high)), "T"
            yield one.at(floor(c.high, other.low) + 1), "F"
        if constant(one) and one.low > 0:
            for v in other.values():
                yield c.at(one.low * v), other.at(v)
            for w in c.values():
                yield c.at(w), other.at(ceiling(w, one.low))
        if constant(one) and one.low < 0:
            for v in other.values():
                yield c.at(one.low * v), opposite(other.at(v + 1))
            for w in c.values():
                yield c.at(w), opposite(other.at(1 + floor(w, one.low)))


def of_div_mod(a, b, q, r):
    yield q.at(floor(a.low, b.high)), "T"
    yield q.at(floor(a.high, b.low) + 1), "F"
    yield r.at(0), "T"
    yield r.at(b.high), "F"
    yield r.at(a.high + 1), "F"
    if q.low >= 0 and r.low >= 0:
        yield a.at(q.low * b.low + r.low), "T"
        yield a.at(q.high * b.high + r.high + 1), "F"


def of_all_diff(ints, conditions):
    sure = [a for a, condition in zip(ints, conditions) if condition == "T"]
    places = collections.Counter(v for a in ints for v in a.values())
    if len(sure) == len(ints):
        if len(places) < len(ints):
            yield "T", "F"
        if len(places) == len(ints):
            for a in ints:
                for v in a.values():
                    if places[v] == 1:
                        yield a.at(v), "T"
                        yield a.at(v + 1), "F"
    for i, a in enumerate(ints):
        if conditions[i] != "T":
            continue
        for j, b in enumerate(ints):
            if i == j:
                continue
            if constant(a) and conditions[j] == "T":
                yield b.at(a.low), b.at(a.low + 1)
            if constant(a) and a == b:
                yield conditions[j], "F"
            if conditions[j] == "T" and len(a.steps) == len(b.steps) == 1 and a.values() == b.values():
                yield a.steps[0][0], opposite(b.steps[0][0])
                for k, c in enumerate(ints):
                    if k not in (i, j) and conditions[k] == "T":
                        for v in a.values():
                            yield c.at(v), c.at(v + 1)


def of_lex(r, strict, front, back):
    if not front:
        yield r, "F" if strict else "T"
    elif r == "T":
        yield front[0].at(back[0].high + 1), "F"
        yield back[0].at(front[0].low), "T"


FORM = {
    "Ladder": lambda a: (),
    "Comp": lambda a, b, hi, lo: (),
    "Clause": of_clause,
    "Parity": of_parity,
    "Conj": of_conj,
    "Amo": of_amo,
    "LeqR": of_leq,
    "EqR": of_eq,
    "Sum3": of_sum3,
    "Count": of_count,
    "Sum": of_sum,
    "Max": of_max,
    "Prod": of_prod,
    "DivMod": of_div_mod,
    "AllDiff": of_all_diff,
    "Lex": of_lex,
}


def form(core):
    return FORM[core[0]](*core[1:])


@functools.lru_cache(20000)
def stated(rule, core):
    """All instances of the rules whose equations are written down, each a set of two atoms."""
    return frozenset(frozenset(pair) for pair in (order if rule == "order" else form)(core) if pair[0] != pair[1])


@functools.lru_cache(20000)
def truths(core):
    """Of each literal, `T` and `F` in which of the valuations that meet a core it is true, as the digits of a number;
    nothing where the core has too many variables."""
    names = variables(core)
    if len(names) > MOST:
        return {}
    told, all_true, digit = dict.fromkeys(names, 0), 0, 1
    for choice in range(2 ** len(names)):
        true = {v if choice >> place & 1 else -v for place, v in enumerate(names)}
        if meets(core, true):
            all_true |= digit
            for v in names:
                told[v] |= digit if v in true else 0
            digit <<= 1
    told["T"], told["F"] = all_true, 0
    told.update({-v: all_true ^ told[v] for v in names})
    return told


def is_instance(rule, core, a, b):
    """Whether a rule states that two atoms are equal."""
    if rule == "table":
        told = truths(core)
        return a != b and a in told and b in told and told[a] == told[b]
    return frozenset((a, b)) in stated(rule, core)


def is_implied(core, a, b):
    """Whether a core implies an equation, as far as its variables are few enough to try all; none where they are
    not."""
    told = truths(core)
    return told[a] == told[b] if a in told and b in told else None
