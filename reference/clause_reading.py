"""The clauses of basic cores, as `docs/CORES.md` has them, with code of their own."""
import itertools

from core_reading import integers
from integers import opposite


def orders(core):
    """Of each integer each step with the next one."""
    for a in integers(core):
        for (p, _), (q, _) in zip(a.steps, a.steps[1:]):
            yield p, opposite(q)


def parity_clauses(ls, odd):
    for choice in itertools.product((False, True), repeat=len(ls)):
        if (sum(choice) % 2 == 1) != odd:
            yield tuple(opposite(l) if chosen else l for l, chosen in zip(ls, choice))


def conj_clauses(r, ls):
    for l in ls:
        yield opposite(r), l
    yield (r, *map(opposite, ls))


def comp_clauses(a, b, hi, lo):
    no = opposite
    return [(no(a), hi), (no(b), hi), (no(hi), a, b), (no(lo), a), (no(lo), b), (lo, no(a), no(b))]


def max_clauses(ints, c):
    for a in ints:
        for v in a.values():
            yield opposite(a.at(v)), c.at(v)
    for v in c.values():
        yield (opposite(c.at(v)), *(a.at(v) for a in ints))


def reaching(r, a, b):
    for v in a.values():
        yield opposite(r), opposite(a.at(v)), b.at(v)


def leq_clauses(r, a, b):
    yield from reaching(r, a, b)
    for v in b.values():
        yield r, opposite(b.at(v)), a.at(v + 1)


def eq_clauses(r, a, b):
    yield from reaching(r, a, b)
    yield from reaching(r, b, a)
    for v in sorted(set(a.values()) & set(b.values())):
        yield r, opposite(a.at(v)), a.at(v + 1), opposite(b.at(v)), b.at(v + 1)


def sum_clauses(a, b, c):
    levels, others = a.values(), b.values()
    for i, v in enumerate(levels):
        for j, w in enumerate(others):
            below = [levels[i - 1] + w] * (i > 0) + [v + others[j - 1]] * (j > 0)
            above = [x + w for x in levels[i + 1 : i + 2]] + [v + x for x in others[j + 1 : j + 2]]
            if all(c.at(s) != c.at(v + w) for s in below):
                yield opposite(a.at(v)), opposite(b.at(w)), c.at(v + w)
            if all(c.at(s + 1) != c.at(v + w + 1) for s in above):
                yield a.at(v + 1), b.at(w + 1), opposite(c.at(v + w + 1))


def elsewhere(a, v, b, w):
    """That not both have these values."""
    return opposite(a.at(v)), a.at(v + 1), opposite(b.at(w)), b.at(w + 1)


def prod_clauses(a, b, c):
    for v in a.values():
        for w in b.values():
            x = elsewhere(a, v, b, w)
            some = a.low >= 0 and b.low >= 0
            yield (*((x[0], x[2]) if some else x), c.at(v * w))
            yield (*((x[1], x[3]) if some else x), opposite(c.at(v * w + 1)))


def div_mod_clauses(a, b, q, r):
    for v in a.values():
        for w in b.values():
            x = elsewhere(a, v, b, w)
            for c, told in ((q, v // w), (r, v % w)):
                yield (*x, c.at(told))
                yield (*x, opposite(c.at(told + 1)))


CLAUSES = {
    "Ladder": lambda a: (),
    "Clause": lambda ls: (ls,),
    "Parity": parity_clauses,
    "Conj": conj_clauses,
    "Comp": comp_clauses,
    "Amo": lambda ls: ((opposite(l), opposite(m)) for l, m in itertools.combinations(ls, 2)),
    "Max": max_clauses,
    "LeqR": leq_clauses,
    "EqR": eq_clauses,
    "Sum3": sum_clauses,
    "Prod": prod_clauses,
    "DivMod": div_mod_clauses,
}


def clauses(core):
    """The clauses of a basic core, over atoms."""
    return [*orders(core), *CLAUSES[core[0]](*core[1:])]


def in_order(made, label):
    """Clauses of atoms, put in order by a view."""
    seen = {}
    for clause in made:
        atoms = [atom for atom in map(label, clause) if atom != "F"]
        if "T" in atoms or any(opposite(atom) in atoms for atom in atoms):
            continue
        seen.setdefault(tuple(sorted(set(atoms), key=abs)))
    return [list(clause) for clause in seen]
