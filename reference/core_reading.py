"""Cores, as `docs/CORES.md` has them, with code of their own: their meaning and trimming. A core is a tuple of its
form's name and its members."""
import itertools

from integers import Integer, is_true

# What the members of each form are: I an integer, J a tuple of integers, a an atom, l a tuple of atoms, n what has no
# atoms.
FORMS = {
    "Ladder": "I",
    "Clause": "l",
    "Parity": "ln",
    "Conj": "al",
    "Comp": "aaaa",
    "LeqR": "aII",
    "EqR": "aII",
    "Sum3": "III",
    "Count": "lI",
    "Sum": "Jn",
    "Max": "JI",
    "AllDiff": "Jl",
    "Amo": "l",
    "Prod": "III",
    "DivMod": "IIII",
    "Lex": "anJJ",
}


def differ(members, conditions):
    return all(a != b for (a, c), (b, d) in itertools.combinations(list(zip(members, conditions)), 2) if c and d)


# When a form is true, of the values of its integers and the truths of its atoms.
MEANINGS = {
    "Ladder": lambda a: True,
    "Clause": any,
    "Parity": lambda ls, odd: sum(ls) % 2 == int(odd),
    "Conj": lambda r, ls: r == all(ls),
    "Comp": lambda a, b, hi, lo: hi == (a or b) and lo == (a and b),
    "LeqR": lambda r, a, b: r == (a <= b),
    "EqR": lambda r, a, b: r == (a == b),
    "Sum3": lambda a, b, c: a + b == c,
    "Count": lambda ls, c: sum(ls) == c,
    "Sum": lambda ints, k: sum(ints) == k,
    "Max": lambda ints, c: max(ints) == c,
    "AllDiff": differ,
    "Amo": lambda ls: sum(ls) <= 1,
    "Prod": lambda a, b, c: a * b == c,
    "DivMod": lambda a, b, q, r: a == b * q + r and 0 <= r < b,
    "Lex": lambda r, strict, front, back: r == (front < back if strict else front <= back),
}


def members(core):
    """The members of a core, each with the letter that says what it is."""
    return zip(FORMS[core[0]], core[1:])


def integers(core):
    """The integers of a core, in their order."""
    for letter, member in members(core):
        if letter == "I":
            yield member
        elif letter == "J":
            yield from member


def variables(core):
    """The variables of a core, upwards."""
    atoms = [atom for a in integers(core) for atom, _ in a.steps]
    for letter, member in members(core):
        atoms += member if letter == "l" else [member] if letter == "a" else []
    return sorted({abs(atom) for atom in atoms if not isinstance(atom, str)})


def meets(core, true):
    """Whether a core is met where these literals are true, and the others false."""

    def told(letter, member):
        if letter == "I":
            return member.value(true)
        if letter == "J":
            return [each.value(true) for each in member]
        if letter == "l":
            return [is_true(atom, true) for atom in member]
        return is_true(member, true) if letter == "a" else member

    are_ordered = all(a.is_ordered(true) for a in integers(core))
    return are_ordered and MEANINGS[core[0]](*(told(*each) for each in members(core)))


def resolved(core, label):
    """A core with each atom as a store has it."""

    def changed(letter, member):
        if letter == "I":
            return member.resolved(label)
        if letter == "J":
            return tuple(each.resolved(label) for each in member)
        if letter == "l":
            return tuple(map(label, member))
        return label(member) if letter == "a" else member

    return (core[0], *(changed(*each) for each in members(core)))


def without(atoms, *constants):
    return tuple(atom for atom in atoms if atom not in constants)


def trimmed(core):
    """A core without what constants say."""
    tidied = {"I": Integer.trimmed, "J": lambda ints: tuple(map(Integer.trimmed, ints))}
    form, *parts = (core[0], *(tidied.get(letter, lambda same: same)(member) for letter, member in members(core)))
    if form == "Clause":
        return form, ("T",) if "T" in parts[0] else without(parts[0], "F")
    if form == "Parity":
        return form, without(parts[0], "T", "F"), parts[1] ^ (parts[0].count("T") % 2 == 1)
    if form == "Conj":
        return form, parts[0], ("F",) if "F" in parts[1] else without(parts[1], "T")
    if form == "Amo":
        return form, without(parts[0], "F")
    if form == "Count":
        return form, without(parts[0], "T", "F"), parts[1].shifted(-parts[0].count("T"))
    return (form, *parts)
