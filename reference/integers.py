"""Atoms and integers in the order encoding, as `docs/CORES.md` has them: `T`, `F`, or a literal, which is a number; a
base with steps upwards."""
import typing


def opposite(atom):
    return {"T": "F", "F": "T"}[atom] if isinstance(atom, str) else -atom


def is_true(atom, true):
    """Whether an atom is, where these literals are."""
    return atom == "T" or (atom != "F" and (atom in true))


class Integer(typing.NamedTuple):
    """A base, and steps upwards, each an atom with its weight."""

    base: int
    steps: tuple = ()

    @property
    def low(self):
        return self.base

    @property
    def high(self):
        return self.base + sum(weight for _, weight in self.steps)

    def values(self):
        """All values, upwards."""
        reached = [self.base]
        for _, weight in self.steps:
            reached.append(reached[-1] + weight)
        return reached

    def at(self, value):
        """The atom that says that the integer is at least so much."""
        reached = self.base
        if value <= reached:
            return "T"
        for atom, weight in self.steps:
            reached += weight
            if value <= reached:
                return atom
        return "F"

    def value(self, true):
        return self.base + sum(weight for atom, weight in self.steps if is_true(atom, true))

    def is_ordered(self, true):
        """Whether no true step follows a false one."""
        truths = [is_true(atom, true) for atom, _ in self.steps]
        return truths == sorted(truths, reverse=True)

    def negated(self):
        return Integer(-self.high, tuple((opposite(atom), weight) for atom, weight in reversed(self.steps)))

    def shifted(self, number):
        return Integer(self.base + number, self.steps)

    def multiple(self, factor):
        if factor == 0:
            return Integer(0)
        if factor < 0:
            return self.negated().multiple(-factor)
        return Integer(self.base * factor, tuple((atom, weight * factor) for atom, weight in self.steps))

    def resolved(self, label):
        return Integer(self.base, tuple((label(atom), weight) for atom, weight in self.steps))

    def trimmed(self):
        """Leading true steps in the base, no trailing false ones, and neighbours of one atom as one."""
        base, steps = self.base, []
        for atom, weight in self.steps:
            if atom == "T" and not steps:
                base += weight
            elif steps and steps[-1][0] == atom:
                steps[-1] = (atom, steps[-1][1] + weight)
            else:
                steps.append((atom, weight))
        if steps and steps[-1][0] == "F":
            steps.pop()
        return Integer(base, tuple(steps))


def fresh(values, first):
    """An integer of these values, upwards, whose steps are the variables from one on."""
    gaps = [b - a for a, b in zip(values, values[1:])]
    return Integer(values[0], tuple((first + place, gap) for place, gap in enumerate(gaps)))


def boolean(atom):
    """A Boolean as an integer."""
    return Integer(0, ((atom, 1),))
