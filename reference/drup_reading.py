"""Reads refutations by other solvers, lines of DRUP, as `docs/FORMATS.md` has them, with code of its own."""
import re

from answer_reading import Refused, number


class Clauses:
    """Clauses, and what unit propagation shows of them."""

    def __init__(self, variables, clauses):
        self.vars, self.clauses = variables, [frozenset(c) for c in clauses]

    def shows(self, literals):
        """Whether denying the literals ends in a contradiction."""
        true = {-l for l in literals}
        if any(-l in true for l in true):
            return True
        again = True
        while again:
            again = False
            for clause in self.clauses:
                if clause & true:
                    continue
                left = [l for l in clause if -l not in true]
                if not left:
                    return True
                if len(left) == 1:
                    true.add(left[0])
                    again = True
        return False


def words_of(line):
    return [word for word in re.split(rb"[ \t\r]+", line) if word]


def drup(variables, clauses, text):
    """Takes a proof. Raises Refused with the first line that fails."""
    known = Clauses(variables, clauses)
    shown = known.shows([])
    lines = text.split(b"\n")
    if not lines[-1]:
        lines.pop()
    for place, line in enumerate(lines, 1):
        words = words_of(line)
        if not words or words[0] == b"c":
            continue
        deletes = words[0] == b"d"
        numbers = [number(word) for word in words[deletes:]]
        if None in numbers or numbers[-1:] != [0] or numbers.count(0) > 1 or any(abs(l) > variables for l in numbers):
            raise Refused(place)
        if deletes or shown:
            continue
        if not known.shows(numbers[:-1]):
            raise Refused(place)
        known.clauses.append(frozenset(numbers[:-1]))
        shown = known.shows([])
    if not shown:
        raise Refused(len(lines) + 1)
