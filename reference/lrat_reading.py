"""Reads refutations with hints by other solvers, lines of LRAT, as `docs/FORMATS.md` has them, with code of its own."""
from answer_reading import Refused, number
from drup_reading import drup, words_of

IDS = 2**64 - 1


def lines_of(text):
    lines = text.split(b"\n")
    return lines if lines[-1] else lines[:-1]


def says(words):
    return bool(words) and words[0] != b"c"


def is_hinted(text):
    """Whether the first line that says something is one of LRAT."""
    for words in map(words_of, lines_of(text)):
        if says(words):
            return words[1:2] == [b"d"] or words.count(b"0") > 1
    return False


def lists(words, count):
    """So many lists of words, each of which ends with `0`; or none."""
    found, members = [], []
    for word in words:
        if word == b"0":
            found, members = found + [members], []
        else:
            members.append(word)
    return found if len(found) == count and not members else None


def numbers(words, low, high):
    """The numbers of words, none of which is 0; or none."""
    told = [number(word, low, high) for word in words]
    return None if None in told or 0 in told else told


def addition(words):
    """The id, the literals and the hints of a line that adds a clause; or none."""
    first, both = number(words[0], 1, IDS), lists(words[1:], 2)
    if first is None or both is None:
        return None
    literals, hints = numbers(both[0], -(2**27), 2**27), numbers(both[1], -(2**63), 2**63 - 1)
    return None if literals is None or hints is None else (first, literals, hints)


def is_deletion(words):
    ids = lists(words[2:], 1)
    return number(words[0], 0, IDS) is not None and ids is not None and numbers(ids[0], 1, IDS) is not None


def shows(known, literals, hints):
    """Whether hints show a clause."""
    true = {-literal for literal in literals}
    for hint in hints:
        if hint not in known:
            return False
        left = [literal for literal in known[hint] if -literal not in true]
        if not left:
            return True
        if len(left) == 1:
            true.add(left[0])
    return False


def lrat(variables, clauses, text):
    """Takes a proof with hints. Raises Refused with the first line that fails."""
    known = {place: list(clause) for place, clause in enumerate(clauses, 1)}
    refuted = [] in known.values()
    for place, words in enumerate(map(words_of, lines_of(text)), 1):
        if not says(words):
            continue
        if words[1:2] == [b"d"]:
            if not is_deletion(words):
                raise Refused(place)
            continue
        line = addition(words)
        if line is None:
            raise Refused(place)
        first, literals, hints = line
        fits = all(abs(it) <= variables for it in literals) and len({abs(it) for it in literals}) == len(literals)
        if first in known or not fits or not shows(known, literals, hints):
            raise Refused(place)
        known[first] = literals
        refuted = refuted or not literals
    if not refuted:
        raise Refused(len(lines_of(text)) + 1)


def refutation(variables, clauses, text):
    """Takes a proof, with hints or without. Raises Refused with the first line that fails."""
    (lrat if is_hinted(text) else drup)(variables, clauses, text)


def with_hints(answer, count, bound):
    """The derivation of an answer, over so many clauses, as a proof with hints of these and of a clause of one literal
    behind them, whose negation the derivation ends with; or, where `bound` is 0, of these alone. None where the answer
    has no derivation, or an empty one."""
    lines = answer.split(b"\n")
    told = lines[lines.index(b"proof") + 1 : lines.index(b"end")] if b"proof" in lines else []
    made, last, refuted = [], 0, False
    for line in told:
        last, literals, hints = addition(line.split())
        last, refuted = last + bound, refuted or not literals
        moved = [it + bound if it > count else it for it in hints]
        made.append(b" ".join(b"%d" % it for it in [last, *literals, 0, *moved, 0]))
    if made and not refuted:
        made.append(b"%d 0 %d %d 0" % (last + 1, count + 1, last))
    return b"".join(line + b"\n" for line in made) or None
