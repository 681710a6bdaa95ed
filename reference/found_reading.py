"""Reads what another solver found about the clauses of a model, for `bee certify`, as `docs/FORMATS.md` has it, with
code of its own."""
from answer_reading import Refused, values
from drup_reading import words_of
from integers import opposite
from lrat_reading import refutation


def better(model, compiled, value):
    """The clauses that say that the objective is better than a value: one of one literal, none, or the empty one."""
    entry = compiled.names[model.objectives[0]]
    atom = entry.at(value + 1) if model.direction == "maximize" else opposite(entry.at(value))
    return {"T": [], "F": [[]]}.get(atom, [[atom]])


def cut(text):
    """How many lines stand before the refutation, whether one of them tells values, and what each of both parts is."""
    lines, tells = text.split(b"\n"), False
    unfinished = lines.pop()
    lines += [unfinished] if unfinished else []
    for place, line in enumerate(lines):
        words = words_of(line)
        if words and words[0] not in (b"c", b"s", b"v"):
            break
        tells = tells or (bool(words) and words[0] != b"c")
    else:
        place = len(lines)
    return place, tells, *(b"".join(line + b"\n" for line in part) for part in (lines[:place], lines[place:]))


def found(model, compiled, text):
    """The words of the verdict that a text shows. Raises Refused with the first line that fails."""
    place, tells, front, rest = cut(text)
    if not tells:
        refutation(compiled.vars, compiled.clauses, text)
        return "UNSATISFIABLE"
    true = values(compiled, front)
    if not model.objectives:
        if rest:
            raise Refused(place + 1)
        return "SATISFIABLE"
    value = compiled.names[model.objectives[0]].value(true)
    try:
        refutation(compiled.vars, compiled.clauses + better(model, compiled, value), rest)
    except Refused as refused:
        raise Refused(place + refused.args[0]) from None
    return f"OPTIMUM {value}"
