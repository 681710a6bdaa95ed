"""Changes of texts at random, and documents of ledgers at random, for `fuzz.py`."""
import re

from core_reading import variables
from rule_reading import stated, truths


def one_byte(chance, text):
    place = chance.randrange(len(text) + 1)
    more = bytes([chance.choice(b"0123456789 \n-=TFdevs\0\xff" + bytes([chance.randrange(256)]))])
    return text[:place] + chance.choice((b"", more, more)) + text[place + chance.choice((0, 1)) :]


def one_line(chance, text):
    lines = text.split(b"\n")
    place, other = (chance.randrange(len(lines) - 1) for _ in range(2))
    way = chance.randrange(4)
    if way == 0:
        del lines[place]
    elif way == 1:
        lines.insert(other, lines[place])
    elif way == 2:
        lines[place], lines[other] = lines[other], lines[place]
    else:
        lines[place] = lines[other]
    return b"\n".join(lines)


def one_number(chance, text):
    numerals = list(re.finditer(rb"-?[0-9]+", text))
    if not numerals:
        return one_byte(chance, text)
    told = chance.choice(numerals)
    value = int(told[0])
    near = (value + 1, value - 1, -value, chance.randint(-9, 30), int(chance.choice(numerals)[0]))
    other = chance.choice((*near, 2**63, 99999999999999999999))
    return text[: told.start()] + b"%d" % other + text[told.end() :]


CHANGES = (one_byte, one_line, one_number)


def atom_words(words):
    """The atoms that words of a ledger line tell."""
    return [word if word in ("T", "F") else int(word) for word in words]


def word_of(atom):
    return atom if isinstance(atom, str) else str(atom)


def equation(chance, state, number):
    """A line that makes two atoms equal, mostly as a rule states it."""
    core = state.core(number)
    rule = chance.choice(("order", "form", "form", "table"))
    atoms = ["T", "F"] + [sign * v for v in variables(core) for sign in (1, -1)]
    pair = chance.choices(atoms, k=2)
    if chance.random() < 0.75:
        if rule != "table":
            pairs = sorted((sorted(pair, key=str) for pair in stated(rule, core)), key=str)
            pair = chance.choice(pairs) if pairs else pair
        elif told := truths(core):
            one = chance.choice(list(told))
            pair = [one, chance.choice([other for other in told if told[other] == told[one]])]
    if chance.random() < 0.5:
        pair = pair[::-1]
    return f"eq {number} {rule} {word_of(pair[0])} {word_of(pair[1])}".encode()


def random_step(chance, state):
    """A ledger line for a state, which may be a step or not."""
    if not state.pending:
        return b"enc 1"
    number = chance.choice(list(state.pending))
    way = chance.random()
    if way < 0.6:
        return equation(chance, state, number)
    return b"%s %d" % (b"split" if way < 0.8 else b"enc", number)


def one_step(chance, text, compilation):
    """A document with another line in its ledger, and the place of that line; none where it has no ledger."""
    lines = text.split(b"\n")
    if b"ledger" not in lines:
        return None, 0
    first, last = lines.index(b"ledger") + 1, lines.index(b"proof")
    place = chance.randrange(first, last + 1)
    state = compilation.first
    for line in lines[first:place]:
        state = compilation.step(state, line)
    words = lines[place].split(b" ")
    way = chance.randrange(8)
    if way < 3 or words[0] != b"eq":
        lines[place : place + (way == 0 and place < last)] = [random_step(chance, state)]
        return b"\n".join(lines), place + 1
    if way == 3:
        words[3:] = words[:2:-1]
    elif way == 4:
        words[3:] = [opposite_word(word) for word in words[3:]]
    elif way == 5:
        words[4] = opposite_word(words[4])
    elif way == 6:
        words[2] = chance.choice((b"order", b"form", b"table"))
    elif state.pending:
        words[1] = b"%d" % chance.choice(list(state.pending))
    lines[place] = b" ".join(words)
    return b"\n".join(lines), place + 1


def opposite_word(word):
    if word in (b"T", b"F"):
        return b"F" if word == b"T" else b"T"
    return word[1:] if word[:1] == b"-" else b"-" + word


def wandered(chance, compilation, most):
    """A ledger of steps in any order, not those of a compilation."""
    state, lines = compilation.first, []
    for _ in range(most):
        if state.bottom or not state.pending:
            break
        line = random_step(chance, state)
        behind = compilation.step(state, line)
        if behind is not None:
            state = behind
            lines.append(line)
    return lines


def document(chance, compilation, model, ledger):
    """A document with a ledger, which is valid: a refutation where the clauses are one, and else a search that was
    given up behind copies of clauses. None where there is no clause."""
    state = compilation.first
    for line in ledger:
        state = compilation.step(state, line)
    variables, clauses = compilation.cnf(state)
    proof, verdict = [], b"UNSATISFIABLE"
    if [] not in clauses:
        if not clauses:
            return None
        for name in range(len(clauses) + 1, len(clauses) + chance.randint(1, 4) + 1):
            hint = chance.randrange(len(clauses))
            more = chance.choice((0, 0, 1, 2))
            missing = sorted(set(range(1, variables + 1)) - set(map(abs, clauses[hint])))
            literals = clauses[hint] + [chance.choice((v, -v)) for v in chance.sample(missing, min(more, len(missing)))]
            chance.shuffle(literals)
            proof.append(" ".join(map(str, [name, *literals, 0, hint + 1, 0])).encode())
            if chance.random() < 0.3:
                proof.append(b"%d d %d 0" % (name, name))
        verdict = b"UNKNOWN %d" % sum(b" d " not in line for line in proof)
    version = b"bee 2" if len(model.objectives) == 2 else b"bee 1"
    return b"\n".join([version, verdict, b"ledger", *ledger, b"proof", *proof, b"end", b""])
