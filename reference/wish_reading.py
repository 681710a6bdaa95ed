"""Reads the values with which `bee resume` begins, as `docs/FORMATS.md` has them, with code of its own."""
from answer_reading import Refused, lines_of, number

GAPS = (b"\t", b"\r")


def is_value_line(words):
    """Whether pieces between single blanks are a name, the sign `=` and a word."""
    return len(words) == 3 and words[1] == b"=" and all(words) and not any(it in word for it in GAPS for word in words)


def is_value(domain, word):
    """Whether a word tells a value of a domain."""
    if isinstance(domain[0], bool):
        return word in (b"true", b"false")
    return number(word) in domain


def wished(model, text):
    """The word that each name has last. Raises Refused with the first line that fails."""
    found = {}
    for place, line in enumerate(lines_of(text), 1):
        words = line.split(b" ")
        if is_value_line(words):
            domain = model.domains.get(words[0].decode("latin-1"))
            if domain is None or not is_value(domain, words[2]):
                raise Refused(place)
            found[words[0].decode()] = words[2]
    return found
