"""The text of a model: its goal, the domains of its names, and copies with other items."""
from __future__ import annotations

import re
from collections.abc import Iterable
from typing import NamedTuple, Union

from .answers import Value, Values, value_line
from .domains import Domain, domain_of

# Where any solution serves.
SATISFY = "solve satisfy"
DECLARATION = re.compile(
    r"^(?:new_bool\((\w+)\)|new_int\((\w+),(?:(-?\d+),(-?\d+)|\[([-\d,]*)\])\)"
    r"|bool2int\([^,]*,(\w+)\))$",
    re.M,
)

# The values of a declared name; of a Boolean they are `bool`.
Declared = Union[Domain, type[bool]]


class Sought(NamedTuple):
    """The goal of a text: `minimize` or `maximize` and the names of the objectives, or `satisfy`
    and none."""

    direction: str
    names: tuple[str, ...]

    def is_better(self, one: tuple[int, ...], other: tuple[int, ...]) -> bool:
        """Whether values of the objectives are better than others."""
        return one > other if self.direction == "maximize" else one < other


def goal_of(text: str) -> Sought:
    """The goal, which is the last line."""
    words = text.rstrip("\n").rpartition("\n")[2].split()
    return Sought(words[1], tuple(words[2::2]))


def with_goal(text: str, goal: str, items: Iterable[str] = ()) -> str:
    """The text with more items before its goal, which is another one."""
    front, _, _ = text.rstrip("\n").rpartition("\n")
    return "\n".join([*([front] if front else []), *items, goal]) + "\n"


def with_items(text: str, items: Iterable[str]) -> str:
    """The text with more items before its goal."""
    return with_goal(text, text.rstrip("\n").rpartition("\n")[2], items)


def declarations(text: str) -> dict[str, Declared]:
    """The declared names in their order, with their values."""
    found: dict[str, Declared] = {}
    for boolean, integer, low, high, listed, counted in DECLARATION.findall(text):
        if boolean:
            found[boolean] = bool
        elif counted:
            found.setdefault(counted, range(0, 2))
        elif listed:
            found[integer] = domain_of(map(int, listed.split(",")))
        else:
            found[integer] = range(int(low), int(high) + 1)
    return found


def fits(value: object, domain: Declared) -> bool:
    """Whether a value is one of a declared name's."""
    if domain is bool:
        return value in (False, True)
    return isinstance(value, int) and not isinstance(domain, type) and int(value) in domain


def fixing(name: str, value: Value) -> str:
    """The item that gives a name its value."""
    is_truth = isinstance(value, bool)
    return f"bool_eq({name},{str(value).lower()})" if is_truth else f"int_eq({name},{value})"


def document(values: Values) -> str:
    """The answer that these values are a solution."""
    return f"bee 1\nSATISFIABLE\n{''.join(value_line(*it) for it in values.items())}end\n"
