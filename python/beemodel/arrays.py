"""Lists, tables and dictionaries of variables, made at once.

A variable of an array is shown by its place, as `x[1]`, and has a name of the language in the text,
as `x_1`.
"""
from __future__ import annotations

import re
from collections.abc import Callable, Iterable, Mapping
from typing import Any, Union

from .lines import refused

Shape = Union[int, tuple[int, ...], Iterable[Any]]


def name_of(name: str, key: Any, taken: Mapping[str, object]) -> str:
    """A free name of the language for a member of an array."""
    parts = key if isinstance(key, tuple) else (key,)
    made = "_".join([name, *(re.sub(r"[^A-Za-z0-9_]", "_", str(it)) for it in parts)])
    while made in taken:
        made += "_"
    return made


def shown_of(name: str, key: Any) -> str:
    """How a member of an array is shown."""
    parts = key if isinstance(key, tuple) else (key,)
    return f"{name}[{', '.join(map(str, parts))}]"


def array(shape: Shape, make: Callable[[Any], Any], before: tuple[int, ...] = ()) -> Any:
    """A list for a number, lists of lists for several, and a dictionary for keys; a member is made
    of its place or its key."""
    if isinstance(shape, int):
        shape = (shape,)
    if isinstance(shape, tuple) and all(type(it) is int for it in shape) and shape:
        if min(shape) < 0:
            raise refused(f"an array has no {min(shape)} members")
        first, *rest = shape
        places = [(*before, it) for it in range(first)]
        if rest:
            return [array(tuple(rest), make, it) for it in places]
        return [make(it if len(it) > 1 else it[0]) for it in places]
    return {key: make(key) for key in shape}
