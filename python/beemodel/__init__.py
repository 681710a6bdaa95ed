"""Models of finite-domain constraints in Python, answered by `bee` and checked.

    from beemodel import Model, all_different

    model = Model()
    x, y = model.int("x", 1, 5), model.int("y", 1, 5)
    model.add(x + y == 7, x < y)
    model.minimize(y)
    answer = model.solve(seconds=60)
    print(answer.verdict, answer[x], answer[y])

`help(beemodel.Model)` tells how a model is written, solved and bettered, `help(beemodel.Answer)`
how an answer is read and shown. `docs/PYTHON.md` has more examples, and what each constraint costs.
"""
from typing import TYPE_CHECKING

from .answers import Answer, Core, Found, ProgramError, Solutions
from .assignment import assignment_cost, circuit_cost
from .circuits import circuit
from .counting import (
    among,
    at_least,
    at_most,
    at_most_one,
    at_most_values,
    count,
    exactly,
    exactly_one,
    global_cardinality,
    number_of_values,
)
from .differing import all_different, inverse
from .disjunctive import no_overlap
from .expressions import all_of, any_of, total, weighted_sum, xor
from .functions import absolute, element, if_then_else, maximum, minimum
from .intervals import interval
from .lines import ModelError
from .model import Constraint, Model
from .ordering import lex_less, lex_less_or_equal
from .packing import bin_loads, bin_packing, knapsack, rectangles
from .resources import cumulative
from .sequences import increasing, regular, sequence, sliding_sum, value_precede
from .tables import table

__all__ = [
    "Answer",
    "Constraint",
    "Core",
    "Found",
    "Model",
    "ModelError",
    "ProgramError",
    "Solutions",
    "absolute",
    "all_different",
    "all_of",
    "among",
    "any_of",
    "assignment_cost",
    "at_least",
    "at_most",
    "at_most_one",
    "at_most_values",
    "bin_loads",
    "bin_packing",
    "circuit",
    "circuit_cost",
    "count",
    "cumulative",
    "element",
    "exactly",
    "exactly_one",
    "global_cardinality",
    "if_then_else",
    "increasing",
    "interval",
    "inverse",
    "knapsack",
    "lex_less",
    "lex_less_or_equal",
    "maximum",
    "minimum",
    "no_overlap",
    "number_of_values",
    "rectangles",
    "regular",
    "sequence",
    "sliding_sum",
    "table",
    "total",
    "value_precede",
    "weighted_sum",
    "xor",
]

__version__ = "1.0.0"

if not TYPE_CHECKING:
    from .elsewhere import hint as _hint
    from .elsewhere import told as _told

    def __getattr__(name: str) -> object:
        """Tells what there is in place of a name that is looked for in vain."""
        instead = _hint(name, [*__all__, *(f"model.{it}" for it in dir(Model) if it[0] != "_")])
        if instead is None:
            raise AttributeError(f"module {__name__!r} has no attribute {name!r}")
        raise ImportError(_told(name, instead))
