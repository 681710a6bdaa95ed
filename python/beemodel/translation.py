"""The statements of a model, as they are written out.

Declarations come first, then what the Booleans of comparisons with constants are, then the
statements of the constraints, and the goal at the end. Each item is kept with its weight, the
script's line it comes from, and the constraint that it states; one that says what an expression
is states none, since each assignment of the script's variables meets it by a value of its own.
"""
from __future__ import annotations

from bisect import bisect_left, bisect_right
from collections.abc import Callable, Sequence
from string import ascii_letters, digits
from typing import TYPE_CHECKING, NamedTuple, Optional, TypeVar, Union

from . import weights
from .choices import choices_of
from .cuts import Cuts
from .domains import Domain
from .expressions import GREATEST, BooleanVariable, IntegerVariable, Number, Truth
from .lines import ModelError

if TYPE_CHECKING:
    from .linear import Term
    from .model import Model
    from .presolve import Left

Argument = Union[str, int, Sequence[Union[str, int]]]
Made = TypeVar("Made")

# So many bytes of a text are read.
LONGEST = 16_777_216

# What the names of the layer's own variables are made of, behind a `_`.
DIGITS = ascii_letters + digits


class Integer(NamedTuple):
    """An integer of the written model: its name or numeral, and its values."""

    term: str
    domain: Domain

    @property
    def steps(self) -> int:
        return len(self.domain) - 1

    @property
    def low(self) -> int:
        return self.domain[0]

    @property
    def high(self) -> int:
        return self.domain[-1]


class Item(NamedTuple):
    """A declaration or a statement: its text, its weight, the line of the script, and the place of
    the constraint that it states, if it states one."""

    text: str
    weight: int
    line: str
    constraint: Optional[int] = None


class Translation:
    """What is written of one model so far."""

    def __init__(self, model: Model, domains: dict[str, Domain]):
        self.model = model
        self.domains = domains
        self.line = ""
        self.subject: object = ""
        self.constraint: Optional[int] = None
        self.declarations: list[Item] = []
        self.channels: list[Item] = []
        self.statements: list[Item] = []
        self.count_of_fresh = self.length = 0
        self.ending = ""
        self.cuts: dict[str, Cuts] = {}
        self.lines: dict[str, str] = {}
        self.integers: dict[object, Integer] = {}
        self.partial_sums: dict[object, Term] = {}
        self.literals: dict[object, str] = {}
        self.literal_of_integer: dict[str, str] = {}
        self.ends: dict[Number, tuple[int, int]] = {}
        self.priced: dict[object, Number] = {}
        self.choices: dict[Number, tuple[Number, ...]] = {}
        self.is_apart = True

    def take(self, left: Left) -> None:
        """Takes over what the presolve has left. The Booleans of which it is sure are written, and
        where it has seen that there is no solution, that."""
        self.ends, self.is_apart = left.ends, left.is_apart
        if not self.is_apart:
            self.choices = choices_of(it.truth for it in self.model.constraints)
        if not left.is_possible:
            self.clause([])
        for variable, is_true in left.sure.items():
            self.clause([variable.name if is_true else f"-{variable.name}"])
            self.literals[variable] = "true" if is_true else "false"

    # What goes wrong.

    def fault(self, why: str) -> ModelError:
        """The error of the constraint that is written now."""
        return ModelError(f"{self.line}: {self.subject}: {why}")

    def numeral(self, value: int) -> str:
        """A numeral of the language."""
        if abs(value) > GREATEST:
            raise self.fault(f"the number {value} is beyond {GREATEST}, the language's greatest")
        return str(value)

    # Items.

    def defined(self, make: Callable[[Translation], Made]) -> Made:
        """What is made of an expression, by statements that state no constraint."""
        constraint, self.constraint = self.constraint, None
        made = make(self)
        self.constraint = constraint
        return made

    def item(self, weight: int, name: str, arguments: tuple[Argument, ...]) -> Item:
        """An item of the text."""
        shown = ",".join([it if isinstance(it, str) else self.argument(it) for it in arguments])
        made = Item(f"{name}({shown})", weight, self.line, self.constraint)
        self.length += len(made.text) + 1
        if self.length > LONGEST:
            raise self.too_long()
        return made

    def too_long(self) -> ModelError:
        """The error of a text that grows beyond what is read, with the lines that write most."""
        items = (*self.declarations, *self.channels, *self.statements)
        shares: dict[str, int] = {}
        for it in items:
            shares[it.line] = shares.get(it.line, 0) + len(it.text) + 1
        most = sorted(shares.items(), key=lambda share: -share[1])[:3]
        shown = ", ".join(f"{line} {part}" for line, part in most)
        return ModelError(f"the text has more than {LONGEST} bytes; longest by then: {shown}")

    def argument(self, argument: Argument) -> str:
        """An argument of a statement: a name, a numeral, or a list of them."""
        if isinstance(argument, str):
            return argument
        if isinstance(argument, int):
            return self.numeral(argument)
        return f"[{','.join([it if isinstance(it, str) else self.numeral(it) for it in argument])}]"

    def say(self, weight: int, name: str, *arguments: Argument) -> None:
        """Writes a statement."""
        self.statements.append(self.item(weight, name, arguments))

    def channel(self, weight: int, name: str, *arguments: Argument) -> None:
        """Writes a statement that says what a Boolean of a comparison with a constant is."""
        self.channels.append(self.item(weight, name, arguments))

    def declare_integer(self, name: str, domain: Domain) -> None:
        """Writes a declaration."""
        is_range = isinstance(domain, range) and domain.step == 1
        values = (domain[0], domain[-1]) if is_range else (domain,)
        weight = weights.declared(len(domain) - 1)
        self.lines[name] = self.line
        self.declarations.append(self.item(weight, "new_int", (name, *values)))

    def declare_boolean(self, name: str) -> None:
        """Writes a declaration."""
        self.declarations.append(self.item(1, "new_bool", (name,)))

    def fresh_name(self) -> str:
        """A name that no variable has: those of a script don't begin with `_`."""
        block, digit = divmod(self.count_of_fresh, len(DIGITS))
        if digit == 0:
            self.ending = ""
            while block:
                block, last = divmod(block - 1, len(DIGITS))
                self.ending += DIGITS[last]
        self.count_of_fresh += 1
        return f"_{DIGITS[digit]}{self.ending}"

    def fresh_boolean(self) -> str:
        """A Boolean of the layer's own."""
        name = self.fresh_name()
        self.declare_boolean(name)
        return name

    def fresh_integer(self, domain: Domain) -> Integer:
        """An integer of the layer's own; one without values makes the model unsatisfiable."""
        if not domain:
            self.clause([])
            domain = range(0, 1)
        if len(domain) == 1:
            return Integer(self.numeral(domain[0]), domain)
        made = Integer(self.fresh_name(), domain)
        self.declare_integer(*made)
        return made

    def within(self, number: Number, domain: Domain) -> Domain:
        """The values of an expression that the presolve has left."""
        if number not in self.ends:
            return domain
        low, high = self.ends[number]
        return domain[bisect_left(domain, low) : bisect_right(domain, high)]

    # Booleans.

    def known(self, variable: BooleanVariable) -> str:
        """The name of a Boolean of this model."""
        if self.model.variables.get(variable.name) is not variable:
            raise self.fault(f"{variable.name} is declared in another model, at {variable.line}")
        return variable.name

    def negation(self, literal: str) -> str:
        """The negation of a Boolean term."""
        if literal in ("true", "false"):
            return "false" if literal == "true" else "true"
        return literal[1:] if literal[0] == "-" else f"-{literal}"

    def literal(self, truth: Truth) -> str:
        """The Boolean term of an expression, made once."""
        if truth not in self.literals:
            self.literals[truth] = self.defined(truth.literal)
        return self.literals[truth]

    def clause(self, literals: Sequence[str]) -> None:
        """Writes that some literal is true."""
        kept = [it for it in dict.fromkeys(literals) if it != "false"]
        if "true" in kept or any([it[0] == "-" and it[1:] in kept for it in kept]):
            return
        self.say(len(kept), "bool_array_or", kept)

    def conjunction(self, literals: Sequence[str]) -> str:
        """The Boolean term that is true where all are."""
        kept = sorted({it for it in literals if it != "true"})
        if "false" in kept or any(self.negation(it) in kept for it in kept if it[0] == "-"):
            return "false"
        if len(kept) < 2:
            return kept[0] if kept else "true"
        return self.made_once(("and", *kept), "bool_array_and_reif", kept)

    def disjunction(self, literals: Sequence[str]) -> str:
        """The Boolean term that is true where some literal is."""
        return self.negation(self.conjunction([self.negation(it) for it in literals]))

    def is_any_of(self, literal: str, literals: Sequence[str]) -> None:
        """Writes that a Boolean term is true just where some of a list is."""
        if len(literals) == 1:
            self.clause([self.negation(literal), literals[0]])
            self.clause([literal, self.negation(literals[0])])
        else:
            weight = weights.conjunction(len(literals))
            self.say(weight, "bool_array_or_reif", literals, literal)

    def made_once(self, key: object, name: str, members: Sequence[str]) -> str:
        """The Boolean that tells whether a list has a property, made at the first asking."""
        if key not in self.literals:
            made = self.fresh_boolean()
            size = len(members)
            weight = weights.conjunction(size) if "and" in name else weights.parity(size + 1)
            self.defined(lambda it: it.say(weight, name, members, made))
            self.literals[key] = made
        return self.literals[key]

    def parity(self, literals: Sequence[str]) -> str:
        """The Boolean term that is true where an odd number of them is."""
        kept, is_turned = self.parity_parts(literals)
        if not kept:
            made = "false"
        elif len(kept) == 1:
            made = kept[0]
        else:
            made = self.made_once(("xor", *kept), "bool_array_xor_reif", kept)
        return self.negation(made) if is_turned else made

    def parity_parts(self, literals: Sequence[str]) -> tuple[list[str], bool]:
        """The names that stand an odd number of times, and whether the parity of them is the other
        one."""
        odd: dict[str, None] = {}
        is_turned = False
        for it in literals:
            if it in ("true", "false"):
                is_turned ^= it == "true"
                continue
            name = it.lstrip("-")
            is_turned ^= it[0] == "-"
            if name in odd:
                del odd[name]
            else:
                odd[name] = None
        return sorted(odd), is_turned

    def odd(self, literals: Sequence[str]) -> None:
        """Writes that an odd number of them is true."""
        kept, is_turned = self.parity_parts(literals)
        if not kept:
            self.clause(["true" if is_turned else "false"])
            return
        last = kept[-1] if is_turned else self.negation(kept[-1])
        if len(kept) == 1:
            self.clause([self.negation(last)])
        elif len(kept) == 2:
            self.say(4, "bool_eq", kept[0], last)
        else:
            self.say(weights.parity(len(kept)), "bool_array_xor", [*kept[:-1], self.negation(last)])

    def at_most_one(self, literals: Sequence[str]) -> None:
        """Writes that at most one is true: by pairs, or, where that is heavier, by equal numbers
        that differ where their Booleans are true."""
        kept = [it for it in literals if it != "false"]
        if "true" in kept:
            others = [it for it in kept if it != "true"]
            if len(others) < len(kept) - 1:
                self.clause([])
            for it in others:
                self.clause([self.negation(it)])
        elif len(kept) <= 20:
            for at, it in enumerate(kept):
                for other in kept[:at]:
                    self.clause([self.negation(other), self.negation(it)])
        else:
            ones = [1] * len(kept)
            self.say(19 * len(kept), "int_array_allDiffCond", ones, kept)

    # Integers.

    def declared(self, variable: IntegerVariable) -> Integer:
        """The integer of a variable of this model."""
        if self.model.variables.get(variable.name) is not variable:
            raise self.fault(f"{variable.name} is declared in another model, at {variable.line}")
        return Integer(variable.name, self.domains[variable.name])

    def integer(self, number: Number) -> Integer:
        """The integer of an expression, made once."""
        if number not in self.integers:
            self.integers[number] = self.defined(number.integer)
        return self.integers[number]

    def integer_of_literal(self, literal: str) -> Integer:
        """A Boolean term as the number 0 or 1. It weighs nothing."""
        if literal in ("true", "false"):
            value = int(literal == "true")
            return Integer(str(value), range(value, value + 1))
        if ("number", literal) not in self.integers:
            made = Integer(self.fresh_name(), range(0, 2))
            self.declarations.append(Item(f"bool2int({literal},{made.term})", 0, self.line))
            self.literal_of_integer[made.term] = literal
            self.integers["number", literal] = made
        return self.integers["number", literal]

    def cuts_of(self, integer: Integer) -> Cuts:
        """The comparisons of an integer with constants."""
        if integer.term not in self.cuts:
            self.cuts[integer.term] = Cuts(integer)
        return self.cuts[integer.term]

    def at_least(self, integer: Integer, bound: int) -> str:
        """The Boolean term that is true where the integer is at least a number."""
        place = bisect_left(integer.domain, bound)
        if place == 0 or place > integer.steps:
            return "true" if place == 0 else "false"
        if integer.term in self.literal_of_integer:
            return self.literal_of_integer[integer.term]
        wanted = self.cuts_of(integer).at_least
        if place not in wanted:
            wanted[place] = self.fresh_boolean()
        return wanted[place]

    def equals(self, integer: Integer, value: int) -> str:
        """The Boolean term that is true where the integer has a value."""
        place = bisect_left(integer.domain, value)
        if place > integer.steps or integer.domain[place] != value:
            return "false"
        if place == 0:
            return self.negation(self.at_least(integer, value + 1))
        if place == integer.steps:
            return self.at_least(integer, value)
        wanted = self.cuts_of(integer).equal
        if place not in wanted:
            wanted[place] = self.fresh_boolean()
        return wanted[place]

    # The end.

    def finish(self) -> list[Item]:
        """All items but the goal, in an order in which each name is declared before it is used."""
        self.constraint = None
        for cuts in list(self.cuts.values()):
            self.subject = cuts.integer.term
            self.line = self.lines[cuts.integer.term]
            cuts.write(self)
        return [*self.declarations, *self.channels, *self.statements]
