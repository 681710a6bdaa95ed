"""A model: its variables, its constraints and its goal, and the text that says them."""
from __future__ import annotations

import re
import time
from bisect import bisect_left, bisect_right
from collections.abc import Callable, Iterable, Mapping, Sequence
from dataclasses import replace
from importlib import import_module
from typing import TYPE_CHECKING, Any, NamedTuple, Optional, Union

from . import weights
from .answers import Answer, Core, Solutions, Value, Values
from .arrays import Shape, array, name_of, shown_of
from .domains import Domain, domain_of
from .elsewhere import hint, told
from .expressions import (
    GREATEST,
    AllOf,
    BooleanVariable,
    Comparison,
    IntegerVariable,
    Number,
    NumberLike,
    Truth,
    TruthLike,
    flatten,
    members,
    number_of,
    truth_of,
    weighted_sum,
    whole,
)
from .guesses import Asked, Guessing, solve_guessing, sought_of
from .improving import improve_text
from .lines import ModelError, line_of_script, refused
from .presolve import Left, presolved
from .program import program_of
from .running import (
    Folder,
    Hosts,
    Limits,
    OnFound,
    all_text,
    core_text,
    cubes_text,
    resumes,
    solve_text,
)
from .translation import Integer, Item, Translation

# Of these names the class of models has methods, `int` and `bool`.
Whole = int
YesNo = bool

# Values to begin with: by variables or names, or those of an answer.
Start = Union[Answer, Mapping[Any, Value]]


class Constraint(NamedTuple):
    """What has to hold, the line of the script that states it, and its name where it has one."""

    truth: Truth
    line: str
    name: Optional[str] = None

    def __str__(self) -> str:
        return f"{self.line}: {self.name or self.truth}"


# A constraint with its place among those of its model.
Placed = tuple[int, Constraint]


class Goal(NamedTuple):
    """What is sought: `minimize` or `maximize`, and one objective or two."""

    direction: str
    objectives: tuple[Number, ...]
    line: str


class Written(NamedTuple):
    """A model in statements."""

    items: list[Item]
    goal: str

    def text(self) -> str:
        return "".join(f"{it.text}\n" for it in self.items) + f"{self.goal}\n"

    def weight(self) -> int:
        return sum(it.weight for it in self.items)


class Model:
    """Variables, constraints and a goal."""

    def __init__(self) -> None:
        self.variables: dict[str, Union[IntegerVariable, BooleanVariable]] = {}
        self.constraints: list[Constraint] = []
        self.wishes: list[tuple[int, Constraint]] = []
        self.goal: Optional[Goal] = None

    def __repr__(self) -> str:
        return f"<Model of {len(self.variables)} variables and {len(self.constraints)} constraints>"

    if not TYPE_CHECKING:

        def __getattr__(self, name: str) -> object:
            """Tells what there is in place of a name that is looked for in vain."""
            functions = import_module(__package__).__all__
            raise AttributeError(told(name, hint(name, [*dir(type(self)), *functions])))

    # Variables.

    def bool(self, name: Optional[str] = None, shown: str = "") -> BooleanVariable:
        """A Boolean. Weight: 1."""
        name, line = self.checked_name(name)
        made = BooleanVariable(name, line, shown)
        self.variables[name] = made
        return made

    def bools(self, name: str, shape: Shape) -> Any:
        """Booleans at once: `bools("works", 7)` is a list, `bools("works", (5, 7))` a list of
        lists, and `bools("works", keys)` a dictionary."""
        return array(shape, lambda key: self.bool(*self.names(name, key)))

    def ints(
        self, name: str, shape: Shape, low: Union[int, Iterable[int]], high: Optional[int] = None
    ) -> Any:
        """Integers with one domain at once, in the shapes of `bools`."""

        def make(key: Any) -> IntegerVariable:
            made, shown = self.names(name, key)
            return self.int(made, low, high, shown)

        return array(shape, make)

    def names(self, name: str, key: Any) -> tuple[str, str]:
        """The name of a member of an array in the text, and how it is shown."""
        return name_of(name, key, self.variables), shown_of(name, key)

    def int(
        self,
        name: Optional[str],
        low: Union[int, Iterable[int]],
        high: Optional[int] = None,
        shown: str = "",
    ) -> IntegerVariable:
        """An integer: `int("x", 1, 5)` has the values 1 to 5, and `int("x", [1, 4, 9])` those of
        the list. Where the name is `None`, it gets one.

        Weight: 3 for each value.
        """
        name, line = self.checked_name(name)
        if high is None:
            listed = [low] if isinstance(low, int) else low
            domain = domain_of(whole(it, name) for it in listed)
        else:
            domain = range(whole(low, name), whole(high, name) + 1)
        if not domain:
            raise refused(f"{name}: the domain has no value")
        for end in (domain[0], domain[-1]):
            if abs(end) > GREATEST:
                raise refused(f"{name}: {end} is beyond {GREATEST}, the language's greatest number")
        if weights.declared(len(domain) - 1) > weights.LIMIT:
            raise refused(f"{name}: {len(domain)} values weigh more than {weights.LIMIT}")
        made = IntegerVariable(name, domain, line, shown)
        self.variables[name] = made
        return made

    def checked_name(self, name: Optional[str]) -> tuple[str, str]:
        """The name and the line of the script, where the name is free and in form."""
        line = line_of_script()
        if name is None:
            name = name_of("v", len(self.variables), self.variables)
        if not isinstance(name, str) or not re.fullmatch(r"[A-Za-z][A-Za-z_0-9]*", name):
            raise refused(f"{name!r} is no name: a name is a letter and then letters, digits and _")
        if name in ("true", "false"):
            raise refused(f"{name} is the language's own word, and no name")
        if name in self.variables:
            raise refused(f"{name} is declared already, at {self.variables[name].line}")
        return name, line

    # What has to hold, and what is sought.

    def add(
        self, *truths: Union[TruthLike, Iterable[TruthLike]], name: Optional[str] = None
    ) -> None:
        """States that each of the constraints holds; lists of them are taken as well. A core shows
        them by their name."""
        line = line_of_script()
        for it in truths:
            each = it if isinstance(it, Iterable) else [it]
            self.constraints.extend(Constraint(truth_of(truth), line, name) for truth in each)

    def soft(self, truth: TruthLike, weight: Whole = 1, name: Optional[str] = None) -> None:
        """Takes in what should hold: where it doesn't, its weight is added to the penalty."""
        price = whole(weight, "the weight of a soft constraint")
        self.wishes.append((price, Constraint(truth_of(truth), line_of_script(), name)))

    @property
    def penalty(self) -> Number:
        """What the soft constraints that don't hold weigh together. It is made least by
        `minimize(model.penalty)`, or stands in another goal or a constraint."""
        prices = [price for price, _ in self.wishes]
        return weighted_sum(prices, [~it.truth for _, it in self.wishes])

    def minimize(self, objective: NumberLike, then: Optional[NumberLike] = None) -> None:
        """Seeks the least value, and among the solutions that have it the least value of a second
        one.

        Where the greatest second value is sought, `then` is its negation.
        """
        self.set_goal("minimize", objective, then)

    def maximize(self, objective: NumberLike, then: Optional[NumberLike] = None) -> None:
        """Seeks the greatest value, and among the solutions that have it the greatest of a second
        one."""
        self.set_goal("maximize", objective, then)

    def set_goal(self, direction: str, objective: NumberLike, then: Optional[NumberLike]) -> None:
        """Takes the place of the goal before."""
        objectives = [objective] if then is None else [objective, then]
        self.goal = Goal(direction, tuple(number_of(it) for it in objectives), line_of_script())

    # The text, and the answer.

    def written(self, presolve: YesNo = True) -> Written:
        """The model in statements. An error names the constraint and its line."""
        domains, rest = self.narrowed()
        left = presolved(domains, self, rest, self.goal) if presolve else Left(domains, {}, {})
        return self.written_with(left, rest, self.goal)

    def asked(self, at_most: Optional[Whole] = None) -> Asked:
        """The model in statements as `solve` asks it at first, with a bound of what is sought."""
        if self.goal is None:
            return Asked(self.written(), None)
        guessing = Guessing(self, self.goal)
        return guessing.first() if at_most is None else guessing.asked(at_most)

    def written_for_all(self, presolve: YesNo) -> Written:
        """The model in statements without its goal."""
        domains, rest = self.narrowed()
        left = presolved(domains, self, rest, None) if presolve else Left(domains, {}, {})
        return self.written_with(left, rest, None)

    def written_apart(self) -> Written:
        """The model without its goal, and with a statement for each constraint: no domain is
        narrowed."""
        variables = self.variables.items()
        domains = {n: it.domain for n, it in variables if isinstance(it, IntegerVariable)}
        left = Left(domains, {}, {}, is_apart=True)
        return self.written_with(left, list(enumerate(self.constraints)), None)

    def written_with(self, left: Left, rest: list[Placed], goal: Optional[Goal]) -> Written:
        """The variables with what is left of them, these constraints and this goal in
        statements."""
        domains = left.domains
        translation = Translation(self, domains)
        for name, variable in self.variables.items():
            translation.line, translation.subject = variable.line, name
            if isinstance(variable, BooleanVariable):
                translation.declare_boolean(name)
            else:
                translation.declare_integer(name, domains[name] or variable.domain[:1])
                if not domains[name]:
                    domains[name] = variable.domain[:1]
                    translation.clause([])
        translation.take(left)
        for place, it in rest:
            translation.constraint = place
            translation.line, translation.subject = it.line, it.truth
            it.truth.post(translation)
        translation.constraint = None
        sought = self.written_goal(translation, goal)
        return Written(translation.finish(), sought)

    def written_goal(self, translation: Translation, goal: Optional[Goal]) -> str:
        """The last item of the text."""
        if goal is None:
            return "solve satisfy"
        translation.line, translation.subject = goal.line, f"{goal.direction}"
        names = [self.objective(translation, it) for it in goal.objectives]
        return f"solve {goal.direction} {' then '.join(names)}"

    def objective(self, translation: Translation, number: Number) -> str:
        """The declared integer that is an objective."""
        made: Integer = translation.integer(number)
        if made.steps or made.term in self.variables:
            return made.term
        name = translation.fresh_name()
        translation.declare_integer(name, made.domain)
        return name

    def narrowed(self) -> tuple[dict[str, Domain], list[Placed]]:
        """The domains without the values that constraints on one variable rule out, and the
        constraints that are left. The weight is counted by the declared domains, so that this is
        lighter."""
        rest: list[Placed] = []
        bounds: dict[str, list[Comparison]] = {}
        for place, constraint in enumerate(self.constraints):
            for truth in members(constraint.truth, AllOf):
                atom = self.only_variable(truth) if isinstance(truth, Comparison) else None
                if isinstance(truth, Comparison) and atom is not None:
                    bounds.setdefault(atom.name, []).append(truth)
                else:
                    rest.append((place, Constraint(truth, constraint.line)))
        domains: dict[str, Domain] = {
            name: narrowed_domain(variable, bounds.get(name, []))
            for name, variable in self.variables.items()
            if isinstance(variable, IntegerVariable)
        }
        return domains, rest

    def only_variable(self, truth: Comparison) -> Optional[IntegerVariable]:
        """The declared integer that a comparison is about, where it is about one alone."""
        atoms, _ = flatten(truth.number)
        atom = next(iter(atoms)) if len(atoms) == 1 else None
        if isinstance(atom, IntegerVariable) and self.variables.get(atom.name) is atom:
            return atom
        return None

    def text(self, presolve: YesNo = True) -> str:
        """The model in the language of `docs/LANGUAGE.md`."""
        return self.written(presolve).text()

    def weight(self, presolve: YesNo = True) -> Whole:
        """What the model weighs; the program takes at most 67,108,864."""
        return sum(it.weight for it in self.written(presolve).items)

    def heaviest(self, count: Whole = 5, presolve: YesNo = True) -> list[tuple[str, Whole]]:
        """The lines of the script whose statements weigh most, and what they weigh together."""
        return heaviest_lines(self.written(presolve).items)[:count]

    def solve(
        self,
        budget: Optional[Whole] = None,
        program: Optional[str] = None,
        folder: Folder = None,
        *,
        seconds: Optional[float] = None,
        on_solution: Optional[OnFound] = None,
        progress: YesNo = False,
        start: Optional[Start] = None,
        jobs: Optional[Whole] = None,
        hosts: Optional[Hosts] = None,
        presolve: YesNo = True,
        at_most: Optional[Whole] = None,
        at_least: Optional[Whole] = None,
    ) -> Answer:
        """Runs `bee solve` and then `bee check`; what is given back was accepted.

        The search ends after so many learned clauses (`budget`) or wall-clock seconds, or by an
        interrupt such as Ctrl-C; then the best solution known is checked and given back, with the
        verdict `UNKNOWN`. Each better solution is handed to `on_solution` as it is found;
        `progress` shows them on standard error. The search begins from the values of `start`,
        where they are a solution, and else goes on without them.

        The program is the argument, the environment variable BEE, `bee` on the PATH, or `bee`
        beside the package. With a folder, the model's text and the answer stay there.

        What is sought is bounded by a plan that is made greedily, or by `at_most`, and by
        `at_least` where the greatest is sought, and further away where no solution is as good;
        `presolve=False` leaves out both, and all that narrows domains.

        With `jobs` so many workers solve the model's cubes side by side, on this machine or on each
        of the `hosts`, which are a list or a file of them; `budget` and `start` have no effect then.
        """
        first = {} if start is None else self.start_values(start)
        told, begun = self.own_found(on_solution), time.monotonic()

        def run(text: str, plan: Values) -> Answer:
            left = None if seconds is None else max(0.0, seconds + begun - time.monotonic())
            if jobs is not None or hosts is not None:
                limits = Limits(None, left, told, progress, program)
                return cubes_text(text, jobs or 1, hosts, limits, folder)
            known = first or (plan if resumes(program_of(program)) else {})
            return solve_text(text, budget, program, folder, left, told, progress, known)

        guess = self.guess_of(at_most, at_least)
        return self.owned(self.guessed(first, presolve, guess, run))

    def improve(
        self,
        seconds: Optional[float] = 60.0,
        seed: Whole = 0,
        *,
        steps: Optional[Whole] = None,
        start: Optional[Start] = None,
        on_solution: Optional[OnFound] = None,
        progress: YesNo = False,
        program: Optional[str] = None,
        folder: Folder = None,
        presolve: YesNo = True,
    ) -> Answer:
        """Seeks better and better solutions by a large neighbourhood search, and gives back the
        best one, checked.

        Again and again a part of the variables keeps its values and `bee solve` seeks a better
        solution in the rest; which part that is depends on the seed, on what came before, and not
        on time. It ends after so many wall-clock seconds, or so many steps, or by an interrupt.
        The last call of the program takes the whole model, and may show the optimum. The plan is
        never worse than that of `start`. The other arguments are those of `solve`.
        """
        if self.goal is None:
            raise refused("improve: the model has no goal; state one by minimize or maximize")
        first = {} if start is None else self.start_values(start)
        told, begun = self.own_found(on_solution), time.monotonic()

        def run(text: str, plan: Values) -> Answer:
            left = None if seconds is None else max(0.0, seconds + begun - time.monotonic())
            limits = Limits(None, left, told, progress, program)
            return improve_text(text, limits, seed, steps, first or plan, folder)

        return self.owned(self.guessed(first, presolve, None, run))

    def guess_of(self, at_most: Optional[Whole], at_least: Optional[Whole]) -> Optional[Whole]:
        """The bound of what is made least that a script states."""
        named = [("minimize", "at_most", at_most), ("maximize", "at_least", at_least)]
        for direction, name, bound in named:
            if bound is None:
                continue
            if self.goal is None or self.goal.direction != direction:
                raise refused(f"solve: {name} bounds a goal that is stated by {direction}")
            whole(bound, name)
        return at_most if at_least is None else -at_least

    def guessed(
        self,
        first: Values,
        presolve: YesNo,
        at_most: Optional[Whole],
        run: Callable[[str, Values], Answer],
    ) -> Answer:
        """The answer that a function gives to the text of the model and a greedy plan, with a bound
        of what is sought. Where values to begin with are a solution, no bound rules them out."""
        if not presolve or self.goal is None:
            return run(self.checked_text(self.written(presolve)), {})
        if at_most is None and self.is_solution(first):
            at_most = sought_of(self.goal).value(first)
        return solve_guessing(self, self.goal, at_most, run)

    def is_solution(self, values: Values) -> YesNo:
        """Whether values of all variables satisfy the constraints."""
        if any(it not in values for it in self.variables):
            return False
        is_inside = all(
            not isinstance(it, IntegerVariable) or values[name] in it.domain
            for name, it in self.variables.items()
        )
        return is_inside and all(it.truth.holds(values) for it in self.constraints)

    def start_values(self, start: Start) -> Values:
        """Values to begin with, by name; an error where a name isn't one of the model's."""
        given = start.known_values() if isinstance(start, Answer) else start
        values: Values = {}
        for key, value in given.items():
            name = key if isinstance(key, str) else getattr(key, "name", str(key))
            variable = self.variables.get(name)
            if variable is None:
                raise refused(f"start: there is no variable {name} in the model")
            if not isinstance(key, str) and variable is not key:
                raise refused(f"start: {name} is a variable of another model")
            number = whole(value, f"start: {name}")
            is_truth = isinstance(variable, BooleanVariable) and number in (0, 1)
            values[name] = number == 1 if is_truth else number
        return values

    def own_found(self, on_solution: Optional[OnFound]) -> Optional[OnFound]:
        """The function to which better solutions are handed with the model's own names alone."""
        if on_solution is None:
            return None
        told: OnFound = on_solution
        return lambda found: told(replace(found, values=self.own(found.values)))

    def owned(self, answer: Answer) -> Answer:
        """The answer with the values of the model's own names alone."""
        answer.model = self
        if answer.values is not None:
            answer.values = self.own(answer.values)
        return answer

    def all(
        self,
        budget: Optional[Whole] = None,
        program: Optional[str] = None,
        folder: Folder = None,
        presolve: YesNo = True,
    ) -> Solutions:
        """Runs `bee all` and then `bee checkall`: every solution, whatever the goal is, as a list
        that was accepted.

        Solutions that differ only in what the layer itself declares are one. The arguments are
        those of `solve`.
        """
        written = self.written_for_all(presolve)
        found = all_text(self.checked_text(written), budget, program, folder)
        each = {tuple(own.values()): own for own in map(self.own, found.values)}
        found.values = list(each.values())
        return found

    def core(
        self,
        budget: Optional[Whole] = None,
        program: Optional[str] = None,
        folder: Folder = None,
    ) -> Core:
        """Runs `bee core` and then `bee checkcore`: where there is no solution, constraints that
        cannot hold together.

        Of the statements that they are written in none of the core's can be left out. The
        arguments are those of `solve`.
        """
        written = self.written_apart()
        found = core_text(self.checked_text(written), budget, program, folder)
        if found.values is not None:
            found.values = self.own(found.values)
        if found.statements is not None:
            stated = (written.items[number - 1].constraint for number in found.statements)
            places = {it for it in stated if it is not None}
            found.constraints = [self.constraints[it] for it in sorted(places)]
        return found

    def cures(
        self, core: Core, budget: Optional[Whole] = None, program: Optional[str] = None
    ) -> list[str]:
        """The names of a core's constraints each of which, left out alone, leaves a model that has
        a solution."""
        return [it for it in names_of(core) if self.without(it).solve(budget, program)]

    def prices(
        self, core: Core, budget: Optional[Whole] = None, program: Optional[str] = None
    ) -> dict[str, Whole]:
        """The names that `cures` tells, each with the penalty of the soft constraints where it is
        left out: the least one, or, where the budget was spent, the least that was found."""
        found = {}
        for name in names_of(core):
            left = self.without(name)
            left.wishes = self.wishes
            left.minimize(left.penalty)
            answer = left.solve(budget, program)
            if answer.objective is not None:
                found[name] = answer.objective
        return found

    def without(self, name: str) -> Model:
        """This model without the constraints of a name, and without its goal."""
        made = Model()
        made.variables = self.variables
        made.constraints = [it for it in self.constraints if it.name != name]
        return made

    def own(self, values: Values) -> Values:
        """The values of the model's own names, in their order."""
        return {name: values[name] for name in self.variables}

    def checked_text(self, written: Written) -> str:
        """The text, where the program can take it."""
        weight = sum(it.weight for it in written.items)
        if weight > weights.LIMIT:
            shares = ", ".join(f"{line} {part}" for line, part in heaviest_lines(written.items)[:3])
            limit = weights.LIMIT
            raise ModelError(f"the model weighs {weight}, above {limit}; heaviest: {shares}")
        return written.text()


def names_of(core: Core) -> list[str]:
    """The names of a core's constraints, each once."""
    return [*dict.fromkeys(it.name for it in core.constraints or () if it.name is not None)]


def narrowed_domain(variable: IntegerVariable, comparisons: Sequence[Comparison]) -> Domain:
    """The values of a variable for which comparisons of it alone hold."""
    domain, ruled_out = variable.domain, set()
    for it in comparisons:
        atoms, constant = flatten(it.number)
        factor = atoms[variable]
        value, rest = divmod(-constant, factor)
        if it.relation == "leq" and factor > 0:
            domain = domain[: bisect_right(domain, value)]
        elif it.relation == "leq":
            domain = domain[bisect_left(domain, value + bool(rest)) :]
        elif it.relation == "eq":
            domain = domain_of([value] if not rest and value in domain else [])
        elif not rest:
            ruled_out.add(value)
    return domain_of(it for it in domain if it not in ruled_out) if ruled_out else domain


def heaviest_lines(items: Sequence[Item]) -> list[tuple[str, int]]:
    """The lines of a script by what their items weigh, the heaviest first."""
    shares: dict[str, int] = {}
    for it in items:
        shares[it.line] = shares.get(it.line, 0) + it.weight
    return sorted(shares.items(), key=lambda share: -share[1])
