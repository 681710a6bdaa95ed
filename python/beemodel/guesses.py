"""A bound of what is sought that is guessed: from a plan, by the script, or by doubling.

The constraint "at most the guess" is written with the others. Whatever it rules out is worse than
any solution that it leaves, so the best one of these is the best of all. Where it leaves none, the
guess was too low, and its distance from the least possible value is doubled.
"""
from __future__ import annotations

from collections.abc import Callable
from typing import TYPE_CHECKING, NamedTuple, Optional

from . import weights
from .bounds import Conflict
from .expressions import Comparison, Number
from .greedy import Greedy
from .lines import ModelError
from .presolve import Left, Presolve, left_of, told_of
from .shops import plan_of_shop

if TYPE_CHECKING:
    from .model import Constraint, Goal, Model, Placed, Written
    from .answers import Answer, Values

# So much work is done for each guess.
LIMIT = 1_000_000

# So often a plan is sought that is better than one that is known.
BETTER = 3


class Asked(NamedTuple):
    """A model in statements, the guess that it is written with, and the least that is possible."""

    written: Written
    guess: Optional[int]
    least: int = 0


def sought_of(goal: Goal) -> Number:
    """What is made least: the first objective, or its negation where the greatest is sought."""
    return goal.objectives[0] if goal.direction == "minimize" else -goal.objectives[0]


class Guessing:
    """A model with a goal, whose constraints are told to a presolve."""

    def __init__(self, model: Model, goal: Goal):
        self.model, self.goal, self.sought = model, goal, sought_of(goal)
        self.domains, self.rest = model.narrowed()
        self.told: Optional[Presolve] = None
        self.plan: Values = {}
        try:
            self.told = told_of(self.domains, model, self.rest, goal)
        except Conflict:
            pass

    def least(self) -> int:
        """The least that is possible, as far as it is known."""
        return self.told.ends(self.sought)[0] if self.told else 0

    def planned(self) -> Optional[int]:
        """What a plan comes to that meets each constraint, where one is found: that of a shop, or a
        greedy one, and then a few times a better one is sought, below a quarter of what it may be
        better by."""
        best = self.plan_of_shop()
        if best is not None:
            return best
        best = self.plan_below(None)
        for _ in range(BETTER):
            if best is None or best <= self.least():
                break
            better = self.plan_below(best - 1 - (best - self.least()) // 4)
            if better is None:
                break
            best = better
        return best

    def plan_of_shop(self) -> Optional[int]:
        """What a plan of the tasks that are done one at a time comes to, where one is found."""
        if self.told is None:
            return None
        truths, variables = (it.truth for it in self.model.constraints), [*self.model.variables.values()]
        starts = plan_of_shop(truths, self.sought, self.told.bounds.low, self.least())
        if starts is None:
            return None
        if len(starts) == len(variables):
            return self.taken({it.name: time for it, time in starts.items()})
        bounds = self.told.bounds
        mark, bounds.limit = len(bounds.trail), bounds.work + LIMIT
        try:
            for it, time in starts.items():
                bounds.fix(it, time)
            return self.taken(Greedy(self.told, self.sought, variables).plan())
        except Conflict:
            return None
        finally:
            bounds.undo(mark)

    def taken(self, plan: Optional[Values]) -> Optional[int]:
        """What a plan comes to, where it meets each constraint; it is kept then."""
        if plan is None or not self.model.is_solution(plan):
            return None
        self.plan = plan
        return self.sought.value(plan)

    def plan_below(self, most: Optional[int]) -> Optional[int]:
        """What a greedy plan comes to that is no worse than a bound, where one is found."""
        if self.told is None:
            return None
        bounds, within = self.told.bounds, None
        mark, bounds.limit = len(bounds.trail), bounds.work + LIMIT
        try:
            if most is not None:
                within = self.told.relate(self.sought - most, "leq")
                bounds.run()
            plan = Greedy(self.told, self.sought, [*self.model.variables.values()]).plan()
        except Conflict:
            return None
        finally:
            bounds.undo(mark)
            if within is not None:
                bounds.drop(within, *within.watched())
        return self.taken(plan)

    def asked(self, guess: Optional[int]) -> Asked:
        """The model in statements, with a guess where there is one."""
        if self.told is None:
            return Asked(self.written(Left(self.domains, {}, {}, False), self.rest), None)
        rest, least = self.rest, self.least()
        if guess is None:
            return Asked(self.written(left_of(self.told, self.model, self.goal), rest), None, least)
        within = Comparison(self.sought - guess, "leq")
        bounds = self.told.bounds
        mark, bounds.limit = len(bounds.trail), bounds.work + LIMIT
        made = self.told.relate(within.number, "leq")
        try:
            bounds.run()
            left = left_of(self.told, self.model, self.goal)
        except Conflict:
            left = Left(self.domains, {}, {}, False)
        finally:
            bounds.undo(mark)
            bounds.drop(made, *made.watched())
        return Asked(self.written(left, [*rest, self.placed(within)]), guess, least)

    def placed(self, within: Comparison) -> Placed:
        """The guess as a constraint at the line of the goal."""
        from .model import Constraint

        return len(self.model.constraints), Constraint(within, self.goal.line)

    def written(self, left: Left, rest: list[Placed]) -> Written:
        """The model in statements."""
        return self.model.written_with(left, rest, self.goal)

    def first(self) -> Asked:
        """The model with the guess of a greedy plan, or without one where it is light enough."""
        guess = self.planned()
        if guess is not None or self.told is None:
            return self.asked(guess)
        try:
            asked = self.asked(None)
        except ModelError:
            asked = None
        if asked is None or asked.written.weight() > weights.LIMIT:
            return self.asked(self.least() + 1 + abs(self.least()) // 8)
        return asked


def solve_guessing(
    model: Model, goal: Goal, at_most: Optional[int], run: Callable[[str, Values], Answer]
) -> Answer:
    """Answers a model with a guess, and with greater ones until it has a solution. What answers it
    gets the text and the greedy plan, where one was found."""
    guessing = Guessing(model, goal)
    asked = guessing.first() if at_most is None else guessing.asked(at_most)
    answer = run(model.checked_text(asked.written), guessing.plan)
    while answer.verdict == "UNSATISFIABLE" and asked.guess is not None and guessing.told:
        distance = max(1, asked.guess - asked.least)
        greatest = guessing.told.ends(guessing.sought)[1]
        guess = asked.guess + distance
        asked = guessing.asked(guess if guess < greatest else None)
        answer = run(model.checked_text(asked.written), guessing.plan)
    return answer
