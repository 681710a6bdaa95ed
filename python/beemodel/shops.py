"""Plans of tasks of which each machine does one at a time, as in job shops.

Starts are places of a graph, and an arc says how long after one place another one comes at the
earliest. A plan puts the tasks of each machine in an order, and each place as early as its arcs
allow. The first plans are made task by task, by several rules; then a tabu search moves tasks on a
longest way through the graph. What comes out is only a guess that is tried on each constraint.
"""
from __future__ import annotations

import random
from collections.abc import Callable, Iterable, Mapping, Sequence
from typing import NamedTuple, Optional

from .disjunctive import NoOverlap
from .expressions import AllOf, Comparison, IntegerVariable, Number, Truth, flatten, members
from .functions import Extreme

# Before all times.
LONG_AGO = -(1 << 62)

# So many plans are made task by task, and from the best of them searches begin.
PLANS, BETTERED = 24, 3

# Of a hundred places there are 10,000 moves in all, and fewer of more or fewer places; a search ends
# after so many for each place that better nothing, and the next one begins so many moves at random
# from the best plan.
MOST, PATIENCE, AWAY = 1_000_000, 5, 4

Arcs = list[list[tuple[int, int]]]


class Machine(NamedTuple):
    """Tasks that are done one at a time: their places, how far behind its place each begins, and how
    far behind it each has ended."""

    places: list[int]
    begins: dict[int, int]
    ends: dict[int, int]


class Plan(NamedTuple):
    """The order of the tasks of each machine, when each place comes, and when all is done."""

    orders: list[list[int]]
    heads: list[int]
    length: int


class Cycle(Exception):
    """A place that would have to come before itself."""


class Shop:
    """A graph of starts, machines, and how long after each place the end is, at the least."""

    def __init__(self, first: Sequence[int], arcs: Arcs, last: Sequence[int], machines: Sequence[Machine]):
        self.first, self.arcs, self.last, self.machines = first, arcs, last, machines
        self.size = len(first)
        self.back: Arcs = [[] for _ in first]
        for place, each in enumerate(arcs):
            for other, gap in each:
                self.back[other].append((place, gap))
        self.on: list[list[int]] = [[] for _ in first]
        for at, machine in enumerate(machines):
            for place in machine.places:
                self.on[place].append(at)
        self.tails = self.longest([[] for _ in machines])[1]
        self.steps = [self.step(place) for place in range(self.size)]

    def step(self, place: int) -> int:
        """How long after a place any other one comes at the earliest that is behind it."""
        gaps = [gap for _, gap in self.arcs[place]]
        for at in self.on[place]:
            machine = self.machines[at]
            gaps.append(machine.ends[place] - max(machine.begins.values()))
        return min(gaps, default=-LONG_AGO)

    # Longest ways.

    def between(self, at: int, one: int, other: int) -> int:
        """How long after a place the next one of a machine comes at the earliest."""
        machine = self.machines[at]
        return machine.ends[one] - machine.begins[other]

    def links(self, orders: Sequence[Sequence[int]]) -> tuple[Arcs, list[int]]:
        """The arcs with those that the orders add, and how many lead to each place."""
        ahead, count = [[*it] for it in self.arcs], [*map(len, self.back)]
        for order, (_, begins, ends) in zip(orders, self.machines):
            for one, other in zip(order, order[1:]):
                ahead[one].append((other, ends[one] - begins[other]))
                count[other] += 1
        return ahead, count

    def longest(self, orders: Sequence[Sequence[int]]) -> tuple[list[int], list[int]]:
        """When each place comes at the earliest, and how long after it the end is."""
        ahead, open_arcs = self.links(orders)
        heads, listed = [*self.first], []
        ready = [place for place, count in enumerate(open_arcs) if not count]
        while ready:
            place = ready.pop()
            listed.append(place)
            head = heads[place]
            for other, gap in ahead[place]:
                if head + gap > heads[other]:
                    heads[other] = head + gap
                if open_arcs[other] == 1:
                    ready.append(other)
                open_arcs[other] -= 1
        if len(listed) < self.size:
            raise Cycle
        tails = [*self.last]
        for place in reversed(listed):
            tail = tails[place]
            for other, gap in ahead[place]:
                if gap + tails[other] > tail:
                    tail = gap + tails[other]
            tails[place] = tail
        return heads, tails

    def plan(self, orders: list[list[int]]) -> Plan:
        """The plan of these orders."""
        heads, _ = self.longest(orders)
        return Plan(orders, heads, self.length(heads))

    def length(self, heads: Sequence[int]) -> int:
        """When all is done."""
        return max(head + last for head, last in zip(heads, self.last))

    # Plans that are made task by task.

    def built(self, priority: Callable[[int, int, int], float]) -> Plan:
        """A plan in which, of the tasks that hold up the one that can end first, the one of the
        least priority is next. A priority is told a place, when it comes, and how long its task
        takes."""
        heads, _ = self.longest([[] for _ in self.machines])
        left = [{*it.places} for it in self.machines]
        orders: list[list[int]] = [[] for _ in self.machines]
        while any(left):
            place = self.next_of(heads, left, priority)
            for machine in self.on[place]:
                left[machine].discard(place)
                orders[machine].append(place)
                for other in left[machine]:
                    self.push(heads, other, heads[place] + self.between(machine, place, other))
        return self.plan(orders)

    def next_of(
        self, heads: Sequence[int], left: Sequence[set[int]], priority: Callable[[int, int, int], float]
    ) -> int:
        """The task that comes next."""
        done, at = min(
            (heads[place] + self.machines[at].ends[place], at)
            for at, places in enumerate(left)
            for place in places
        )
        machine = self.machines[at]
        held = [it for it in sorted(left[at]) if heads[it] + machine.begins[it] < done]
        held = held or [it for it in sorted(left[at]) if heads[it] + machine.ends[it] == done]
        return min(held, key=lambda it: priority(it, heads[it], machine.ends[it] - machine.begins[it]))

    def push(self, heads: list[int], place: int, time: int) -> None:
        """A place comes at a time or later, and so do those behind it."""
        waiting = [(place, time)]
        for _ in range(100 * self.size):
            if not waiting:
                return
            at, begin = waiting.pop()
            if begin > heads[at]:
                heads[at] = begin
                waiting.extend((other, begin + gap) for other, gap in self.arcs[at])
        raise Cycle

    def first_plans(self, chance: random.Random) -> list[Plan]:
        """Plans by several rules, the shortest first."""
        rules: list[Callable[[int, int, int], float]] = [
            lambda place, head, duration: -self.tails[place],
            lambda place, head, duration: head - self.tails[place],
            lambda place, head, duration: head,
            lambda place, head, duration: duration,
            lambda place, head, duration: -duration,
        ]
        while len(rules) < PLANS:
            rules.append(lambda place, head, duration: -self.tails[place] * chance.uniform(0.5, 1.5))
        made: dict[str, Plan] = {}
        for rule in rules[: 2 + MOST // self.size**2]:
            plan = self.built(rule)
            made.setdefault(str(plan.orders), plan)
        return sorted(made.values(), key=lambda it: it.length)

    # A search among plans.

    def best_plan(self, least: int) -> Plan:
        """The best plan that is found; a search ends where one is as short as can be."""
        chance = random.Random(0)
        plans = self.first_plans(chance)
        best, left = plans[0], min(self.size**2, MOST // self.size)
        for number in range(left):
            if best.length <= least or left <= 0:
                break
            plan, away = (plans[number], 0) if number < min(BETTERED, len(plans)) else (best, AWAY)
            search = Search(self, plan, chance, away)
            search.run(least, left)
            left -= 1 + search.turn
            best = search.best if search.best.length <= best.length else best
        return best


class Move(NamedTuple):
    """A task of a machine is moved from a place of its order to another one, and how long the plan
    is then, about."""

    machine: int
    source: int
    target: int
    about: int


class Search:
    """A tabu search that moves tasks on a longest way to the ends of their block on a machine. It
    begins some moves at random away from a plan."""

    def __init__(self, shop: Shop, plan: Plan, chance: random.Random, away: int):
        self.shop, self.chance, self.turn = shop, chance, 0
        self.orders = [[*it] for it in plan.orders]
        self.heads, self.tails = shop.longest(self.orders)
        self.until: dict[tuple[int, int, int], int] = {}
        for _ in range(away):
            moves = self.moves()
            if moves:
                self.take(chance.choice(moves))
        self.best = self.plan()

    def plan(self) -> Plan:
        """The plan that there is now."""
        return Plan([[*it] for it in self.orders], self.heads, self.shop.length(self.heads))

    def run(self, least: int, most: int) -> None:
        """Makes so many moves at most."""
        last = self.turn
        while self.best.length > least and self.turn < most and self.turn - last <= PATIENCE * self.shop.size:
            moves = self.moves()
            if not moves:
                break
            self.take(self.chosen(moves))
            if self.shop.length(self.heads) < self.best.length:
                self.best, last = self.plan(), self.turn

    def chosen(self, moves: list[Move]) -> Move:
        """The best move that turns nothing back, or one at random."""
        allowed = [it for it in moves if it.about < self.best.length or not self.is_tabu(it)]
        if not allowed:
            return self.chance.choice(moves)
        return min(allowed, key=lambda it: (it.about, self.chance.random()))

    def turned(self, move: Move) -> list[tuple[int, int]]:
        """The pairs of tasks that a move turns, as they stand before it."""
        order, source, target = self.orders[move.machine], move.source, move.target
        if source < target:
            return [(order[source], it) for it in order[source + 1 : target + 1]]
        return [(it, order[source]) for it in order[target:source]]

    def is_tabu(self, move: Move) -> bool:
        """Whether a move turns a pair back that was turned not long ago."""
        each = ((move.machine, other, one) for one, other in self.turned(move))
        return any(self.until.get(it, 0) > self.turn for it in each)

    def take(self, move: Move) -> None:
        """Makes a move; one that makes a round way is taken back, and not made for long."""
        self.turn += 1
        until = self.turn + 8 + self.chance.randrange(8)
        each, order = self.turned(move), self.orders[move.machine]
        order.insert(move.target, order.pop(move.source))
        try:
            self.heads, self.tails = self.shop.longest(self.orders)
            self.until.update(((move.machine, *it), until) for it in each)
        except Cycle:
            order.insert(move.source, order.pop(move.target))
            self.until.update(((move.machine, other, one), self.turn + MOST) for one, other in each)

    # Moves.

    def moves(self) -> list[Move]:
        """Each task of a block to its beginning and its end, where no round way comes of it."""
        found = []
        for at, first, last in self.blocks():
            beside = {it: self.beside(it, at) for it in self.orders[at][first : last + 1]}
            wanted = {(it, end) for it in range(first, last + 1) for end in (first, last) if it != end}
            for source, target in sorted(wanted):
                if self.is_possible(at, source, target):
                    found.append(Move(at, source, target, self.about(at, source, target, beside)))
        return found

    def beside(self, place: int, at: int) -> tuple[int, int]:
        """When a place comes at the earliest, and how long after it the end is, by all that is not
        on a machine."""
        head, tail = self.shop.first[place], self.shop.last[place]
        for other, gap in self.before(place, at):
            head = max(head, self.heads[other] + gap)
        for other, gap in self.ahead(place, at):
            tail = max(tail, self.tails[other] + gap)
        return head, tail

    def blocks(self) -> list[tuple[int, int, int]]:
        """Two or more tasks on a longest way that are next to each other on a machine: the machine,
        and the first and the last place in its order."""
        way, found = self.way(), []
        follows = dict(zip(way, way[1:]))
        for at in {it for place in way for it in self.shop.on[place]}:
            order, first = self.orders[at], None
            for spot, (one, other) in enumerate(zip(order, [*order[1:], -1])):
                if follows.get(one) == other:
                    first = spot if first is None else first
                elif first is not None:
                    found.append((at, first, spot))
                    first = None
        return found

    def way(self) -> list[int]:
        """A longest way, at random where there are several."""
        heads, tails, shop = self.heads, self.tails, self.shop
        length = shop.length(heads)
        on_it = [it for it in range(shop.size) if heads[it] + tails[it] == length]
        found = [self.chance.choice([it for it in on_it if heads[it] == shop.first[it]])]
        while True:
            place = found[-1]
            each = [
                it
                for it, gap in self.ahead(place)
                if heads[it] == heads[place] + gap and heads[it] + tails[it] == length
            ]
            if not each:
                return found
            found.append(self.chance.choice(each))

    def ahead(self, place: int, but: int = -1) -> list[tuple[int, int]]:
        """The places right behind one, but for one machine, and how long after it they come."""
        found = self.shop.arcs[place]
        for at in self.shop.on[place]:
            order = self.orders[at]
            spot = order.index(place) + 1
            if at != but and spot < len(order):
                found = [*found, (order[spot], self.shop.between(at, place, order[spot]))]
        return found

    def before(self, place: int, but: int = -1) -> list[tuple[int, int]]:
        """The places right before one, but for one machine, and how long after them it comes."""
        found = self.shop.back[place]
        for at in self.shop.on[place]:
            order = self.orders[at]
            spot = order.index(place) - 1
            if at != but and spot >= 0:
                found = [*found, (order[spot], self.shop.between(at, order[spot], place))]
        return found

    def is_possible(self, at: int, source: int, target: int) -> bool:
        """Whether it is sure, but for tasks that take no time, that a move makes no round way."""
        order, heads, steps = self.orders[at], self.heads, self.shop.steps
        task, end = order[source], order[target]
        if source < target:
            return all(it != end and heads[it] + steps[it] > heads[end] for it, _ in self.ahead(task, at))
        time = heads[end] + steps[end]
        return all(it != end and heads[it] < time for it, _ in self.before(task, at))

    def about(self, at: int, source: int, target: int, beside: Mapping[int, tuple[int, int]]) -> int:
        """How long the plan is behind a move, by the ways through the tasks that change places."""
        order, machine = self.orders[at], self.shop.machines[at]
        begins, ends = machine.begins, machine.ends
        low, high = min(source, target), max(source, target)
        placed = order[low : high + 1]
        placed.insert(target - low, placed.pop(source - low))
        time = self.heads[order[low - 1]] + ends[order[low - 1]] if low else LONG_AGO
        heads = []
        for it in placed:
            head, begin = beside[it][0], time - begins[it]
            head = begin if begin > head else head
            heads.append(head)
            time = head + ends[it]
        most, behind = LONG_AGO, order[high + 1 : high + 2]
        time = self.tails[behind[0]] - begins[behind[0]] if behind else LONG_AGO
        for it, head in zip(reversed(placed), reversed(heads)):
            tail, end = beside[it][1], time + ends[it]
            tail = end if end > tail else tail
            most = head + tail if head + tail > most else most
            time = tail - begins[it]
        return most


# What a model has of it.


def plan_of_shop(
    truths: Iterable[Truth], sought: Number, first: Mapping[Number, int], least: int
) -> Optional[dict[IntegerVariable, int]]:
    """When each task of a model begins in a plan, where it is a shop and the end of all is sought,
    which is never before `least`; `first` has the least value of each variable."""
    drawn = drawing_of(truths, sought, first)
    if drawn is None:
        return None
    try:
        plan = drawn.shop().best_plan(least)
    except Cycle:
        return None
    return dict(zip(drawn.places, plan.heads))


def drawing_of(truths: Iterable[Truth], sought: Number, first: Mapping[Number, int]) -> Optional[Drawing]:
    """The shop of a model, where it is one."""
    parts = [it for truth in truths for it in members(truth, AllOf)]
    machines = [it for it in parts if isinstance(it, NoOverlap)]
    made = Drawing(first)
    if not machines or not all(made.take_machine(it) for it in machines):
        return None
    for it in parts:
        if isinstance(it, Comparison):
            made.take_comparison(it)
    is_one = made.take_goal(sought) and all(it in first for it in made.places)
    return made if is_one else None


class Drawing:
    """A shop as it is drawn from the constraints of a model."""

    def __init__(self, first: Mapping[Number, int]):
        self.first = first
        self.places: dict[IntegerVariable, int] = {}
        self.arcs: list[tuple[int, int, int]] = []
        self.machines: list[Machine] = []
        self.last: dict[int, int] = {}

    def place(self, variable: IntegerVariable) -> int:
        """The place of a variable."""
        return self.places.setdefault(variable, len(self.places))

    def moment(self, number: Number) -> Optional[tuple[int, int]]:
        """A place and how far behind it a number is, where it is a variable and a constant."""
        atoms, constant = flatten(number)
        if [*atoms.values()] != [1]:
            return None
        variable = next(iter(atoms))
        return (self.place(variable), constant) if isinstance(variable, IntegerVariable) else None

    def take_machine(self, truth: NoOverlap) -> bool:
        """Takes in tasks that are done one at a time, where each surely is, and takes a time that is
        known."""
        begins, ends = {}, {}
        for task in truth.tasks:
            moments = self.moment(task.start), self.moment(task.end)
            if task.present is not None or moments[0] is None or moments[1] is None:
                return False
            begins[moments[0][0]], ends[moments[1][0]] = moments[0][1], moments[1][1]
        self.machines.append(Machine([*begins], begins, ends))
        return truth.gaps is None and len(begins) == len(truth.tasks) and [*begins] == [*ends]

    def take_comparison(self, truth: Comparison) -> None:
        """Takes in that a variable is at least another one and a constant, or at least the greatest
        of some."""
        atoms, constant = flatten(truth.number)
        signs = {factor: atom for atom, factor in atoms.items()}
        if truth.relation == "neq" or len(atoms) != 2 or {*signs} != {1, -1}:
            return
        for sign in (1, -1) if truth.relation == "eq" else (1,):
            one, other = signs[sign], signs[-sign]
            if isinstance(one, Extreme) and isinstance(other, IntegerVariable):
                for moment in self.moments(one) or ():
                    self.arcs.append((moment[0], self.place(other), moment[1] + sign * constant))
            elif truth.relation == "leq" and {type(one), type(other)} == {IntegerVariable}:
                self.take_order(one, other, constant)

    def take_order(self, one: Number, other: Number, gap: int) -> None:
        """Takes in that a variable is at least another one and a constant."""
        assert isinstance(one, IntegerVariable) and isinstance(other, IntegerVariable)
        self.arcs.append((self.place(one), self.place(other), gap))

    def moments(self, number: Extreme) -> Optional[list[tuple[int, int]]]:
        """The members of a greatest value, where each is a variable and a constant."""
        each = [self.moment(it) for it in number.numbers if flatten(it)[0]]
        found = [it for it in each if it is not None]
        return found if number.name == "max" and len(found) == len(each) else None

    def take_goal(self, sought: Number) -> bool:
        """Takes in that the least value is sought of a variable, or of the greatest of some."""
        atoms, constant = flatten(sought)
        atom = next(iter(atoms), None)
        if [*atoms.values()] != [1]:
            return False
        if isinstance(atom, Extreme):
            moments, shift = self.moments(atom) or [], constant
        else:
            alone, shift = self.moment(sought), 0
            moments = [] if alone is None else [alone]
        for place, behind in moments:
            self.last[place] = max(behind + shift, self.last.get(place, LONG_AGO))
        return bool(moments)

    def shop(self) -> Shop:
        """The shop that was drawn."""
        arcs: Arcs = [[] for _ in self.places]
        for one, other, gap in self.arcs:
            arcs[one].append((other, gap))
        last = [self.last.get(it, LONG_AGO) for it in range(len(arcs))]
        return Shop([self.first[it] for it in self.places], arcs, last, self.machines)
