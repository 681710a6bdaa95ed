"""What a statement weighs, as the program counts it (`docs/LANGUAGE.md`, "What a model weighs").

The layer takes the lighter one of two forms by these numbers, and tells which lines of a script are
heavy. No answer depends on them: the program counts by itself.
"""
from functools import lru_cache
from math import gcd

LIMIT = 67_108_864

# The integer of a statement by its shape: how many steps it has (its values less one), the distance
# from its least to its greatest value, and what divides each gap between them.
Shape = tuple[int, int, int]
CONSTANT: Shape = (0, 0, 0)


def shape_of(domain: range | tuple[int, ...]) -> Shape:
    """The shape of an integer with these ascending values."""
    if len(domain) < 2:
        return CONSTANT
    divisor = domain.step if isinstance(domain, range) else 0
    for low, high in zip(domain, domain[1:]) if not divisor else ():
        divisor = gcd(divisor, high - low)
    return len(domain) - 1, domain[-1] - domain[0], divisor


def scaled(factor: int, shape: Shape) -> Shape:
    """The shape of a multiple."""
    if factor == 0:
        return CONSTANT
    return shape[0], abs(factor) * shape[1], abs(factor) * shape[2]


def ladder(steps: int) -> int:
    """That an integer is ordered."""
    return 2 * (steps - 1) if steps else 0


def declared(steps: int) -> int:
    """An integer that is declared: its variables and its order."""
    return steps + ladder(steps)


def order(first: int, second: int) -> int:
    """A comparison by order of integers with so many steps, reified or not."""
    return 3 * (first + second + 2) + ladder(first) + ladder(second)


def equal(first: int, second: int) -> int:
    """A comparison by `eq` or `neq`."""
    return order(first, second) + 5 * (min(first, second) + 1)


def conjunction(members: int) -> int:
    """`and`, or one of `and` and `or` with `_reif`."""
    return 3 * members + 1


def parity(members: int) -> int:
    """`xor` of a list."""
    return (0, 1, 4, 12)[members] if members < 4 else 12 + 13 * (members - 3)


@lru_cache(maxsize=None)
def unit_sum(first: int, second: int) -> int:
    """The sum of two integers without gaps."""
    table = 6 * (first + 1) * (second + 1)
    if first and second and first + second > 2:
        table = min(table, network(first, second, first + second))
    return ladder(first) + ladder(second) + ladder(first + second) + table


@lru_cache(maxsize=None)
def network(first: int, second: int, steps: int) -> int:
    """The merge network of two integers of so many units, for a sum with so many steps."""
    odd = unit_sum((first + 1) // 2, (second + 1) // 2)
    even = unit_sum(first // 2, second // 2)
    wires = first + second
    return odd + even + wires + 16 * ((wires - 1) // 2) + equal(wires, steps)


def plus(first: Shape, second: Shape, steps: int) -> int:
    """The sum of two integers, which has so many steps."""
    divisor = gcd(first[2], second[2]) or 1
    units = first[1] // divisor, second[1] // divisor
    cost = 6 * (first[0] + 1) * (second[0] + 1)
    if units[0] and units[1] and sum(units) > 2:
        cost = min(cost, network(*units, steps))
    return ladder(first[0]) + ladder(second[0]) + ladder(steps) + cost


def fresh_sum(first: Shape, second: Shape) -> Shape:
    """The shape of an integer that stands for a sum."""
    divisor, span = gcd(first[2], second[2]), first[1] + second[1]
    pairs = (first[0] + 1) * (second[0] + 1) - 1
    return min(pairs, span // divisor if divisor else 0), span, divisor


def linear(relation: str, members: list[Shape], right: Shape) -> int:
    """A sum of integers, each already multiplied, that stands in a relation to another one."""
    queue = [it for it in [*members, right] if it[0]]
    cost, taken, least = 0, 0, 3 if relation == "eq" else 2
    while len(queue) - taken > least:
        fresh = fresh_sum(queue[taken], queue[taken + 1])
        cost += fresh[0] + plus(queue[taken], queue[taken + 1], fresh[0])
        queue.append(fresh)
        taken += 2
    left = [*queue[taken:], CONSTANT, CONSTANT, CONSTANT]
    if relation != "eq":
        return cost + (equal if relation == "neq" else order)(left[0][0], left[1][0])
    if left[2][0]:
        return cost + plus(left[0], left[1], left[2][0])
    return cost + plus(left[0], CONSTANT, left[1][0])


@lru_cache(maxsize=None)
def counted(members: int, steps: int) -> int:
    """The number of true members, which is an integer with so many steps."""
    first, second = (members + 1) // 2, members // 2
    if members < 2:
        return plus(unit_shape(members), CONSTANT, steps)
    halves = sum(it + counted(it, it) for it in (first, second) if it > 1)
    return halves + plus(unit_shape(first), unit_shape(second), steps)


def unit_shape(steps: int) -> Shape:
    """The shape of an integer without gaps."""
    return (steps, steps, 1) if steps else CONSTANT


def count(relation: str, members: int, steps: int) -> int:
    """`bool_array_sum_REL`."""
    if relation == "eq":
        return counted(members, steps)
    compared = (equal if relation == "neq" else order)(members, steps)
    return members + counted(members, members) + compared


def greatest(members: list[int], steps: int) -> int:
    """The greatest or the least of members, by their steps."""
    each = sum(2 * (it + 1) + ladder(it) for it in members)
    return each + (steps + 1) * (len(members) + 1) + ladder(steps)


def all_different(members: list[int]) -> int:
    """Members that differ, by their steps, also under conditions."""
    return sum(19 * (it + 1) + ladder(it) for it in members)


def all_different_truth(members: list[int]) -> int:
    """The truth of it."""
    pairs = [(it, other) for at, it in enumerate(members) for other in members[:at]]
    return sum(1 + equal(*it) for it in pairs) + conjunction(len(pairs))


def product(first: int, second: int, steps: int) -> int:
    """A product, by the steps of its factors."""
    return 10 * (first + 1) * (second + 1) + ladder(first) + ladder(second) + ladder(steps)


def division(first: int, second: int, quotient: int, rest: int) -> int:
    """A quotient and a remainder, one of which is the statement's own."""
    orders = ladder(first) + ladder(second) + ladder(quotient) + ladder(rest)
    return 20 * (first + 1) * (second + 1) + orders


def lexicographic(pairs: list[tuple[int, int]]) -> int:
    """Two lists in order, by the steps of each pair."""
    if not pairs:
        return 1
    return sum(18 + 2 * order(*it) for it in pairs[:-1]) + order(*pairs[-1])
