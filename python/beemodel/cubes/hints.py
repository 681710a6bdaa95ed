"""Hints for what unit propagation shows: the clauses of a conflict, in the order in which they tell literals."""
from __future__ import annotations

from collections.abc import Iterable
from typing import Optional

from .clauses import Compiled


class Hints:
    """Finds the clauses by which unit propagation refutes literals. Clauses have the ids 1, 2 and so on, and one that
    is no clause of the text, that of the bound, stands behind them."""

    def __init__(self, compiled: Compiled, bound: Optional[list[int]] = None):
        self.clauses = compiled.clauses + ([] if bound is None else [bound])
        self.occurrences: dict[int, list[int]] = {}
        self.short: list[int] = []
        for number, clause in enumerate(self.clauses):
            for it in clause:
                self.occurrences.setdefault(it, []).append(number)
            if len(clause) < 2:
                self.short.append(number)

    def refute(self, literals: Iterable[int]) -> Optional[list[int]]:
        """The ids of the clauses that refute literals, or nothing where propagation finds no conflict."""
        values = {it: True for it in literals} | {-it: False for it in literals}
        reasons: dict[int, int] = {}
        order, at, waiting = list(literals), 0, list(self.short)
        while True:
            for number in waiting:
                still_open = {it for it in self.clauses[number] if values.get(it) is not False}
                if not still_open:
                    return self.conflict(number, reasons, order)
                if len(still_open) == 1:
                    (literal,) = still_open
                    if literal not in values:
                        values[literal], values[-literal] = True, False
                        reasons[literal] = number
                        order.append(literal)
            if at == len(order):
                return None
            waiting = self.occurrences.get(-order[at], [])
            at += 1

    def conflict(self, last: int, reasons: dict[int, int], order: list[int]) -> list[int]:
        """The reasons that a false clause needs, in their order, and itself."""
        needed, waiting = {last}, [last]
        while waiting:
            for it in self.clauses[waiting.pop()]:
                reason = reasons.get(-it)
                if reason is not None and reason not in needed:
                    needed.add(reason)
                    waiting.append(reason)
        used = [reasons[it] for it in order if it in reasons and reasons[it] in needed]
        return [it + 1 for it in used if it != last] + [last + 1]
