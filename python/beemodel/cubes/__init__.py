"""One checked answer by many workers: the clauses of a model are split, and the parts refuted side by side.

`python3 -m beemodel.cubes MODEL` is the command, and `solve_in_cubes` the same from a script. Which engines run the
workers, and what was tried, stands in `docs/SOLVERS.md`, "Several machines".
"""
from .conquest import OutOfTime
from .solving import Request, solve_in_cubes

__all__ = ["OutOfTime", "Request", "solve_in_cubes"]
