#!/usr/bin/env python3
"""Tries which sums of two integers are compound, where that is near: sum_bounds.py PROGRAM FOLDER. A document that
splits such a sum and then ends fails at its end where the sum is compound, and at its `split` where it is basic. It
prints how many were tried, and each on which the program and `part_reading.py` differ."""
import os, random, subprocess, sys

sys.path.insert(0, os.path.dirname(os.path.abspath(__file__)))
from integers import fresh
from part_reading import cost_of_network, cost_of_table, is_basic

MOST, NEAR = 34, 25


def listed(name, values):
    return f"new_int({name},[{','.join(map(str, values))}])\n"


def sums(chance):
    """The values of two integers and of what stands for their sum, and whether they are near."""
    for n in range(1, MOST):
        for m in range(max(n, 3 - n), MOST):
            for steps in sorted({0, 1, 2, 5, chance.randint(3, min(n + m, 12)), n + m}):
                near = abs(cost_of_network(n, m, steps) - cost_of_table(n, m)) <= NEAR
                gap = chance.choice((1, 1, 2, 3))
                if steps <= n + m and (near or chance.random() < 0.05):
                    total = sorted(chance.sample(range(gap * (n + m) + 1), steps + 1))
                    yield [gap * i for i in range(n + 1)], [gap * i for i in range(m + 1)], total, near


def split(program, folder, values):
    """What the program says of a document that splits the sum and ends there."""
    model, answer = (os.path.join(folder, name) for name in ("sum.bee", "sum.answer"))
    with open(model, "w") as sink:
        sink.write("".join(map(listed, "xyz", values)) + "int_plus(x,y,z)\nsolve satisfy\n")
    with open(answer, "w") as sink:
        sink.write("bee 1\nUNKNOWN 1\nledger\nsplit 4\n")
    return subprocess.run([program, "check", model, answer], capture_output=True).stdout


def main():
    program, folder = sys.argv[1:]
    tried, nears, compounds, differences = 0, 0, 0, 0
    for *values, near in sums(random.Random(1)):
        basic = is_basic(("Sum3", *(fresh(each, 1 + 1000 * place) for place, each in enumerate(values))))
        told = split(program, folder, values)
        tried, nears, compounds = tried + 1, nears + near, compounds + (not basic)
        if told != (b"REFUSED 4\n" if basic else b"REFUSED 5\n"):
            differences += 1
            print(f"split of a sum: {told!r}, where it is {'basic' if basic else 'compound'}: {values}", flush=True)
    told = f"{tried} sums of two integers, {nears} of them near, {compounds} compound"
    print(f"{told}: {differences} differences", flush=True)
    sys.exit(1 if differences else 0)


if __name__ == "__main__":
    main()
