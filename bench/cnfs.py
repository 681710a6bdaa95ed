#!/usr/bin/env python3
"""Writes a CNF as DIMACS, or a model that is to be compiled: cnfs.py FAMILY SIZE SEED FILE.
  random      three literals a clause over SIZE variables, 4.26 clauses a variable
  pigeons     SIZE pigeons, of which each has one of the holes, one fewer, and no two share one
  parity      two chains of exclusive ors over the same SIZE variables, in two orders, one of which says that an even
              number of them is true, the other an odd one
  mitre       two array multipliers of SIZE bits with the factors interchanged, and some bit of their products differs
  pebbling    a pyramid of SIZE rows: each place needs the two below it, and has two variables of which one or both are
              true
  planted     three literals a clause over SIZE variables, 4.2 clauses a variable, all true under values that were drawn
              first
  factoring   two factors of SIZE bits, the lesser one first, of the product of two primes of SIZE bits
  langford    SIZE numbers, each at two places, as far apart as it says; there is one where SIZE or
              SIZE + 1 is four times another
  costas      a permutation of SIZE in which no two vectors between two places are the same
  latin       a Latin square of order SIZE, of which two fifths of the places are holes, by one variable for each place
              and number
  colours     a graph of SIZE places and 2.3 edges a place, in three colours
  implications  a chain of SIZE clauses, each the first variable or the negation of the next one
  sparse      three literals a clause, SIZE clauses over two fifths as many variables
The models are
  quasigroup  a Latin square of which two fifths are holes
  spoiled     one of which two places of a row have one value
  sudoku      a grid of SIZE by SIZE of which half the places are holes; SIZE is a square number
  golomb      a ruler of SIZE marks, not longer than SEED
  jobs        the job shop of SIZE by SIZE, done within SEED
  packing     SIZE things in SEED bins fewer than the fullest packing that was found first has
  magic       a magic square
  golfers     SIZE groups of three play SEED times, and no two meet twice
  designs     SIZE points, three on each line, and SEED lines through each two of them
  knapsack    SIZE things, of SEED more in value than the best have: 0 has a solution, 1 has none"""
import itertools, os, random, sys

sys.path.insert(0, os.path.dirname(os.path.abspath(__file__)))
import models, optima


class Clauses:
    """Clauses, and variables that come one by one."""

    def __init__(self, count=0):
        self.count, self.list = count, []

    def new(self):
        self.count += 1
        return self.count

    def add(self, *literals):
        self.list.append(literals)

    def exclusive_or(self, *literals):
        """An even number of the literals is true."""
        for signs in itertools.product((1, -1), repeat=len(literals)):
            if signs.count(-1) % 2:
                self.add(*(sign * literal for sign, literal in zip(signs, literals)))

    def both(self, a, b):
        c = self.new()
        self.list += [(-a, -b, c), (a, -c), (b, -c)]
        return c

    def differ(self, a, b):
        c = self.new()
        self.exclusive_or(a, b, c)
        return c

    def either(self, a, b):
        return -self.both(-a, -b)


def random_clauses(cnf, size, count, seed):
    chance = random.Random(seed * 1_000_003 + size)
    cnf.count = size
    for _ in range(count):
        cnf.add(*(chance.choice((v, -v)) for v in chance.sample(range(1, size + 1), 3)))


def random_(cnf, size, seed):
    random_clauses(cnf, size, round(4.26 * size), seed)


def sparse(cnf, size, seed):
    random_clauses(cnf, size * 2 // 5, size, seed)


def implications(cnf, size, seed):
    cnf.count = size + 1
    for v in range(1, size + 1):
        cnf.add(v, -v - 1)


def pigeons(cnf, size, seed):
    at = [[cnf.new() for _ in range(size - 1)] for _ in range(size)]
    for row in at:
        cnf.add(*row)
    for column in zip(*at):
        for one, other in itertools.combinations(column, 2):
            cnf.add(-one, -other)


def parity(cnf, size, seed):
    places = [cnf.new() for _ in range(size)]
    for odd in (False, True):
        before = places[0]
        for place in places[1:-1]:
            before = cnf.differ(before, place)
        cnf.exclusive_or(before, -places[-1] if odd else places[-1])
        random.Random(seed * 1_000_003 + size).shuffle(places)


def product(cnf, a, b):
    """The bits of a product, the least first: rows of carry-save adders."""
    total = [cnf.both(x, b[0]) for x in a]
    bits = [total.pop(0)]
    for y in b[1:]:
        row, carry, sums = [cnf.both(x, y) for x in a], None, []
        for place, one in enumerate(row):
            other = total[place] if place < len(total) else None
            here = [x for x in (one, other, carry) if x is not None]
            carry = None
            if len(here) == 1:
                sums.append(here[0])
            elif len(here) == 2:
                sums.append(cnf.differ(*here))
                carry = cnf.both(*here)
            else:
                half = cnf.differ(here[0], here[1])
                sums.append(cnf.differ(half, here[2]))
                carry = cnf.either(cnf.both(here[0], here[1]), cnf.both(half, here[2]))
        total = sums + ([carry] if carry is not None else [])
        bits.append(total.pop(0))
    return bits + total


def mitre(cnf, size, seed):
    a, b = ([cnf.new() for _ in range(size)] for _ in range(2))
    cnf.add(*(cnf.differ(x, y) for x, y in zip(product(cnf, a, b), product(cnf, b, a))))


def pebbling(cnf, size, seed):
    row = [(cnf.new(), cnf.new()) for _ in range(size)]
    for place in row:
        cnf.add(*place)
    while len(row) > 1:
        above = [(cnf.new(), cnf.new()) for _ in row[1:]]
        for left, right, place in zip(row, row[1:], above):
            for one, other in itertools.product(left, right):
                cnf.add(-one, -other, *place)
        row = above
    for literal in row[0]:
        cnf.add(-literal)


def planted(cnf, size, seed):
    cnf.count, draw = size, random.Random(seed * 1_000_003 + size)
    values = [draw.choice((-1, 1)) for _ in range(size)]
    while len(cnf.list) < round(4.2 * size):
        clause = [v * draw.choice((-1, 1)) for v in draw.sample(range(1, size + 1), 3)]
        if any(l * values[abs(l) - 1] > 0 for l in clause):
            cnf.add(*clause)


def factoring(cnf, size, seed):
    draw = random.Random(seed * 1_000_003 + size)
    primes = [p for p in range(1 << (size - 1), 1 << size) if all(p % d for d in range(2, int(p**0.5) + 1))]
    number = draw.choice(primes) * draw.choice(primes)
    a, b = ([cnf.new() for _ in range(size)] for _ in range(2))
    for place, bit in enumerate(product(cnf, a, b)):
        cnf.add(bit if number >> place & 1 else -bit)
    cnf.add(a[-1])
    cnf.add(b[-1])


def exactly_one(cnf, literals):
    cnf.add(*literals)
    for one, other in itertools.combinations(literals, 2):
        cnf.add(-one, -other)


def langford(cnf, size, seed):
    at = [[] for _ in range(2 * size)]
    for number in range(1, size + 1):
        here = []
        for place in range(2 * size - number - 1):
            v = cnf.new()
            here.append(v)
            at[place].append(v)
            at[place + number + 1].append(v)
        exactly_one(cnf, here)
    for literals in at:
        exactly_one(cnf, literals)


def costas(cnf, size, seed):
    at = [[cnf.new() for _ in range(size)] for _ in range(size)]
    for row in (*at, *zip(*at)):
        exactly_one(cnf, list(row))
    for step in range(1, size - 1):
        for rise in range(1 - size, size):
            dots = []
            for x in range(size - step):
                steps = [cnf.both(at[x][y], at[x + step][y + rise]) for y in range(size) if 0 <= y + rise < size]
                dots.extend(steps)
            for one, other in itertools.combinations(dots, 2):
                cnf.add(-one, -other)


def latin(cnf, size, seed):
    draw = random.Random(seed * 1_000_003 + size)
    rows, columns, numbers = (draw.sample(range(size), size) for _ in range(3))
    at = [[[cnf.new() for _ in range(size)] for _ in range(size)] for _ in range(size)]
    for x in range(size):
        for y in range(size):
            exactly_one(cnf, at[x][y])
            exactly_one(cnf, [at[x][z][y] for z in range(size)])
            exactly_one(cnf, [at[z][x][y] for z in range(size)])
            if draw.random() > 0.42:
                cnf.add(at[x][y][numbers[(rows[x] + columns[y]) % size]])


def colours(cnf, size, seed):
    draw = random.Random(seed * 1_000_003 + size)
    at = [[cnf.new() for _ in range(3)] for _ in range(size)]
    for place in at:
        cnf.add(*place)
    for _ in range(round(2.3 * size)):
        one, other = draw.sample(at, 2)
        for x, y in zip(one, other):
            cnf.add(-x, -y)


def quasigroup(size, seed):
    yield from models.quasigroup(size)


def spoiled(size, seed):
    yield from models.quasigroup(size)
    yield "int_eq(x0_0,x0_1)"


def golomb(marks, length):
    yield from optima.golomb(marks)[:-1]
    yield f"int_leq(m{marks - 1},{length})"


def jobs(size, hours):
    yield from optima.jobs(size)[:-1]
    yield f"int_leq(end,{hours})"


def sudoku(size, seed):
    draw, side = random.Random(seed * 1_000_003 + size), round(size**0.5)
    places = [[f"x{i}_{j}" for j in range(size)] for i in range(size)]
    numbers = draw.sample(range(1, size + 1), size)
    yield from (f"new_int({x},1,{size})" for row in places for x in row)
    blocks = [[places[i + a][j + b] for a in range(side) for b in range(side)]
        for i in range(0, size, side) for j in range(0, size, side)]
    for group in [*places, *zip(*places), *blocks]:
        yield f"int_array_allDiff([{','.join(group)}])"
    for i, j in itertools.product(range(size), repeat=2):
        if draw.random() < 0.5:
            yield f"int_eq({places[i][j]},{numbers[(i * side + i // side + j) % size]})"


def packing(size, fewer):
    yield from optima.packing(size)[:-1]
    yield f"int_leq(bins,{optima.first_fit(size) - fewer})"


def magic(size, seed):
    yield from models.magic(size)


def golfers(groups, weeks):
    players = range(3 * groups)
    at = {(p, g, w): f"x{p}_{g}_{w}" for p in players for g in range(groups) for w in range(weeks)}
    yield from (f"new_bool({x})" for x in at.values())
    for w in range(weeks):
        for p in players:
            yield f"bool_array_sum_eq([{','.join(at[p, g, w] for g in range(groups))}],1)"
        for g in range(groups):
            yield f"bool_array_sum_eq([{','.join(at[p, g, w] for p in players)}],3)"
    for p, q in itertools.combinations(players, 2):
        meet = []
        for g, w in itertools.product(range(groups), range(weeks)):
            meet.append(f"m{p}_{q}_{g}_{w}")
            yield f"new_bool({meet[-1]})"
            yield f"bool_and_reif({at[p, g, w]},{at[q, g, w]},{meet[-1]})"
        yield f"bool_array_sum_leq([{','.join(meet)}],1)"


def designs(points, common):
    through = common * (points - 1) // 2
    rows = [[f"x{i}_{j}" for j in range(points * through // 3)] for i in range(points)]
    yield from (f"new_bool({x})" for row in rows for x in row)
    yield from (f"bool_array_sum_eq([{','.join(row)}],{through})" for row in rows)
    yield from (f"bool_array_sum_eq([{','.join(column)}],3)" for column in zip(*rows))
    for (i, one), (j, other) in itertools.combinations(enumerate(rows), 2):
        both = [f"b{i}_{j}_{k}" for k in range(len(one))]
        for x, y, b in zip(one, other, both):
            yield f"new_bool({b})"
            yield f"bool_and_reif({x},{y},{b})"
        yield f"bool_array_sum_eq([{','.join(both)}],{common})"


def knapsack(size, more):
    yield from optima.knapsack(size)[:-1]
    yield f"int_leq({optima.best_knapsack(size) + more},v)"


MODELS = {family.__name__: family for family in (
    quasigroup, spoiled, golomb, jobs, sudoku, packing, magic, golfers, designs, knapsack)}
FAMILIES = {family.__name__.rstrip("_"): family for family in (
    random_, pigeons, parity, mitre, pebbling, planted, factoring, langford, costas, latin, colours, implications,
    sparse)}


def main():
    family, size, seed, path = sys.argv[1:]
    with open(path, "w") as sink:
        if family in MODELS:
            sink.writelines(f"{line}\n" for line in [*MODELS[family](int(size), int(seed)), "solve satisfy"])
        else:
            cnf = Clauses()
            FAMILIES[family](cnf, int(size), int(seed))
            sink.write(f"p cnf {cnf.count} {len(cnf.list)}\n")
            sink.writelines(" ".join(map(str, clause)) + " 0\n" for clause in cnf.list)


if __name__ == "__main__":
    main()
