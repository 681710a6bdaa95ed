#!/usr/bin/env python3
# Writes a model of a family: models.py FAMILY SIZE FILE. A number behind these is how many values an integer of
# `eq_row` has.
import random, sys

FIRST = "abcdefghijklmnopqrstuvwxyzABCDEFGHIJKLMNOPQRSTUVWXYZ_"
LATER = FIRST + "0123456789"

def name(n):
    text = FIRST[n % len(FIRST)]
    n //= len(FIRST)
    while n:
        n -= 1
        text += LATER[n % len(LATER)]
        n //= len(LATER)
    return text

def joined(terms):
    return "[" + ",".join(map(str, terms)) + "]"

# Clauses of three literals over a tenth as many names.
def clauses(size):
    random.seed(size)
    names = [name(n) for n in range(size // 10)]
    yield from (f"new_bool({n})" for n in names)
    for _ in range(size):
        yield f"bool_array_or({joined(random.choice(['', '-']) + n for n in random.sample(names, 3))})"

# Declared integers of 1,000 values each.
def row(size):
    return (f"new_int({name(n)},{-n},{999 - n})" for n in range(size))

def pairs(statement, order):
    return (f"{statement}({name(n)},{name(n + 1)})" for n in order)

# A chain of comparisons over them.
def leq_chain(size):
    yield from row(size)
    yield from pairs("int_leq", range(size - 1))

# Equal integers, side by side, of so many values each.
def eq_row(size, values=1000):
    yield from (f"new_int({name(n)},1,{values})" for n in range(size))
    yield from pairs("int_eq", range(size - 1))

def two_equal(values):
    return eq_row(2, values)

# Equal Booleans, side by side, by statements in the order of the names, in the other one, and in none.
def bool_chain(size, order):
    yield from (f"new_bool({name(n)})" for n in range(size))
    yield from pairs("bool_eq", order)

def upwards(size):
    return bool_chain(size, range(size - 1))

def downwards(size):
    return bool_chain(size, reversed(range(size - 1)))

def shuffled(size):
    order = list(range(size - 1))
    random.seed(size)
    random.shuffle(order)
    return bool_chain(size, order)

# The last one is the negation of the first one as well.
def broken(size):
    yield from upwards(size)
    yield f"bool_eq({name(size - 1)},-{name(0)})"

# Queens on a board, one in each column; all differ in their rows, and in both kinds of diagonal.
def queens(size):
    for n in range(size):
        yield f"new_int(q{n},1,{size}) new_int(s{n},{1 + n},{size + n}) new_int(d{n},{1 - n},{size - n})"
        yield f"int_plus(q{n},{n},s{n}) int_plus(d{n},{n},q{n})"
    for letter in "qsd":
        yield f"int_array_allDiff({joined(f'{letter}{n}' for n in range(size))})"

# A Latin square of which two fifths are holes.
def quasigroup(size):
    random.seed(size)
    rows, columns, values = (random.sample(range(size), size) for _ in range(3))
    places = [(i, j) for i in range(size) for j in range(size)]
    for i, j in places:
        yield f"new_int(x{i}_{j},1,{size})"
    for i in range(size):
        yield f"int_array_allDiff({joined(f'x{i}_{j}' for j in range(size))})"
        yield f"int_array_allDiff({joined(f'x{j}_{i}' for j in range(size))})"
    for i, j in random.sample(places, len(places) * 3 // 5):
        yield f"int_eq(x{i}_{j},{1 + values[(rows[i] + columns[j]) % size]})"

# A magic square: rows, columns and both diagonals have one sum.
def magic(size):
    total = size * (size * size + 1) // 2
    square = [[f"x{i}_{j}" for j in range(size)] for i in range(size)]
    yield from (f"new_int({x},1,{size * size})" for line in square for x in line)
    yield f"int_array_allDiff({joined(x for line in square for x in line)})"
    diagonals = [[square[n][n] for n in range(size)], [square[n][size - 1 - n] for n in range(size)]]
    for line in square + list(zip(*square)) + diagonals:
        yield f"int_array_sum_eq({joined(line)},{total})"

# So many declarations, and a statement over what they declare.
def over(size, declaration, statement):
    names = [name(n) for n in range(size)]
    yield from (declaration.format(it) for it in names)
    yield statement.format(joined(names))

# Half of so many Booleans are true.
def count(size):
    return over(size, "new_bool({})", f"bool_array_sum_eq({{}},{size // 2})")

# An odd number of them.
def parity(size):
    return over(size, "new_bool({})", "bool_array_xor({})")

# At most one of them.
def at_most(size):
    return over(size, "new_bool({})", "bool_array_sum_leq({},1)")

# So many integers of two values make half of their number.
def added(size):
    return over(size, "new_int({},0,1)", f"int_array_sum_eq({{}},{size // 2})")

# So many integers of as many values differ.
def differing(size):
    return over(size, f"new_int({{}},1,{size})", "int_array_allDiff({})")

# The same, where each one at a multiple of the step has its own place as its value.
def differing_by(size, step):
    yield from differing(size)
    yield from (f"int_eq({name(n - 1)},{n})" for n in range(step, size + 1, step))

def tenth_fixed(size):
    return differing_by(size, 10)

def half_fixed(size):
    return differing_by(size, 2)

# A list of so many Booleans stands before another one, or is equal to it.
def words(size):
    names = [name(n) for n in range(2 * size)]
    yield from (f"new_bool({it})" for it in names)
    yield f"bool_arrays_lex({joined(names[:size])},{joined(names[size:])})"

# A linear sum of digits with coefficients from 1 to 10, at half of its greatest value.
def linear(size):
    coefficients = [1 + n % 10 for n in range(size)]
    yield from (f"new_int({name(n)},0,9)" for n in range(size))
    yield f"int_array_lin_eq({joined(coefficients)},{joined(name(n) for n in range(size))},{sum(coefficients) * 9 // 2})"

# A product of two integers from 0 on.
def times(size):
    yield f"new_int(a,0,{size}) new_int(b,0,{size}) new_int(c,0,{size * size}) int_times(a,b,c)"

# An integer from 0 on, seven times.
def sevenfold(size):
    yield f"new_int(a,0,{size}) new_int(b,0,{7 * size}) int_times(a,7,b)"

# The greatest of so many digits is at most 3.
def greatest(size):
    yield "new_int(most,0,3)"
    yield from over(size, "new_int({},0,9)", "int_array_max({},most)")

# So many Booleans are all true.
def conjuncts(size):
    return over(size, "new_bool({})", "bool_array_and({})")

# As many of them are true as there are.
def all_true(size):
    return over(size, "new_bool({})", f"bool_array_sum_eq({{}},{size})")

# At most one of them, of which one is true.
def one_true(size):
    yield from at_most(size)
    yield f"bool_array_or([{name(size // 2)}])"

# So many digits make three less than they can.
def near_top(size):
    return over(size, "new_int({},0,9)", f"int_array_sum_eq({{}},{9 * size - 3})")

# Integers that differ, two and two of them with the same two values.
def twins(size):
    names = [name(n) for n in range(size)]
    yield from (f"new_int({it},{n - n % 2},{n - n % 2 + 1})" for n, it in enumerate(names))
    yield f"int_array_allDiff({joined(names)})"

# Two integers each less than the other.
def chasing(size):
    yield f"new_int(a,0,{size}) new_int(b,0,{size}) int_lt(a,b) int_lt(b,a)"

# An order of two words of digits up to 2, where the first one has its greatest digits.
def greatest_word(size):
    names = [name(n) for n in range(2 * size)]
    yield from (f"new_int({it},0,2)" for it in names)
    yield from (f"int_eq({it},2)" for it in names[:size])
    yield f"int_arrays_lex({joined(names[:size])},{joined(names[size:])})"

# An order of two long words over four names.
def few_names(size):
    chance = random.Random(1)
    names = [name(n) for n in range(4)]
    yield from (f"new_bool({it})" for it in names)
    yield f"bool_arrays_lexLt({joined(chance.choices(names, k=size))},{joined(chance.choices(names, k=size))})"

def empty(_):
    return ()

if __name__ == "__main__":
    family, size, path, *values = sys.argv[1:]
    with open(path, "w") as sink:
        for line in globals()[family](int(size), *map(int, values)):
            sink.write(line + "\n")
        sink.write("solve satisfy\n")
