"""Which warehouses are opened, and which one supplies each shop, for the least cost (CSPLib problem 34)."""
from beemodel import Model, count, element, total

FIXED = 30
CAPACITY = [1, 4, 2, 1, 3]
# What it costs to supply each shop from each warehouse.
COSTS = [
    [20, 24, 11, 25, 30],
    [28, 27, 82, 83, 74],
    [74, 97, 71, 96, 70],
    [2, 55, 73, 69, 61],
    [46, 96, 59, 83, 4],
    [42, 22, 29, 67, 59],
    [1, 5, 73, 59, 56],
    [10, 73, 13, 43, 96],
    [93, 35, 63, 85, 46],
    [47, 65, 55, 71, 95],
]

model = Model()
supplier = model.ints("supplier", len(COSTS), 0, len(CAPACITY) - 1)
is_open = model.bools("is_open", len(CAPACITY))
for at, most in enumerate(CAPACITY):
    model.add(count(supplier, at) <= most)
    model.add((it == at).implies(is_open[at]) for it in supplier)
supply = total(element(row, it) for row, it in zip(COSTS, supplier))
model.minimize(supply + FIXED * total(is_open))

answer = model.solve()
print(answer.verdict, *answer.optimum)
for at in range(len(CAPACITY)):
    print(at, [shop for shop, it in enumerate(supplier) if answer[it] == at])
