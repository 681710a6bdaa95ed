"""Orders of steel are cut from slabs, with as little left over as can be (the first ones of CSPLib problem 38).

A slab has one of some capacities, the least that holds its orders, and at most two colours.
"""
from beemodel import Model, any_of, bin_loads, element, total

CAPACITIES = [12, 14, 17, 18, 19, 20, 23, 24, 25, 26, 27, 28, 29, 30, 32, 35, 39, 42, 43, 44]
# What each order weighs, and its colour.
ORDERS = [(4, 1), (22, 2), (9, 3), (5, 4), (8, 5), (3, 6), (3, 4), (4, 7)]
LEFT = [min(it for it in [0, *CAPACITIES] if it >= load) - load for load in range(max(CAPACITIES) + 1)]

model = Model()
slab = model.ints("slab", len(ORDERS), 0, len(ORDERS) - 1)
load = model.ints("load", len(ORDERS), 0, max(CAPACITIES))
held = bin_loads(slab, [weight for weight, _ in ORDERS], len(ORDERS))
model.add(one == other for one, other in zip(load, held))
colours = {colour: [it for it, order in zip(slab, ORDERS) if order[1] == colour] for _, colour in ORDERS}
for number in range(len(ORDERS)):
    has = [any_of(it == number for it in same) for same in colours.values()]
    model.add(total(has) <= 2)
model.minimize(total(element(LEFT, it) for it in load))

answer = model.solve()
print(answer.verdict, *answer.optimum)
for number in range(len(ORDERS)):
    cut = [weight for it, (weight, _) in zip(slab, ORDERS) if answer[it] == number]
    if cut:
        print(cut, "and", LEFT[sum(cut)], "left")
