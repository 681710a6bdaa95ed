"""Things of different weights in as few boxes as can be, each of which bears 20."""
from beemodel import Model, bin_packing, maximum

THINGS = [12, 11, 9, 8, 8, 7, 6, 6, 5, 4, 3, 3, 2]
BEARS, BOXES = 20, 6

model = Model()
box = model.ints("box", len(THINGS), 0, BOXES - 1)
model.add(bin_packing(box, THINGS, [BEARS] * BOXES, in_order=True))
model.minimize(maximum(box) + 1)

answer = model.solve()
print(answer.verdict, *answer.optimum)
for at in range(answer.optimum[0]):
    print(at + 1, [weight for weight, it in zip(THINGS, box) if answer[it] == at])
