"""The shortest round through ten towns."""
import math
import random

from beemodel import Model, circuit, circuit_cost

chance = random.Random(7)
TOWNS = [(chance.randint(0, 30), chance.randint(0, 30)) for _ in range(10)]
FAR = [[round(math.dist(one, other)) for other in TOWNS] for one in TOWNS]

model = Model()
goes_to = [
    model.int(f"from_{it}", [other for other in range(len(TOWNS)) if other != it])
    for it in range(len(TOWNS))
]
model.add(circuit(goes_to))
model.minimize(circuit_cost(goes_to, FAR))

answer = model.solve()
print(answer.verdict, *answer.optimum)
place, round_trip = 0, [0]
while answer[goes_to[place]]:
    place = answer[goes_to[place]]
    round_trip.append(place)
print(*round_trip)
