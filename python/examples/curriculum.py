"""Courses in four periods behind what they want, such that no period has much more than the others."""
from beemodel import Model, count, maximum, weighted_sum

CREDITS = {"algebra": 4, "logic": 2, "analysis": 4, "physics": 3, "coding": 3, "graphs": 2, "optics": 3}
CREDITS |= {"proofs": 2, "solvers": 4, "seminar": 1, "thesis": 4}
BEFORE = [("logic", "proofs"), ("coding", "solvers"), ("logic", "solvers"), ("algebra", "graphs")]
BEFORE += [("physics", "optics"), ("analysis", "optics"), ("solvers", "thesis"), ("seminar", "thesis")]
PERIODS = range(1, 5)

model = Model()
period = model.ints("period", CREDITS, 1, 4)
model.add((period[one] < period[other] for one, other in BEFORE))
loads = [weighted_sum(CREDITS.values(), [it == now for it in period.values()]) for now in PERIODS]
model.add(count(period.values(), now) <= 4 for now in PERIODS)
model.minimize(maximum(loads))

answer = model.solve()
print(answer.verdict, *answer.optimum)
for now, load in zip(PERIODS, loads):
    print(now, answer[load], *(it for it in CREDITS if answer[period[it]] == now))
