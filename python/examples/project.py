"""A house is built by four workers as early as can be: days, workers, and what comes before."""
from beemodel import Model, cumulative, maximum

WORKERS = 4
TASKS = {
    "ground": (3, 3, []),
    "walls": (5, 3, ["ground"]),
    "roof": (3, 2, ["walls"]),
    "windows": (2, 1, ["walls"]),
    "pipes": (4, 1, ["ground"]),
    "wires": (3, 2, ["walls"]),
    "plaster": (3, 2, ["pipes", "wires"]),
    "paint": (2, 2, ["plaster", "windows"]),
    "garden": (6, 1, ["ground"]),
    "fence": (3, 2, []),
}
LATEST = sum(days for days, _, _ in TASKS.values())

model = Model()
start = {it: model.int(it, 0, LATEST - days) for it, (days, _, _) in TASKS.items()}
for task, (_, _, before) in TASKS.items():
    model.add(start[task] >= start[it] + TASKS[it][0] for it in before)
days, workers, _ = zip(*TASKS.values())
model.add(cumulative(start.values(), days, workers, WORKERS))
model.minimize(maximum(start[it] + TASKS[it][0] for it in TASKS), then=sum(start.values()))

answer = model.solve()
print(answer.verdict, *answer.optimum)
for task, (length, needed, _) in sorted(TASKS.items(), key=lambda it: answer[it[0]]):
    print(f"{task:8}", " " * answer[task] + str(needed) * length)
