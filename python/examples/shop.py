"""The job shop of Fisher and Thompson with six jobs and six machines (1963): done as early as can be.

Each job goes to the machines in its own order, and each machine does one thing at a time.
"""
from beemodel import Model, interval, maximum, no_overlap

# For each job its steps, each with a machine and how long it takes there.
JOBS = [
    [(2, 1), (0, 3), (1, 6), (3, 7), (5, 3), (4, 6)],
    [(1, 8), (2, 5), (4, 10), (5, 10), (0, 10), (3, 4)],
    [(2, 5), (3, 4), (5, 8), (0, 9), (1, 1), (4, 7)],
    [(1, 5), (0, 5), (2, 5), (3, 3), (4, 8), (5, 9)],
    [(2, 9), (1, 3), (4, 5), (5, 4), (0, 3), (3, 1)],
    [(1, 3), (3, 3), (5, 9), (0, 10), (4, 4), (2, 1)],
]
LATEST = sum(duration for steps in JOBS for _, duration in steps)

model = Model()
start = model.ints("start", (6, 6), 0, LATEST)
tasks = [
    [interval(begin, duration) for begin, (_, duration) in zip(row, steps)]
    for row, steps in zip(start, JOBS)
]
for row in tasks:
    for task, following in zip(row, row[1:]):
        model.add(task.end <= following.start)
for machine in range(6):
    model.add(no_overlap(row[at] for row, steps in zip(tasks, JOBS) for at in range(6) if steps[at][0] == machine))
model.minimize(maximum(row[-1].end for row in tasks))

answer = model.solve()
print(answer.verdict, *answer.optimum)
for row in start:
    print(*(f"{answer[it]:3}" for it in row))
