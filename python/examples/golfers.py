"""Nine golfers play in three groups of three for four weeks, and no two meet twice."""
import itertools

from beemodel import Model, at_most_one, count, lex_less

GROUPS, SIZE, WEEKS = 3, 3, 4
GOLFERS = range(GROUPS * SIZE)

model = Model()
group = [[model.int(f"w{week}_g{it}", 0, GROUPS - 1) for it in GOLFERS] for week in range(WEEKS)]
for week in group:
    model.add(count(week, it) == SIZE for it in range(GROUPS))
for one, other in itertools.combinations(GOLFERS, 2):
    model.add(at_most_one(week[one] == week[other] for week in group))
# Which group is which, and the order of the weeks, are names alone: they are chosen here.
model.add(group[0][it] == it // SIZE for it in GOLFERS)
model.add(week[it] == it for week in group[1:] for it in range(SIZE))
model.add(lex_less(week, later) for week, later in zip(group[1:], group[2:]))

answer = model.solve()
print(answer.verdict)
for week in group:
    print(*("".join(str(it) for it in GOLFERS if answer[week[it]] == at) for at in range(GROUPS)))
