"""Models of plans as users write them, by the Python layer, for `optima.py`: each function gives a model's lines."""
import math, os, random, sys
from itertools import combinations, permutations

TOP = os.path.dirname(os.path.dirname(os.path.realpath(__file__)))
sys.path.insert(0, os.path.join(TOP, "python"))

from beemodel import Model, any_of, at_most, circuit, cumulative, element, exactly, exactly_one, maximum, total

# Job shops of Fisher and Thompson (1963) and of Lawrence (1984): each job's machines and hours, in order.
SHOPS = os.path.join(TOP, "bench", "job_shops.txt")

def shops():
    """The jobs of each shop, by its name."""
    read, jobs = {}, []
    with open(SHOPS, encoding="utf-8") as source:
        for line in source:
            words = line.split()
            if line.startswith("  "):
                jobs.append([(int(m), int(hours)) for m, hours in zip(words[::2], words[1::2])])
            elif not line.startswith("#"):
                jobs = read[words[0]] = []
    return read

def lines_of(model):
    return model.text().splitlines()

def exams(size):
    """Exams in twelve slots: of students with two exams as few as can be have them in slots that follow."""
    chance, slots = random.Random(size), range(1, 13)
    model = Model()
    slot = [model.int(f"exam{i}", 1, 12) for i in range(size)]
    held = [[slot[i] == t for t in slots] for i in range(size)]
    both = {pair: chance.randint(1, 30) for pair in combinations(range(size), 2) if chance.random() < 0.25}
    model.add(slot[i] != slot[j] for i, j in both)
    for t in range(12):
        model.add(at_most(-(-size // 12) + 2, [held[i][t] for i in range(size)]))
    following = []
    for i, j in both:
        near = model.bool(f"near{i}_{j}")
        for t in range(11):
            model.add(any_of([~held[i][t], ~held[j][t + 1], near]), any_of([~held[j][t], ~held[i][t + 1], near]))
        following.append(near)
    model.minimize(total(count * near for count, near in zip(both.values(), following)))
    return lines_of(model)

def roster(size):
    """Nurses on 14 days, by day or by night: as few and as light wishes as can be stay unmet."""
    chance, days = random.Random(size), range(14)
    model = Model()
    works = [[[model.bool(f"n{n}_{d}_{s}") for s in "dn"] for d in days] for n in range(size)]
    for d in days:
        model.add(exactly(size // 3, [works[n][d][0] for n in range(size)]))
        model.add(exactly(size // 5, [works[n][d][1] for n in range(size)]))
    for n in range(size):
        model.add(at_most(1, works[n][d]) for d in days)
        model.add(at_most(9, [w for d in days for w in works[n][d]]))
        model.add(at_most(1, [works[n][d][1], works[n][d + 1][0]]) for d in days[:-1])
        model.add(at_most(5, [w for d in days[k:k + 6] for w in works[n][d]]) for k in range(9))
    wishes = [(works[n][d][chance.randint(0, 1)], chance.randint(1, 9)) for n in range(size) for d in days
              if chance.random() < 0.4]
    model.minimize(total(weight * work for work, weight in wishes))
    return lines_of(model)

def prices(size):
    """Each worker one task: the least cost, with prices to 1,000, and then the least time."""
    chance = random.Random(size)
    model = Model()
    takes = [[model.bool(f"x{i}_{j}") for j in range(size)] for i in range(size)]
    for row in takes + [list(column) for column in zip(*takes)]:
        model.add(exactly_one(row))
    cells = [it for row in takes for it in row]
    cost, hours = (total(chance.randint(1, most) * it for it in cells) for most in (1000, 50))
    model.minimize(cost, then=hours)
    return lines_of(model)

def catalogue(size):
    """Articles of which those of most worth are printed: pages are few, and some articles need or exclude others."""
    chance = random.Random(size)
    model = Model()
    printed = [model.bool(f"a{i}") for i in range(size)]
    pages = [chance.randint(1, 8) for _ in range(size)]
    worth = [chance.randint(1, 20) for _ in range(size)]
    model.add(total(p * it for p, it in zip(pages, printed)) <= sum(pages) // 4)
    for _ in range(size):
        i, j = chance.sample(range(size), 2)
        model.add(any_of([~printed[i], printed[j]] if chance.random() < 0.5 else [~printed[i], ~printed[j]]))
    model.maximize(total(w * it for w, it in zip(worth, printed)))
    return lines_of(model)

def league(size):
    """A round robin of SIZE teams with as few breaks, two games on end at home or away, as can be."""
    teams, rounds = range(size), range(size - 1)
    model = Model()
    home = {(a, b, r): model.bool(f"t{a}_t{b}_{r}") for a, b in permutations(teams, 2) for r in rounds}
    for a, b in combinations(teams, 2):
        model.add(exactly_one(home[i, j, r] for i, j in ((a, b), (b, a)) for r in rounds))
    for t in teams:
        for r in rounds:
            model.add(exactly_one(home[i, j, r] for o in teams if o != t for i, j in ((t, o), (o, t))))
    is_home = {(t, r): any_of(home[t, o, r] for o in teams if o != t) for t in teams for r in rounds}
    model.add(home[t, t + 1, 0] for t in teams[::2])
    model.minimize(total(is_home[t, r] == is_home[t, r + 1] for t in teams for r in rounds[:-1]))
    return lines_of(model)

def project(size):
    """Tasks that follow each other and share eight workers, as early as can be."""
    chance = random.Random(size)
    days = [chance.randint(1, 8) for _ in range(size)]
    workers = [chance.randint(1, 5) for _ in range(size)]
    latest = sum(d * w for d, w in zip(days, workers)) // 8 + 30
    model = Model()
    start = [model.int(f"s{i}", 0, latest - days[i]) for i in range(size)]
    for i in range(1, size):
        for j in chance.sample(range(i), min(i, chance.randint(0, 2))):
            if i - j < 8:
                model.add(start[i] >= start[j] + days[j])
    model.add(cumulative(start, days, workers, 8))
    model.minimize(maximum(start[i] + days[i] for i in range(size)))
    return lines_of(model)

def tour(size):
    """The shortest round through SIZE towns."""
    chance = random.Random(size)
    towns = [(chance.randint(0, 100), chance.randint(0, 100)) for _ in range(size)]
    far = [[round(math.dist(one, other)) for other in towns] for one in towns]
    model = Model()
    goes_to = [model.int(f"from{i}", [j for j in range(size) if j != i]) for i in range(size)]
    model.add(circuit(goes_to))
    model.minimize(total(element(far[i], goes_to[i]) for i in range(size)))
    return lines_of(model)
