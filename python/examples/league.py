"""Six teams meet in five rounds with as few breaks, two games on end at home or away, as can be."""
import itertools

from beemodel import Model, any_of, at_most, exactly_one, total

TEAMS = range(6)
ROUNDS = range(5)

model = Model()
home = {
    (one, other, at): model.bool(f"t{one}_meets_t{other}_in_{at}")
    for one, other in itertools.permutations(TEAMS, 2)
    for at in ROUNDS
}
for one, other in itertools.combinations(TEAMS, 2):
    hosts = [(one, other), (other, one)]
    model.add(exactly_one(home[a, b, at] for a, b in hosts for at in ROUNDS))
for team in TEAMS:
    for at in ROUNDS:
        others = [it for it in TEAMS if it != team]
        games = [home[team, it, at] for it in others] + [home[it, team, at] for it in others]
        model.add(exactly_one(games))

is_home = {
    (team, at): any_of(home[team, it, at] for it in TEAMS if it != team)
    for team in TEAMS
    for at in ROUNDS
}
breaks = total(is_home[team, at] == is_home[team, at + 1] for team in TEAMS for at in ROUNDS[:-1])
for team in TEAMS:
    for at in ROUNDS[:-2]:
        model.add(at_most(2, [is_home[team, at + it] for it in range(3)]))
        model.add(at_most(2, [~is_home[team, at + it] for it in range(3)]))
# The teams are numbered by the first round's games.
model.add(home[team, team + 1, 0] for team in TEAMS[::2])
model.minimize(breaks)

answer = model.solve()
print(answer.verdict, *answer.optimum)
for at in ROUNDS:
    games = [f"{a}-{b}" for a, b in itertools.permutations(TEAMS, 2) if answer[home[a, b, at]]]
    print(f"round {at + 1}:", *games)
