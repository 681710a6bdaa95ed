"""A week's roster of five nurses: two by day, one by night, and no day behind a night."""
from beemodel import Model, at_most, exactly, maximum, minimum, total

NURSES = ["ann", "bob", "cleo", "dan", "eve"]
DAYS = ["mon", "tue", "wed", "thu", "fri", "sat", "sun"]
NEEDED = {"day": 2, "night": 1}
WISHES = [("ann", "sat"), ("ann", "sun"), ("bob", "mon"), ("dan", "sat"), ("eve", "fri")]

model = Model()
names = [(nurse, day, shift) for nurse in NURSES for day in DAYS for shift in NEEDED]
works = {name: model.bool("_".join(name)) for name in names}
for day in DAYS:
    for shift, needed in NEEDED.items():
        model.add(exactly(needed, [works[nurse, day, shift] for nurse in NURSES]))
for nurse in NURSES:
    model.add(at_most(1, [works[nurse, day, shift] for shift in NEEDED]) for day in DAYS)
    model.add(at_most(5, [works[nurse, day, shift] for day in DAYS for shift in NEEDED]))
    for day, next_day in zip(DAYS, DAYS[1:]):
        model.add(works[nurse, day, "night"].implies(~works[nurse, next_day, "day"]))
shifts = [total(works[it, day, shift] for day in DAYS for shift in NEEDED) for it in NURSES]
unmet = total(works[nurse, day, shift] for nurse, day in WISHES for shift in NEEDED)
model.minimize(unmet, then=maximum(shifts) - minimum(shifts))

answer = model.solve()
print(answer.verdict, *answer.optimum)
for nurse, worked in zip(NURSES, shifts):
    row = [next((s[0] for s in NEEDED if answer[works[nurse, day, s]]), "-") for day in DAYS]
    print(f"{nurse:4}", *row, answer[worked])
