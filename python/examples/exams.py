"""Exams in as few slots as can be: no student has two at once, and the rooms hold those who come.

Among the shortest timetables one is sought in which as few students as can be have exams in two slots that follow.
"""
from itertools import combinations

from beemodel import Model, maximum, total

EXAMS = {
    "algebra": 40, "biology": 35, "chemistry": 30, "drawing": 15, "english": 55,
    "french": 25, "geography": 30, "history": 45, "italian": 20, "latin": 15,
}  # fmt: skip
SEATS, SLOTS = 100, 5
# How many students have both of two exams.
BOTH = {
    ("algebra", "biology"): 12, ("algebra", "chemistry"): 9, ("biology", "chemistry"): 15,
    ("algebra", "english"): 14, ("english", "french"): 11, ("french", "italian"): 6,
    ("english", "history"): 17, ("geography", "history"): 13, ("drawing", "history"): 4,
    ("latin", "italian"): 3, ("geography", "biology"): 7, ("drawing", "algebra"): 5,
    ("latin", "english"): 5, ("chemistry", "geography"): 4,
}  # fmt: skip

model = Model()
slot = {exam: model.int(exam, 1, SLOTS) for exam in EXAMS}
for one, other in BOTH:
    model.add(slot[one] != slot[other])
for at in range(1, SLOTS + 1):
    model.add(total(seats * (slot[exam] == at) for exam, seats in EXAMS.items()) <= SEATS)
following = {pair: abs(slot[pair[0]] - slot[pair[1]]) == 1 for pair in BOTH}
last = maximum(list(slot.values()))
model.minimize(last, then=total(count * following[pair] for pair, count in BOTH.items()))

answer = model.solve()
print(answer.verdict, *answer.optimum)
for at in range(1, answer.optimum[0] + 1):
    print(at, *[exam for exam in EXAMS if answer[slot[exam]] == at])
