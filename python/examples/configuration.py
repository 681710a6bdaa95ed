"""A computer is put together: its parts fit one another, and it costs as little as can be for what is asked of it."""
from beemodel import Model, element, total

# Of each part: name, price, and what it has.
BOARDS = [("plain", 70, 4), ("broad", 120, 6), ("server", 260, 12)]  # slots
PROCESSORS = [("small", 90, 35, 4), ("medium", 180, 65, 8), ("large", 420, 125, 16)]  # watts, cores
SUPPLIES = [("250 W", 40, 250), ("450 W", 65, 450), ("750 W", 110, 750)]  # watts
CARDS = {"memory": (45, 6), "graphics": (300, 180), "network": (35, 10), "disk": (60, 9)}  # price, watts
MOST = 8


def column(parts, at):
    return [part[at] for part in parts]


model = Model()
board, processor, supply = (model.int(it, 0, 2) for it in ("board", "processor", "supply"))
cards = {name: model.int(name, 0, MOST) for name in CARDS}
prices = total(price * cards[name] for name, (price, _) in CARDS.items())
watts = element(column(PROCESSORS, 2), processor) + total(watts * cards[name] for name, (_, watts) in CARDS.items())
cores = element(column(PROCESSORS, 3), processor)
model.add(total(cards.values()) <= element(column(BOARDS, 2), board))
model.add(watts + 50 <= element(column(SUPPLIES, 2), supply))
# A large processor wants a broad board at least, and two cards for graphics want a large one.
model.add((processor == 2).implies(board >= 1), (cards["graphics"] >= 2).implies(processor == 2))
# What is asked: eight cores, half as much memory as cores, graphics, and a disk, or two of them and no network.
model.add(cores >= 8, 2 * cards["memory"] >= cores, cards["graphics"] >= 1)
model.add(((cards["disk"] >= 1) & (cards["network"] >= 1)) | ((cards["disk"] >= 2) & (cards["network"] == 0)))
choices = ((BOARDS, board), (PROCESSORS, processor), (SUPPLIES, supply))
model.minimize(prices + total(element(column(parts, 1), at) for parts, at in choices))

answer = model.solve()
print(answer.verdict, *answer.optimum)
for parts, at in choices:
    print(parts[answer[at]][0])
for name, number in cards.items():
    print(answer[number], name)
