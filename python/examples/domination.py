"""As few knights as can be on a chessboard, so that each square has one or is attacked by one."""
from beemodel import Model, any_of, total

SIZE = 6
MOVES = [(1, 2), (2, 1), (2, -1), (1, -2), (-1, -2), (-2, -1), (-2, 1), (-1, 2)]

squares = [(row, column) for row in range(SIZE) for column in range(SIZE)]
model = Model()
knight = {it: model.bool("square_{}_{}".format(*it)) for it in squares}
for row, column in squares:
    near = [(row + down, column + right) for down, right in MOVES]
    model.add(any_of([knight[row, column], *[knight[it] for it in near if it in knight]]))
model.minimize(total(knight.values()))

answer = model.solve()
print(answer.verdict, *answer.optimum)
for row in range(SIZE):
    print(*["N" if answer[knight[row, column]] else "." for column in range(SIZE)])
