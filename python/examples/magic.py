"""A magic square: the numbers from 1 to 16, each once, and one sum in all rows, columns and diagonals."""
from beemodel import Model, all_different

SIZE = 4
CELLS = SIZE * SIZE
SUM = SIZE * (CELLS + 1) // 2

model = Model()
square = [[model.int(f"r{row}_c{column}", 1, CELLS) for column in range(SIZE)] for row in range(SIZE)]
model.add(all_different([cell for row in square for cell in row]))
model.add(sum(row) == SUM for row in square)
model.add(sum(column) == SUM for column in zip(*square))
model.add(sum(square[it][it] for it in range(SIZE)) == SUM)
model.add(sum(square[it][-1 - it] for it in range(SIZE)) == SUM)
# Of the eight ways to turn and mirror a square one is chosen.
model.add(square[0][0] < square[0][-1], square[0][0] < square[-1][-1], square[0][-1] < square[-1][0])

answer = model.solve()
print(answer.verdict)
for row in square:
    print(*(f"{answer[cell]:2}" for cell in row))
