"""A picture from the lengths of the runs of black cells in its rows and columns (CSPLib problem 12)."""
from beemodel import Model, regular

ROWS = [[2, 2], [4, 4], [1, 3, 1], [2, 1, 2], [1, 1], [2, 2], [2, 2], [3], [1]]
COLUMNS = [[3], [2, 3], [2, 2], [2, 2], [2, 2], [2, 2], [2, 2], [2, 3], [3]]


def runs(lengths):
    """The automaton of lines with these runs: its start, what it accepts, and its steps, where 1 is a black cell.
    Its states are how many cells of the runs and of the gaps between them there were."""
    pattern = [0]
    for length in lengths:
        pattern += [1] * length + [0]
    steps = {}
    for at, cell in enumerate(pattern):
        steps[at] = {}
        if cell == 0:
            steps[at][0] = at
        if at + 1 < len(pattern):
            steps[at][pattern[at + 1]] = at + 1
    return 0, [len(pattern) - 2, len(pattern) - 1], steps


model = Model()
cells = model.bools("cell", (len(ROWS), len(COLUMNS)))
for line, lengths in [*zip(cells, ROWS), *zip(zip(*cells), COLUMNS)]:
    model.add(regular(line, *runs(lengths)))

answer = model.solve()
print(answer.verdict)
for row in cells:
    print("".join("#" if answer[it] else "." for it in row))
