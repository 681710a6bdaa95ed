"""Words of four letters in a square, so that the same words stand in its rows and its columns."""
from beemodel import Model, all_different, table

WORDS = """
abet able acid acne aces acme area arid army arts bald band bare bath beam bell best card care cart clan dare deal
dear deer ease east edge else even ever hate have here hero idea into iron item lead lean less line list mare mate
near neat nest only open oral over pear rare rate read real rest salt same scan sent some soon span star stem tale
tame tear tech teen term test then tone tram tree used user vase very wake ware were west
""".split()
LETTERS = "abcdefghijklmnopqrstuvwxyz"

model = Model()
numbers = [tuple(LETTERS.index(it) for it in word) for word in WORDS]
square = {}
for row in range(4):
    for column in range(row, 4):
        square[row, column] = square[column, row] = model.int(f"r{row}_c{column}", 0, 25)
word = [model.int(f"word_{row}", 0, len(WORDS) - 1) for row in range(4)]
for row in range(4):
    cells = [square[row, column] for column in range(4)]
    model.add(table([word[row], *cells], [(at, *number) for at, number in enumerate(numbers)]))
model.add(all_different(word))
# Of the squares, the one whose words stand latest in the alphabet, the first word before all.
model.maximize(word[0], then=word[1])

answer = model.solve()
print(answer.verdict, *answer.optimum)
for row in range(4):
    print("".join(LETTERS[answer[square[row, column]]] for column in range(4)))
