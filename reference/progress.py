"""progress.py [SECONDS [MARKS]]: what a search told is true, and is kept when it is killed.

Seeks a shortest Golomb ruler with so many marks (11), with `--progress` and standard error in a file, and kills the
program after so many seconds (3). Then each whole block of the file has a better length than the one before, and the
values of each satisfy the model: the program that BEE names (`./bee` of this repository) answers the model with all
names fixed to them with just this length as its optimum. Then a list of 16,384 solutions and a core of 45 statements
among 85 are sought with the flag: the numbers told of solutions rise to that of the list, those of statements fall to
that of the core, each question is told, and what is written is what stands without the flag.
Without the flag, nothing is on standard error."""
import os
import re
import subprocess
import sys
import tempfile
import time

from trials import program

PROGRAM = program()
LISTED = re.compile(r"bee: (\d+) solutions, (\d+) clauses learned")
LEFT = re.compile(r"bee: (\d+) statements left, (\d+) questions asked")
HEAD = re.compile(r"bee: best (-?\d+), (\d+) clauses learned")
COUNT = re.compile(r"bee: (\d+) clauses learned")
VALUE = re.compile(r"(\w+) = (-?\d+)")


def ruler(marks):
    """The model, without its goal: the marks from the second one on, and the distance of each two."""
    most = marks * marks
    lines = [f"new_int(m{i},{i},{most})" for i in range(1, marks)]
    lines += [f"new_int(d{i}_{j},1,{most})" for i in range(1, marks) for j in range(i + 1, marks)]
    lines += [f"int_plus(m{i},d{i}_{j},m{j})" for i in range(1, marks) for j in range(i + 1, marks)]
    names = [f"m{i}" for i in range(1, marks)] + [f"d{i}_{j}" for i in range(1, marks) for j in range(i + 1, marks)]
    return lines + [f"int_array_allDiff([{','.join(names)}])"], names


def switches(count):
    """A model of so many Booleans, which are free."""
    return "".join(f"new_bool(b{i})\n" for i in range(count)) + "solve satisfy\n"


def pigeons(holes, loose):
    """A model of one pigeon more than there are holes, behind so many clauses of other names."""
    text = "".join(f"new_bool(c{i})\n" for i in range(loose + 1))
    text += "".join(f"bool_array_or([c{i},-c{i + 1}])\n" for i in range(loose))
    seats = [[f"p{i}_{j}" for j in range(holes)] for i in range(holes + 1)]
    text += "".join(f"new_bool({name})\n" for row in seats for name in row)
    text += "".join(f"bool_array_or([{','.join(row)}])\n" for row in seats)
    for column in zip(*seats):
        text += "".join(f"bool_array_or([-{one},-{other}])\n" for k, one in enumerate(column) for other in column[:k])
    return text + "solve satisfy\n"


def run(words, text, seconds=None, mode="solve"):
    """What the program writes, on both streams, for a model; killed after so many seconds."""
    with tempfile.TemporaryDirectory() as folder:
        model, log = os.path.join(folder, "m.bee"), os.path.join(folder, "log")
        with open(model, "w") as file:
            file.write(text)
        with open(log, "wb") as told:
            child = subprocess.Popen([PROGRAM, mode, model, *words], stdout=subprocess.PIPE, stderr=told)
            if seconds is not None:
                time.sleep(seconds)
                child.kill()
            written = child.communicate()[0]
        with open(log) as told:
            return written.decode(), told.read()


def blocks(told, names):
    """The whole blocks: a length and the values. What stands behind the last one was cut."""
    lines = told.split("\n")[:-1]
    at, found = 0, []
    while at < len(lines):
        head = HEAD.fullmatch(lines[at])
        if head is None:
            assert COUNT.fullmatch(lines[at]), lines[at]
            at += 1
            continue
        rest = lines[at + 1 : at + 1 + len(names)]
        if len(rest) < len(names):
            break
        values = [VALUE.fullmatch(line) for line in rest]
        assert [value[1] for value in values] == names, rest
        found.append((int(head[1]), [value[2] for value in values]))
        at += 1 + len(names)
    return found


def numbers(mode, text, form):
    """The number behind the first word of what a mode writes, and what it told with the flag, by its form."""
    written, told = run(["--progress"], text, mode=mode)
    plain, silence = run([], text, mode=mode)
    assert written == plain and silence == "", silence
    lines = [line for line in told.split("\n")[:-1] if not COUNT.fullmatch(line)]
    return int(written.split("\n")[1].split()[1]), [tuple(map(int, form.fullmatch(line).groups())) for line in lines]


def listed():
    """A list: the numbers of solutions rise to its own."""
    count, told = numbers("all", switches(14), LISTED)
    found = [solutions for solutions, _ in told]
    assert found == [*range(1000, count, 1000), count] and count == 1 << 14, (count, found)
    print(f"{count} solutions, told {len(found)} times")


def part():
    """A core: the numbers of statements fall to its own, and each question is told."""
    count, told = numbers("core", pigeons(4, 40), LEFT)
    left = [statements for statements, _ in told]
    assert left == sorted(left, reverse=True) and left[-1] == count == 45, (count, left)
    assert [asked for _, asked in told] == list(range(1, len(told) + 1)), told
    print(f"a core of {count} statements of {left[0]}, {len(told)} questions")


def main(seconds="3", marks="11"):
    lines, names = ruler(int(marks))
    goal = f"solve minimize {names[int(marks) - 2]}\n"
    written, told = run(["--progress", "--budget", str(10**18)], "\n".join(lines) + "\n" + goal, float(seconds))
    assert written == "", "the search ended before it was killed: give more marks"
    found = blocks(told, names)
    assert found, "no block was told"
    lengths = [length for length, _ in found]
    assert all(a > b for a, b in zip(lengths, lengths[1:])), lengths
    for length, values in found:
        fixed = [f"int_eq({name},{value})" for name, value in zip(names, values)]
        answer, silence = run([], "\n".join(lines + fixed) + "\n" + goal)
        assert answer.split("\n")[1] == f"OPTIMUM {length}", (length, answer.split("\n")[:2])
        assert silence == "", silence
    print(f"{len(found)} blocks, lengths {lengths}: each a solution, each better than the one before")
    listed()
    part()


if __name__ == "__main__":
    main(*sys.argv[1:])
