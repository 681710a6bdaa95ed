"""Reads the text of a model, as `docs/LANGUAGE.md` has the language, to a model of `small_models.py`. The text has no
fault."""
import re

from small_models import Model


def term(word):
    return [it for it in re.split(r"[\[\],\s]+", word) if it] if word.startswith("[") else word


def model_of(text):
    """The model that a text says."""
    model, text = Model(), re.sub(r"%.*", "", text)
    goal = re.search(r"\bsolve\s+(satisfy|minimize|maximize)\b(.*)", text, re.S)
    for name, inside in re.findall(r"(\w+)\s*\(([^()]*)\)", text[: goal.start()]):
        args = [term(it.strip()) for it in re.findall(r"\[[^\]]*\]|-?\s*\w+", inside)]
        model.items.append((name, args))
        declare(model, name, args)
    if goal[1] != "satisfy":
        model.direction, model.objectives = goal[1], re.findall(r"\w+", goal[2])[::2]
    return model


def declare(model, name, args):
    """Takes the name that an item declares, if it does, with its values."""
    if name == "new_bool":
        model.domains[args[0]] = [False, True]
    elif name == "new_int" and isinstance(args[1], list):
        model.domains[args[0]] = sorted(set(map(int, args[1])))
    elif name == "new_int":
        model.domains[args[0]] = list(range(int(args[1]), int(args[2]) + 1))
    elif name == "bool2int":
        model.domains.setdefault(args[1], [0, 1])
