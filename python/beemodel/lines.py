"""Which line of a script calls the package, and the error that names it."""
import os
import sys
from functools import lru_cache

HERE = os.path.dirname(os.path.abspath(__file__))


class ModelError(Exception):
    """What the language cannot say of a model, with the name and the line of the script."""


@lru_cache(maxsize=None)
def is_ours(file: str) -> bool:
    """Whether a file is one of this package."""
    return os.path.dirname(os.path.abspath(file)) == HERE


def line_of_script() -> str:
    """The file and the line outside of this package that is called now."""
    frame = sys._getframe(1)
    while frame.f_back and is_ours(frame.f_code.co_filename):
        frame = frame.f_back
    return f"{os.path.basename(frame.f_code.co_filename)}:{frame.f_lineno}"


def refused(why: str) -> ModelError:
    """The error of the line that is called now."""
    return ModelError(f"{line_of_script()}: {why}")
