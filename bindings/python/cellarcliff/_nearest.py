"""What is said of a word that is not there: the one that is nearest."""
from __future__ import annotations

import functools
import sys
from types import FunctionType, ModuleType
from typing import Any, Dict, Iterable, List


def _apart(a: str, b: str) -> int:
    """How many letters have to be put, taken, exchanged, or swapped with their neighbour."""
    before: List[int] = []
    last = list(range(len(b) + 1))
    for i, letter in enumerate(a, 1):
        row = [i]
        for j, other in enumerate(b, 1):
            row.append(min(last[j] + 1, row[j - 1] + 1, last[j - 1] + (letter != other)))
            if i > 1 and j > 1 and letter == b[j - 2] and a[i - 2] == other:
                row[j] = min(row[j], before[j - 2] + 1)
        before, last = last, row
    return last[-1]


def near(word: str, words: Iterable[str]) -> str:
    """The end of a sentence that names the nearest of the words, if one is near: at most one letter in four is wrong, or one. Case and
    underscores do not count."""
    known = {it.replace("_", "").lower(): it for it in words}
    wanted = word.replace("_", "").lower()
    many = max(len(wanted) // 4, 1) if len(wanted) > 2 else 0
    least, found = min(((_apart(wanted, it), it) for it in known), default=(many + 1, ""))
    return f": did you mean {known[found]!r}?" if least <= many else ""


def names(module: str) -> List[str]:
    """The public names of a module."""
    words: Dict[str, Any] = vars(sys.modules[module])
    own = (name for name, it in words.items() if not isinstance(it, ModuleType) and getattr(it, "__module__", module) == module)
    return list(words.get("__all__") or (name for name in own if not name.startswith("_") and name != "TYPE_CHECKING"))


def lacking(module: str, name: str) -> AttributeError:
    """The error for a name that a module has not."""
    text = f"module {module!r} has no attribute {name!r}{'' if name.startswith('_') else near(name, names(module))}"
    # Python 3.10 and later would name the nearest once more, if they were told of which object.
    context: Dict[str, Any] = {"name": name, "obj": None} if sys.version_info >= (3, 10) else {}
    return AttributeError(text, **context)


def keyed(module: str) -> None:
    """Lets the public functions of a module name the nearest keyword to one that they have not, as Python does from 3.13 on."""
    words = vars(sys.modules[module])
    for name in () if sys.version_info >= (3, 13) else names(module):
        if isinstance(words[name], FunctionType):
            words[name] = _keyed(words[name])


def _keyed(function: Any) -> Any:
    @functools.wraps(function)
    def call(*given: Any, **keys: Any) -> Any:
        if not keys:
            return function(*given)
        try:
            return function(*given, **keys)
        except TypeError as error:
            wrong = next((it for it in keys if str(error).endswith(f"unexpected keyword argument {it!r}")), None)
            # Whatever was raised within the function has a row more.
            if wrong is None or error.__traceback__ is None or error.__traceback__.tb_next is not None:
                raise
            code = function.__code__
            raise TypeError(f"{error}{near(wrong, code.co_varnames[:code.co_argcount + code.co_kwonlyargcount])}") from None
    return call
