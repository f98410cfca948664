"""Where the shared library libcellarcliff is found."""
from __future__ import annotations

import ctypes
import os
import pathlib
from typing import Any, Type

_HERE = pathlib.Path(__file__).resolve().parent


def load(kind: Type[ctypes.CDLL] = ctypes.CDLL) -> Any:
    """The library that CELLAR_LIBRARY names; else the one beside this package, as in a wheel; else the system's
    (ldconfig, LD_LIBRARY_PATH). Raises OSError if there is none."""
    named = os.environ.get("CELLAR_LIBRARY")
    if named:
        return kind(named)
    beside = _HERE / "libcellarcliff.so"
    try:
        return kind(str(beside) if beside.is_file() else "libcellarcliff.so")
    except OSError as why:
        raise OSError(f"{why}: install the library or the wheel, or name its file by CELLAR_LIBRARY") from None


def having(call: str, kind: Type[ctypes.CDLL] = ctypes.CDLL) -> Any:
    """The library, which has this call."""
    found = load(kind)
    if not hasattr(found, call):
        raise OSError(f"no library has {call}: install a newer one, or name its file by CELLAR_LIBRARY")
    return found
