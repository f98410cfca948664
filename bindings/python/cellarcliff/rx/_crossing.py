"""The way to the engine: the extension, where it is there, else the same in Python by ctypes.

A process has one engine for its main interpreter: elsewhere `_alone` refuses with a sentence.
"""
from __future__ import annotations

import ctypes
import os
import sys
from typing import Any, Callable

from . import _cellar


def _chosen() -> Any:
    if sys.version_info >= (3, 10) and not os.environ.get("CELLARCLIFF_CTYPES"):
        try:
            import importlib
            return importlib.import_module("cellarcliff._engine")
        except ImportError:
            pass
    from . import _slow
    return _slow


#: The module that has Core, Root, Leaf and the rest.
C: Any = _chosen()
IS_EXTENSION = C.__name__.endswith("._engine")
_is_bound = False


def bind(refuse: Callable[[int], Any], unhandled: Callable[[BaseException], Any]) -> None:
    """Finds the library, once. Raises OSError if there is none."""
    global _is_bound
    if _is_bound:
        return
    if IS_EXTENSION:
        library = _cellar.library()
        calls = [ctypes.cast(getattr(library, f"cellar_{it}"), ctypes.c_void_p).value for it in _cellar.FAST]
        C.bind(bytes((ctypes.c_void_p * len(calls))(*calls)), refuse, unhandled)
    else:
        C.bind(None, refuse, unhandled)
    _is_bound = True
