"""Refuses, with a sentence, a build without the global lock and an interpreter that is not the main one.

It is imported before all else of the package: in a subinterpreter of Python 3.12 the import of ctypes fails, with another sentence.
"""
import sys


def _is_main() -> bool:
    for name in ("_interpreters", "_xxsubinterpreters"):
        try:
            module = __import__(name)
        except ImportError:
            continue
        current = module.get_current()
        return int(current[0] if isinstance(current, tuple) else current) == 0
    return True


if hasattr(sys, "_is_gil_enabled"):
    import sysconfig
    if sysconfig.get_config_var("Py_GIL_DISABLED"):
        raise ImportError("cellarcliff.rx needs Python with its global lock: this is a free-threaded build")
if not _is_main():
    raise ImportError("cellarcliff.rx is of the main interpreter alone: it has one engine for the process")
