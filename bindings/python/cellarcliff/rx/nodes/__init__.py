"""Operators that are nodes of the engine: what it closes and releases by its own rules."""
from .merging import Defer, Merging
from .turns import open_in_turn
from .until import Until
from .using import Finally, Using

__all__ = ["Defer", "Finally", "Merging", "Until", "Using", "open_in_turn"]
