"""Drops the table of a WebAssembly module that has no use for it.

lld writes a table of 64-bit indices into each module for wasm64. A proved library calls no function by a pointer, so the table is empty,
and engines and tools that know 64-bit memory but no 64-bit table (Node 20, wasm-opt 108) take the module without it. A module with
elements of a table is refused here, and a validator refuses one that calls through it.
"""
from __future__ import annotations

import sys

TABLE, ELEMENTS = 4, 9


def number(data: bytes, at: int) -> tuple[int, int]:
    """The number that is written there, and where it ends."""
    value = shift = 0
    while True:
        byte = data[at]
        at, value, shift = at + 1, value | (byte & 127) << shift, shift + 7
        if byte < 128:
            return value, at


def without_table(data: bytes) -> bytes:
    kept, at = data[:8], 8
    while at < len(data):
        length, begin = number(data, at + 1)
        if data[at] == ELEMENTS:
            sys.exit('the module has elements of a table')
        if data[at] != TABLE:
            kept += data[at:begin + length]
        at = begin + length
    return kept
