"""Narrows the sums that addresses are in a WebAssembly module whose memory was lowered to 32 bits: text in, text out.

Lowering leaves an address as a sum of 64 bits of which the lower half is taken. Here the half of each part is taken, and the sum is one of 32 bits,
which is the same number; so wasm-opt can write a constant of it into the load or store, and an engine needs two instructions fewer for that.
"""
from __future__ import annotations

import re
import sys

WORD = re.compile(r'\(;.*?;\)|;;[^\n]*|"(?:[^"\\]|\\.)*"|[()]|[^\s()"]+', re.DOTALL)
SAME_LOW_HALF = {'i64.add': 'i32.add', 'i64.sub': 'i32.sub', 'i64.mul': 'i32.mul'}


def parsed(text: str) -> list:
    """The expressions of a text as lists within lists."""
    open_lists: list[list] = [[]]
    for word in WORD.findall(text):
        if word.startswith(('(;', ';;')):
            continue  # a comment
        if word == '(':
            open_lists.append([])
        elif word == ')':
            done = open_lists.pop()
            open_lists[-1].append(done)
        else:
            open_lists[-1].append(word)
    return open_lists[0]


def is_constant(it) -> bool:
    return it[0] == 'i64.const'


def low_half(it: list) -> list:
    """An expression of 32 bits for the lower half of this one. Only sums are followed, and products and shifts by a constant."""
    if is_constant(it):
        return ['i32.const', str(int(it[1]) & 0xFFFFFFFF)]
    if it[0] in ('i64.extend_i32_u', 'i64.extend_i32_s'):
        return it[1]
    if it[0] in ('i64.add', 'i64.sub') or it[0] == 'i64.mul' and is_constant(it[2]):
        return [SAME_LOW_HALF[it[0]], low_half(it[1]), low_half(it[2])]
    if it[0] == 'i64.shl' and is_constant(it[2]) and 0 <= int(it[2][1]) < 32:
        return ['i32.shl', low_half(it[1]), low_half(it[2])]
    return ['i32.wrap_i64', it]


def narrowed(text: str) -> str:
    """The same module with each address narrowed."""
    sys.setrecursionlimit(20000)  # expressions stand far within one another

    def walked(it):
        if isinstance(it, str):
            return it
        inner = [walked(each) for each in it]
        return low_half(inner[1]) if inner and inner[0] == 'i32.wrap_i64' else inner

    def shown(it, said: list[str]) -> None:
        if isinstance(it, str):
            said.append(it)
            return
        said.append('(')
        for each in it:
            shown(each, said)
            said.append(' ')
        said.append(')')

    said: list[str] = []
    for it in parsed(text):
        shown(walked(it), said)
        said.append('\n')
    return ''.join(said)
