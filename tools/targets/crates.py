"""What the toolchain is told of a crate: the crates below it, and where each is."""
from __future__ import annotations

import functools
import pathlib
import re
import subprocess

TOP = pathlib.Path(__file__).resolve().parent.parent.parent


@functools.lru_cache(maxsize=None)
def kit() -> pathlib.Path:
    """The toolchain's folder."""
    return pathlib.Path(subprocess.run(['rt', 'doc'], capture_output=True, text=True, check=True).stdout.strip()).parent


@functools.lru_cache(maxsize=None)
def rows() -> dict[str, list[str]]:
    """crates.txt: of each crate what it uses."""
    found = {}
    for line in (TOP / 'crates.txt').read_text().splitlines():
        head, _, uses = line.partition('#')[0].partition(':')
        if head.split():
            found[head.split()[0]] = uses.split()
    return found


def below(name: str) -> list[str]:
    """The repository's crates below this one, the lowest first."""
    found: list[str] = []
    for it in rows()[name]:
        if it in rows():
            found += [one for one in [*below(it), it] if one not in found]
    return found


def uses_of(library: str) -> list[str]:
    """What a library of the toolchain uses."""
    return re.findall(r'^dep (\w+)$', (kit() / f'rlibs/{library}.rlib/format').read_text(), re.M)


def of_the_kit(name: str) -> list[str]:
    """The toolchain's libraries that this crate and those below it use, directly or not."""
    names = list(dict.fromkeys(['core', 'std', *(one for it in [name, *below(name)] for one in rows()[it] if one not in rows())]))
    for it in names:
        names += [one for one in uses_of(it) if one not in names]
    return names
