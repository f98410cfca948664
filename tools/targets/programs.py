"""The programs of bindings/c over libcellarcliff.a, compiled by another compiler, and run: as they are, or by an emulator."""
from __future__ import annotations

import os
import pathlib
import subprocess
from collections.abc import Callable
from typing import Any

from .crates import TOP

PROGRAMS, DATA, STORM = TOP / 'bindings/c', TOP / 'examples/stored', '5'
FLAGS = ['-std=c11', '-O2', '-Wall', '-Wextra', '-Werror', '-pedantic', f'-I{TOP}/crates/cellarcliff']
DRAWN = 'pictures/forgotten-screen'
# A program, its words, what is linked beside the library, and its input and output as they are stored.
OF_AN_ENGINE = [('engine', [], [], None, '2000 told, 2000 released, all is done\n'), ('engine_armor', [], [], None, None),
                ('engine_starved', [], ['-Wl,--wrap=malloc,--wrap=realloc'], None, None), ('engine_storm', [STORM], [], None, None),
                ('shown', [], [], f'{DRAWN}.json', f'{DRAWN}.svg')]


def try_engine_programs(compiler: str, library: pathlib.Path, scratch: pathlib.Path, emulator: list[str], tell: Callable[..., Any]) -> None:
    """Each compiles without a warning, ends with 0, says nothing on standard error, and prints what is stored where something is."""
    for name, words, beside, given, wanted in OF_AN_ENGINE:
        compiled = [*compiler.split(), *FLAGS, PROGRAMS / f'{name}.c', '-o', scratch / name, *beside, library, '-lpthread']
        built = subprocess.run([str(it) for it in compiled], text=True, capture_output=True, env={**os.environ, 'LC_ALL': 'C.UTF-8'})
        if built.returncode or built.stderr:
            tell(f'{name}.c does not compile by {compiler}', built.stderr)
            continue
        done = subprocess.run([*emulator, scratch / name, *words], text=True, capture_output=True, input=(DATA / given).read_text() if given else '')
        if done.returncode or done.stderr or wanted not in (None, done.stdout) and done.stdout != (DATA / str(wanted)).read_text():
            tell(f'{name}.c, compiled by {compiler}: status {done.returncode}', done.stdout[-500:], done.stderr[-2000:])
        else:
            said = done.stdout.strip() if not given else f'{wanted}, as it is stored'
            print(f'{name}.c, by {compiler}: {said}', flush=True)
