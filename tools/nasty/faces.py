"""The nasty engine as a library and as a module, and the tests of the faces over it."""
from __future__ import annotations

import os
import pathlib
import re
import shutil
import subprocess
import sys
import time

here = pathlib.Path(__file__).resolve().parent
top = here.parent.parent
HEADER = f'-I{top}/crates/cellarcliff'
WASM = ['--target=wasm64-unknown-unknown', '-mbulk-memory', '-ffreestanding', '-fno-builtin', f'-I{here}/alone']
OF_THE_LIBRARY = ('courses', 'refused_memory')  # Rust's tests that compare each hub with the library's, or refuse the process memory
FEATURES = [f'--enable-{it}' for it in ('memory64', 'bulk-memory', 'sign-ext', 'nontrapping-float-to-int', 'multivalue', 'mutable-globals')]


def build(file: str | pathlib.Path) -> None:
    """The shared library."""
    subprocess.run(['gcc', '-std=c11', '-O2', '-g', '-Wall', '-Wextra', '-Werror', '-pedantic', '-fPIC', '-shared', HEADER,
                    *sorted(map(str, here.glob('*.c'))), '-Wl,-soname,libcellarcliff.so', '-o', str(file)], check=True)


def build_follow(file: pathlib.Path) -> None:
    """The program that gives the same commands to a library and to the nasty engine."""
    subprocess.run(['gcc', '-std=c11', '-O2', '-g', '-Wall', '-Wextra', '-Werror', HEADER, f'{here}/follow/follow.c', f'{here}/shelf.c', '-o',
                    str(file), '-ldl'], check=True)


def build_wasm(file: pathlib.Path, settings: str) -> None:
    """The module, by Debian's clang, lld and binaryen: made for 64 bits and lowered to a memory of 32, as tools/build-wasm does it."""
    whole = file.with_suffix('.64.wasm')
    calls = next(it for it in (top / 'bindings/wasm/exports').read_text().splitlines() if it.startswith('engine:')).split()[1:]
    subprocess.run(['clang', *WASM, '-std=c11', '-O2', f'-DNASTY_ALONE="{settings}"', HEADER, *sorted(map(str, here.glob('*.c'))),
                    f'{here}/alone/alone.c', '-nostdlib', '-Wl,--no-entry,--stack-first,-z,stack-size=1048576',
                    *(f'-Wl,--export={it}' for it in calls), '-o', str(whole)], check=True)
    subprocess.run(['wasm-opt', *FEATURES, '--memory64-lowering', '-O2', str(whole), '-o', str(file)], check=True)


def ran(what: str, words: list[str], cwd: pathlib.Path, log: pathlib.Path, passed: str, **env: str) -> int:
    """Runs the tests of a face: whether they fail. What they say goes to a file; `passed` finds how many there were."""
    began = time.monotonic()
    with open(log, 'w') as said:
        status = subprocess.run(['nice', '-n', '15', *words], cwd=cwd, stdout=said, stderr=subprocess.STDOUT, env={**os.environ, **env}).returncode
    tests = sum(int(it) for it in re.findall(passed, log.read_text(), re.M))
    print(f'{"ok" if status == 0 else "OTHERWISE"} {what}: {tests} tests in {time.monotonic() - began:.0f} s, status {status}, {log}', flush=True)
    return int(status != 0)


def try_all(folder: pathlib.Path, scratch: pathlib.Path, settings: str, library: str | None) -> int:
    """The library reads the texts."""
    nasty, package, failed = scratch / 'libcellarcliff.so', scratch / 'package', 0
    told = dict(CELLAR_NASTY=settings, **({'CELLAR_NASTY_TEXTS': os.path.abspath(library)} if library else {}))
    over = dict(CELLARCLIFF_LIBRARY='1', CELLARCLIFF_EXAMPLES=str(top / 'examples/stored'), CELLAR_LIBRARY=str(nasty), PYTHONPATH=str(package), **told)
    shutil.copytree(top / 'bindings/python', package, ignore=shutil.ignore_patterns('__pycache__', '*.abi3.so'))
    python = '/usr/bin/python3' if subprocess.run(['/usr/bin/python3', '-c', 'import rx'], capture_output=True).returncode == 0 else sys.executable
    tests = [python, '-B', '-m', 'unittest']
    failed += ran('Python, by ctypes', tests, package, folder / 'python-ctypes.log', r'^Ran (\d+) tests?', CELLARCLIFF_CTYPES='1', **over)
    subprocess.run([top / 'tools/build-extension', package / 'cellarcliff/_engine.abi3.so'], check=True)
    failed += ran('Python, by the extension', tests, package, folder / 'python.log', r'^Ran (\d+) tests?', **over)
    if shutil.which('cargo'):
        files = sorted(it.stem for it in (top / 'bindings/rust/tests').glob('*.rs'))
        words = ['--lib', *(f'--test={it}' for it in files if it not in OF_THE_LIBRARY)]
        failed += ran('Rust', ['cargo', 'test', '--offline', '--no-fail-fast', *words], top / 'bindings/rust', folder / 'rust.log',
                      r'^test result: \w+\. (\d+) passed', CELLAR_LIB_DIR=str(scratch), LD_LIBRARY_PATH=str(scratch),
                      CARGO_TARGET_DIR=str(scratch / 'target'), **told)
    if all(map(shutil.which, ('node', 'clang', 'wasm-ld', 'wasm-opt'))):
        module = scratch / 'engine.wasm'
        build_wasm(module, settings)
        failed += ran('JavaScript', ['node', 'tests/run.mjs'], top / 'bindings/javascript', folder / 'javascript.log', r'^(\d+) passed',
                      CELLARCLIFF_WASM=str(module))
    return failed
