"""Random courses of an engine (bindings/courses): made over the library of this machine, each step compared with the definitions, and replayed on
engine.wasm."""
from __future__ import annotations

import json
import os
import pathlib
import shutil
import subprocess

from .browser import Browser, serve
from .crates import TOP

STORED = TOP / 'bindings/courses/courses.jsonl'
REPLAY = TOP / 'bindings/courses/replay.mjs'
LENGTH = 20  # commands a course, beside those that end it
# replay.mjs in a page: its files, its words and what it prints come and go by these.
PAGE = '''<!doctype html><script type="importmap">{{"imports": {{"node:fs": "./files.mjs"}}}}</script><script type="module">
const said = [];
globalThis.process = {{ argv: ['', '', 'it.wasm', ...{files}], exit: code => {{ globalThis.ended = {{ code, said: said.join('\\n') }}; }} }};
console.log = line => said.push(line);
import('./replay.mjs').catch(error => {{ globalThis.ended = {{ code: 1, said: `${{said.join('\\n')}}\\n${{error.stack}}` }}; }});
</script>'''
FILES = '''const found = {{}};
for (const name of {names}) found[name] = new Uint8Array(await (await fetch(name)).arrayBuffer());
export const readFileSync = (name, way) => way ? new TextDecoder().decode(found[name]) : found[name];
'''


def make_courses(library: pathlib.Path, commands: int, seed: int, jobs: int, folder: pathlib.Path) -> list[pathlib.Path]:
    """A file from each of so many processes, all together with at least so many commands."""
    files = [folder / f'courses.{job}.jsonl' for job in range(jobs)]
    words = [[TOP / 'tools/try-engine', '0', f'{seed}.{job}', '--library', library, '--write', file, commands // (LENGTH * jobs) + 1, '--all', '--length', LENGTH]
             for job, file in enumerate(files)]
    running = [subprocess.Popen([str(it) for it in one], text=True, stdout=subprocess.PIPE, stderr=subprocess.STDOUT) for one in words]
    told = [it.communicate()[0] for it in running]
    if any(it.returncode for it in running):
        raise RuntimeError(f'courses of an engine, made over {library}: {" ".join(told)[-2000:]}')
    return files


def has_share_or_stop(course: str) -> bool:
    """Whether a share is opened or connected: then a command that is refused memory may have made hubs, as cellarcliff.h says. Or whether a call
    is stopped: then one that is refused may hand out what that left, and an item that is tried again is handed out behind it."""
    steps = json.loads(course)['steps']
    made = [it[2] for it in steps if it[0] == 'step']
    return any(it[0] == 'stop' for it in steps) or any(int(what) == 9 or int(what) == 0 and int(kind) >= 5 for what, _, kind, *_ in made)


def commands_of(*files: pathlib.Path) -> int:
    """How many commands these courses have."""
    return sum(step[0] == 'step' for file in files for line in file.read_text().splitlines() for step in json.loads(line)['steps'])


def replayed_in_node(module: pathlib.Path, files: list[pathlib.Path], *more: object) -> tuple[int, str]:
    """The status, and what was told; Node gets the words beside."""
    words = [os.environ.get('NODE', 'node'), *more, REPLAY, module, *files]
    done = subprocess.run([str(it) for it in words], text=True, stdout=subprocess.PIPE, stderr=subprocess.STDOUT)
    return done.returncode, done.stdout.strip()


def replayed_in_chromium(module: pathlib.Path, files: list[pathlib.Path], scratch: pathlib.Path) -> tuple[int, str]:
    """The same in a page."""
    scratch.mkdir(exist_ok=True)
    shutil.copy(REPLAY, scratch)
    shutil.copy(module, scratch / 'it.wasm')
    for it in files:
        shutil.copy(it, scratch)
    names = [it.name for it in files]
    (scratch / 'index.html').write_text(PAGE.format(files=json.dumps(names)))
    (scratch / 'files.mjs').write_text(FILES.format(names=json.dumps(['it.wasm', *names])))
    page = Browser()
    try:
        page.go(serve(scratch))
        said = page.wait('globalThis.ended', 600)
        return said['code'], said['said']
    finally:
        page.close()
