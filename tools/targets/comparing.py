"""Random cases, and what is stored, compared with what engines elsewhere answer.

Several processes share the cases; each starts its own engines. The first engine is compared with the definitions. Each other one, which runs the
same module, gets the requests that the first got, and has to answer them as the first did, byte for byte.
"""
from __future__ import annotations

import collections
import multiprocessing
import pathlib
import queue
import random
import time
from collections.abc import Callable
from typing import Any

from model import cases
from model.compare import difference, smallest
from model.history import forget

from .crates import TOP
from .engine import Gone, Module

data = TOP / 'examples/stored'
KINDS = {'json': 'scenarios', 'dump': 'histories', 'lines': 'sessions of a live book', 'input': 'faulty inputs'}
PARTS = {'lines': 'lines'}  # what a session is made of
STORED = [('.json', '.report', 'run'), ('.json', '.dump', 'dump'), ('.json', '.named-dump', 'names'), ('.dump', '.verdict', 'audit'),
          ('.dump', '.svg', 'picture'), ('.named-dump', '.svg', 'picture'), ('.input', '.told', 'explain')]
TOLD, SO_FAR = 5, 60  # after how many seconds a process tells what it did, and all together is printed
differ = 0


def tell(*what: Any) -> None:
    global differ
    differ += 1
    print('DIFFERS', *what, flush=True)


def make(kind: str, rng: random.Random) -> bytes:
    if kind == 'lines':
        limit = [b'{"limit":%d}' % rng.randrange(1, 40)] if rng.random() < 0.25 else []
        return b''.join(it + b'\n' for it in [*limit, *cases.session(rng)])
    return {'json': cases.scenario, 'dump': cases.dump, 'input': cases.faulty}[kind](rng)


class Heard:
    """A channel, and what was asked and answered on it."""

    def __init__(self, channel: Any):
        self.channel, self.said = channel, []

    def answer(self, request: str) -> str:
        self.said.append((request, self.channel.answer(request)))
        return self.said[-1][1]


def compared(kind: str, module: Module, text: bytes, heard: Heard | None = None) -> str | None:
    """What differs from the definitions, and the smallest case of it."""
    if said := difference(kind, Module(heard, module.has) if heard else module, text):
        return f'{said} {smallest(kind, module, text).decode(errors="replace")}'
    return None


class Worker:
    """A process with its own engines, by their names, and its part of the cases."""

    def __init__(self, engines: dict[str, Callable[[], Any]], found: Any):
        self.found, self.done, self.told, self.at = found, collections.Counter(), time.time(), 'no case yet'
        self.modules = {name: Module(start()) for name, start in engines.items()}

    def case(self, kind: str, name: str) -> None:
        self.at, text = f'{kind} {name}', make(kind, random.Random(name))
        (first, module), *others = self.modules.items()
        heard = Heard(module.channel)
        self.note(first, kind, name, text, compared(kind, module, text, heard))
        for other, it in others:
            answers = it.channel.answers([request for request, _ in heard.said])
            wrong = [(request, one, wanted) for (request, wanted), one in zip(heard.said, answers, strict=True) if one != wanted]
            self.note(other, kind, name, text, f'{wrong[0][0]} is answered {wrong[0][1]}, and by {first} {wrong[0][2]}' if wrong else None)
        self.done[first, 'answers'] += len(heard.said)
        forget()

    def note(self, engine: str, kind: str, name: str, text: bytes, said: str | None) -> None:
        self.done[engine, kind] += 1
        self.done[engine, kind, 'parts'] += len(text.splitlines())
        if said:
            self.found.put(('differs', f'{engine}, {kind} {name}: {said[:4000]}'))
        if time.time() > self.told + TOLD:
            self.tell()

    def tell(self) -> None:
        self.found.put(('done', self.done))
        self.done, self.told = collections.Counter(), time.time()


def work(engines: dict[str, Callable[[], Any]], names: list[tuple[str, str]], found: Any) -> None:
    try:
        worker = Worker(engines, found)
        for kind, name in names:
            worker.case(kind, name)
        worker.tell()
        for it in worker.modules.values():
            it.channel.close()
        found.put(('ended', None))
    except Gone as gone:
        found.put(('gone', f'{gone}, at {worker.at}'))


def compare(engines: dict[str, Callable[[], Any]], counts: dict[str, int], seed: int, jobs: int) -> None:
    """So many random cases of each kind, in so many processes."""
    began, told, running, done, found = time.time(), time.time(), set(range(jobs)), collections.Counter(), multiprocessing.Queue()
    names = [(kind, f'{seed}.{kind}.{number}') for kind, count in counts.items() for number in range(count)]
    processes = [multiprocessing.Process(target=work, args=(engines, names[job::jobs], found)) for job in range(jobs)]
    for it in processes:
        it.start()
    ended = 0
    while ended < jobs:
        try:
            what, said = found.get(timeout=5)
        except queue.Empty:
            for job in [it for it in running if processes[it].exitcode]:
                running.discard(job)
                ended += 1
                tell(f'a process that compares ended with {processes[job].exitcode}')
            continue
        if what == 'done':
            done.update(said)
        else:
            ended += what != 'differs'
            tell(said) if said else None
        if time.time() > told + SO_FAR:
            told = time.time()
            print(f'  so far, after {told - began:.0f} s: {told_of(done, next(iter(engines)), counts)}', flush=True)
    for it in processes:
        it.join()
    for engine in engines:
        how = 'the definitions' if engine == next(iter(engines)) else 'the answers of the first'
        print(f'{engine}, compared with {how}: {told_of(done, engine, counts)}', flush=True)
        if missing := [f'{count - done[engine, kind]} {KINDS[kind]}' for kind, count in counts.items() if done[engine, kind] != count]:
            tell(f'{engine}: not compared: {", ".join(missing)}')
    print(f'  {sum(many for (_, what, *_), many in done.items() if what == "answers")} answers, {time.time() - began:.0f} s, {jobs} processes', flush=True)


def told_of(done: collections.Counter, engine: str, counts: dict[str, int]) -> str:
    """How many cases of each kind, and how many lines they have."""
    parts = lambda kind: f' ({done[engine, kind, "parts"]} {PARTS[kind]})' if kind in PARTS else ''
    return ', '.join(f'{done[engine, kind]} {KINDS[kind]}{parts(kind)}' for kind in counts)


def replay(what: str, module: Module) -> None:
    """What is stored, byte for byte."""
    same = collections.Counter()
    for file in sorted(data.rglob('*')):
        for suffix, beside, call in STORED:
            wanted = file.with_suffix(beside)
            if file.suffix != suffix or not wanted.exists():
                continue
            if getattr(module, call)(file.read_bytes())[1] == wanted.read_bytes():
                same[beside] += 1
            else:
                tell(what, file.relative_to(data), beside)
    print(f'{what}: the same as stored, byte for byte: {dict(sorted(same.items()))}', flush=True)


def differing() -> int:
    """How many differed so far."""
    return differ
