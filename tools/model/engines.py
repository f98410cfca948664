"""The program, and the library, whose answers are compared: each takes a text and gives a status and a text."""
from __future__ import annotations

import ctypes
import importlib.util
import json
import os
import pathlib
import sys
import tempfile
from types import ModuleType
from typing import Any

DONE, TOO_SMALL, FAULTY_INPUT, SAYS = 0, 1, 3, 5


class Program:
    """A process for each text; its input and output are files in memory."""

    answers_cut = True  # a last line that has no newline is answered

    def __init__(self, path: str):
        self.path = path
        folder = '/dev/shm' if os.path.isdir('/dev/shm') else None
        self.files = [tempfile.TemporaryFile(dir=folder) for _ in range(2)]
        self.input, self.output = (file.fileno() for file in self.files)

    def _ask(self, text: bytes, *words: str) -> tuple[int, bytes]:
        for descriptor in (self.input, self.output):
            os.ftruncate(descriptor, 0)
            os.lseek(descriptor, 0, os.SEEK_SET)
        os.write(self.input, text)
        os.lseek(self.input, 0, os.SEEK_SET)
        child = os.posix_spawn(self.path, [self.path, *words], {}, file_actions=[
            (os.POSIX_SPAWN_DUP2, self.input, 0), (os.POSIX_SPAWN_DUP2, self.output, 1), (os.POSIX_SPAWN_OPEN, 2, '/dev/null', os.O_WRONLY, 0)])
        status = os.waitstatus_to_exitcode(os.waitpid(child, 0)[1])
        os.lseek(self.output, 0, os.SEEK_SET)
        return status, os.read(self.output, 1 << 26)

    def run(self, text: bytes) -> tuple[int, bytes]:
        return self._ask(text, 'run')

    def dump(self, text: bytes) -> tuple[int, bytes]:
        return self._ask(text, 'run', '--dump')

    def audit(self, text: bytes) -> tuple[int, bytes]:
        return self._ask(text, 'audit')

    def explain(self, text: bytes) -> tuple[int, bytes]:
        return self._ask(text, 'explain')

    def picture(self, text: bytes) -> tuple[int, bytes]:
        return self._ask(text, 'picture')

    def live(self, lines: list[bytes], limit: int | None = None, cut: bytes = b'') -> list[str]:
        status, text = self._ask(b''.join(line + b'\n' for line in lines) + cut, 'live')
        return [*text.decode().splitlines(), *([f'status {status}'] if status else [])]


class LiveHandle(ctypes.Structure):
    _fields_ = [('at', ctypes.c_void_p)]


class Library:
    """The calls of crates/cellarcliff/cellarcliff.h in this process."""

    def __init__(self, path: str):
        self.calls = ctypes.CDLL(os.path.abspath(path))
        for name in ('cellar_audit', 'cellar_run', 'cellar_run_dump', 'cellar_run_names', 'cellar_picture', 'cellar_explain', 'cellar_live_new', 'cellar_live_send', 'cellar_live_end',
                     'cellar_live_read'):
            getattr(self.calls, name).restype = ctypes.c_uint8
        self.capacity = 1 << 16
        self.buffer = ctypes.create_string_buffer(self.capacity)
        self.told = ctypes.c_size_t()

    def _ask(self, name: str, text: bytes) -> tuple[int, bytes]:
        status = getattr(self.calls, name)(text, ctypes.c_size_t(len(text)), self.buffer, ctypes.c_size_t(self.capacity),
                                           ctypes.byref(self.told))
        if status == TOO_SMALL:
            self._grow()
            return self._ask(name, text)
        return status, ctypes.string_at(self.buffer, self.told.value)

    def _grow(self) -> None:
        self.capacity = self.told.value
        self.buffer = ctypes.create_string_buffer(self.capacity)

    def run(self, text: bytes) -> tuple[int, bytes]:
        return self._ask('cellar_run', text)

    def dump(self, text: bytes) -> tuple[int, bytes]:
        return self._ask('cellar_run_dump', text)

    def audit(self, text: bytes) -> tuple[int, bytes]:
        return self._ask('cellar_audit', text)

    def names(self, text: bytes) -> tuple[int, bytes]:
        return self._ask('cellar_run_names', text)

    def picture(self, text: bytes) -> tuple[int, bytes]:
        return self._ask('cellar_picture', text)

    def explain(self, text: bytes) -> tuple[int, bytes]:
        """As `rxbook explain` has it: 3 and a line where there is something to say."""
        status, told = self._ask('cellar_explain', text)
        return (FAULTY_INPUT, told + b'\n') if status == SAYS else (status, told)

    def live(self, lines: list[bytes], limit: int | None = None, cut: bytes = b'') -> list[str]:
        book, answers = LiveHandle(), []
        if self.calls.cellar_live_new(ctypes.byref(book), ctypes.c_uint32(limit or 4_194_304)) != DONE:
            return ['no book']

        def answer(status: int) -> None:
            if status == TOO_SMALL:
                self._grow()
                status = self.calls.cellar_live_read(ctypes.byref(book), self.buffer, ctypes.c_size_t(self.capacity), ctypes.byref(self.told))
            answers.append(ctypes.string_at(self.buffer, self.told.value).decode() if status == DONE else f'status {status}')
        room = ctypes.c_size_t
        for line in lines:
            answer(self.calls.cellar_live_send(ctypes.byref(book), line, room(len(line)), self.buffer, room(self.capacity),
                                           ctypes.byref(self.told)))
        answer(self.calls.cellar_live_end(ctypes.byref(book), self.buffer, room(self.capacity), ctypes.byref(self.told)))
        return answers


def copy_of_the_model(name: str) -> ModuleType:
    """The package once more, under another name, so that a definition can be turned there and nowhere else."""
    folder = pathlib.Path(__file__).parent
    for module in [it for it in sys.modules if it == name or it.startswith(f'{name}.')]:
        del sys.modules[module]
    spec = importlib.util.spec_from_file_location(name, folder / '__init__.py', submodule_search_locations=[str(folder)])
    package = importlib.util.module_from_spec(spec)
    sys.modules[name] = package
    spec.loader.exec_module(package)
    for module in ('events', 'definitions', 'texts', 'calls', 'scenario', 'live'):
        importlib.import_module(f'{name}.{module}')
    return package


class Model:
    """The model as a program, with its definitions as they are in this package."""

    def __init__(self, package: ModuleType, way: str = 'Canonical'):
        self.of, self.way = package, getattr(package.scenario, way)

    def _faulty(self, read: Any, text: bytes) -> Any:
        self.of.history.forget()
        try:
            return read(text)
        except self.of.texts.Faulty:
            return None

    def run(self, text: bytes) -> tuple[int, bytes]:
        scenario = self._faulty(self.of.texts.scenario_of, text)
        return (3, b'') if scenario is None else (0, self.of.scenario.Course(scenario, self.way()).report().encode())

    def dump(self, text: bytes) -> tuple[int, bytes]:
        scenario = self._faulty(self.of.texts.scenario_of, text)
        if scenario is None or self.of.texts.has_checkpoint(scenario['steps']):
            return 3, b''
        return 0, self.of.texts.dump_of(list(self.of.scenario.Course(scenario, self.way()).h))

    def audit(self, text: bytes) -> tuple[int, bytes]:
        events = self._faulty(self.of.texts.events_of, text)
        verdict = None if events is None else self.of.definitions.verdict(events)
        return (3, b'') if verdict is None else (0 if verdict.startswith('lawful') else 5, verdict.encode())

    def live(self, lines: list[bytes], limit: int | None = None, cut: bytes = b'') -> list[str]:
        self.of.history.forget()
        book = self.of.live.Live(self.way(), limit or 4_194_304)
        said = [book.answer(line) for line in lines]
        return [json.dumps(it, separators=(',', ':')) for it in [*said, book.last()]]
