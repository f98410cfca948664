"""The library elsewhere as an engine of tools/model. Each case is a request, a line of JSON: to engine.mjs with a WebAssembly module, in a process
of Node or in a page of a browser; or to library.py with a shared library, in an emulated process."""
from __future__ import annotations

import base64
import json
import os
import pathlib
import shutil
import subprocess
import tempfile
from collections.abc import Iterable
from typing import Any

from .browser import Browser, serve

HERE = pathlib.Path(__file__).resolve().parent
FAULTY_INPUT, SAYS = 3, 5


class Gone(BaseException):
    """The engine ended, or does not answer: no case more is compared with it."""


class Node:
    """A process of Node with a module."""

    def __init__(self, module: pathlib.Path):
        words = [os.environ.get('NODE', 'node'), str(HERE / 'node.mjs'), str(module)]
        self.process = subprocess.Popen(words, stdin=subprocess.PIPE, stdout=subprocess.PIPE, text=True, bufsize=1)

    def answer(self, request: str) -> str:
        try:
            self.process.stdin.write(request + '\n')
            self.process.stdin.flush()
        except BrokenPipeError:
            pass
        if not (line := self.process.stdout.readline()):
            raise Gone(f'{self.process.args[0]} ended with {self.process.wait()}')
        return line.rstrip('\n')

    def answers(self, requests: Iterable[str]) -> list[str]:
        return [self.answer(it) for it in requests]

    def close(self) -> None:
        self.process.stdin.close()
        self.process.wait()


class Chromium:
    """A page of a headless Chromium with a module."""

    def __init__(self, module: pathlib.Path):
        self.folder = tempfile.TemporaryDirectory()
        scratch = pathlib.Path(self.folder.name)
        shutil.copy(HERE / 'engine.mjs', scratch)
        shutil.copy(module, scratch / 'it.wasm')
        (scratch / 'index.html').write_text(f'''<!doctype html><script type="module">
import {{ answer, begin }} from './engine.mjs';
begin((await WebAssembly.instantiateStreaming(fetch('it.wasm'))).instance.exports);
globalThis.answer = answer;
</script>''')
        self.page = Browser()
        self.page.go(serve(scratch))
        self.page.wait('typeof answer === "function"')

    def answer(self, request: str) -> str:
        return self.answers([request])[0]

    def answers(self, requests: Iterable[str]) -> list[str]:
        try:
            return json.loads(self.page.value(f'JSON.stringify({json.dumps(list(requests))}.map(answer))', 300))
        except (RuntimeError, TimeoutError) as error:
            raise Gone(f'Chromium: {error}') from None

    def close(self) -> None:
        self.page.close()
        self.folder.cleanup()


class Emulated:
    """A process of a Python for another processor, under an emulator, with a shared library for that one."""

    def __init__(self, python: list[str], library: pathlib.Path):
        words = [*python, '-B', str(HERE / 'library.py'), str(library)]
        self.process = subprocess.Popen(words, stdin=subprocess.PIPE, stdout=subprocess.PIPE, text=True, bufsize=1)

    answer = Node.answer
    answers = Node.answers
    close = Node.close


class Module:
    """The calls of cellarcliff.h that take a text in a module, by a channel to it."""

    def __init__(self, channel: Any, has: list[str] | None = None):
        self.channel = channel
        self.has = has or self.ask(exports=True)

    def ask(self, **words: Any) -> Any:
        return json.loads(self.channel.answer(json.dumps(words)))

    def text(self, call: str, text: bytes) -> tuple[int, bytes]:
        status, told = self.ask(call=call, text=base64.b64encode(text).decode())
        return status, base64.b64decode(told)

    def run(self, text: bytes) -> tuple[int, bytes]:
        return self.text('cellar_run', text)

    def dump(self, text: bytes) -> tuple[int, bytes]:
        return self.text('cellar_run_dump', text)

    def names(self, text: bytes) -> tuple[int, bytes]:
        return self.text('cellar_run_names', text)

    def audit(self, text: bytes) -> tuple[int, bytes]:
        return self.text('cellar_audit', text)

    def picture(self, text: bytes) -> tuple[int, bytes]:
        return self.text('cellar_picture', text)

    def explain(self, text: bytes) -> tuple[int, bytes]:
        """As `rxbook explain` has it: 3 and a line where there is something to say."""
        status, told = self.text('cellar_explain', text)
        return (FAULTY_INPUT, told + b'\n') if status == SAYS else (status, told)

    def live(self, lines: list[bytes], limit: int | None = None, cut: bytes = b'') -> list[str]:
        return self.ask(lines=[base64.b64encode(it).decode() for it in lines], limit=limit or 4_194_304)

    def starve(self, call: str, text: bytes) -> list[int]:
        """Each request for memory of the call is refused in turn; how many there were, and how many of them were missed."""
        return self.ask(starved=call, text=base64.b64encode(text).decode())
