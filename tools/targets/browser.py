"""A headless Chromium over the DevTools protocol, through two pipes, and a server of files on this machine."""
from __future__ import annotations

import base64
import functools
import http.server
import json
import os
import pathlib
import select
import subprocess
import tempfile
import threading
import time
from typing import Any


class Files(http.server.SimpleHTTPRequestHandler):
    extensions_map = {**http.server.SimpleHTTPRequestHandler.extensions_map, '.wasm': 'application/wasm', '.mjs': 'text/javascript'}

    def log_message(self, *_: Any) -> None:
        pass


def serve(folder: pathlib.Path) -> str:
    """Serves the folder until this process ends; the address."""
    server = http.server.ThreadingHTTPServer(('127.0.0.1', 0), functools.partial(Files, directory=str(folder)))
    threading.Thread(target=server.serve_forever, daemon=True).start()
    return f'http://127.0.0.1:{server.server_address[1]}/'


class Browser:
    """One page of it. What it asked for, and what it told on its console, is kept."""

    def __init__(self, program: str = 'chromium'):
        self.profile = tempfile.TemporaryDirectory(ignore_cleanup_errors=True)
        theirs, self.write = os.pipe()
        self.read, others = os.pipe()
        words = [program, '--headless=new', '--no-sandbox', '--disable-gpu', '--no-first-run', '--disable-extensions', '--disable-background-networking',
                 '--disable-component-update', '--hide-scrollbars', f'--user-data-dir={self.profile.name}', '--remote-debugging-pipe', 'about:blank']
        self.process = subprocess.Popen(['bash', '-c', f'exec "$@" 3<&{theirs} 4>&{others}', 'bash', *words], pass_fds=(theirs, others),
                                        stdout=subprocess.DEVNULL, stderr=subprocess.DEVNULL)
        os.close(theirs)
        os.close(others)
        self.left, self.number, self.session = b'', 0, None
        self.asked: list[str] = []
        self.told: list[str] = []
        self.new_page()

    def new_page(self) -> None:
        self.session = None
        target = self.ask('Target.createTarget', url='about:blank')['targetId']
        self.session = self.ask('Target.attachToTarget', targetId=target, flatten=True)['sessionId']
        for domain in ('Page', 'Runtime', 'Network', 'DOM'):
            self.ask(f'{domain}.enable')

    def message(self, seconds: float) -> dict[str, Any] | None:
        end = time.time() + seconds
        while b'\0' not in self.left:
            if not select.select([self.read], [], [], max(0, end - time.time()))[0]:
                return None
            more = os.read(self.read, 1 << 20)
            if not more:
                raise RuntimeError(f'the browser ended with {self.process.wait()}')
            self.left += more
        text, self.left = self.left.split(b'\0', 1)
        it = json.loads(text)
        if it.get('method') == 'Network.requestWillBeSent':
            self.asked.append(it['params']['request']['url'])
        if it.get('method') == 'Runtime.exceptionThrown':
            self.told.append(it['params']['exceptionDetails'].get('exception', {}).get('description') or it['params']['exceptionDetails']['text'])
        if it.get('method') == 'Runtime.consoleAPICalled' and it['params']['type'] in ('error', 'warning'):
            self.told.append(' '.join(str(one.get('value')) for one in it['params']['args']))
        return it

    def ask(self, method: str, seconds: float = 60, **words: Any) -> Any:
        self.number += 1
        request = {'id': self.number, 'method': method, 'params': words, **({'sessionId': self.session} if self.session else {})}
        text = json.dumps(request).encode() + b'\0'
        while text:
            text = text[os.write(self.write, text):]
        while it := self.message(seconds):
            if it.get('id') == request['id']:
                if 'error' in it:
                    raise RuntimeError(f'{method}: {it["error"]["message"]}')
                return it['result']
        raise TimeoutError(method)

    def value(self, expression: str, seconds: float = 60) -> Any:
        """What an expression of JavaScript gives."""
        said = self.ask('Runtime.evaluate', seconds, expression=expression, awaitPromise=True, returnByValue=True)
        if 'exceptionDetails' in said:
            raise RuntimeError(said['exceptionDetails'].get('exception', {}).get('description') or said['exceptionDetails']['text'])
        return said['result'].get('value')

    def wait(self, expression: str, seconds: float = 60) -> Any:
        """Waits until the expression is true; what it is."""
        end = time.time() + seconds
        while time.time() < end:
            if it := self.value(expression):
                return it
            time.sleep(0.05)
        raise TimeoutError(expression)

    def go(self, url: str) -> None:
        self.ask('Page.navigate', url=url)

    def key(self, key: str, modifiers: int = 0) -> None:
        code = {'Enter': 13, 'Escape': 27, 'ArrowLeft': 37, 'ArrowRight': 39, 'Home': 36, 'End': 35, 'Tab': 9}[key]
        for kind in ('rawKeyDown', 'keyUp'):
            self.ask('Input.dispatchKeyEvent', type=kind, key=key, code=key, windowsVirtualKeyCode=code, modifiers=modifiers)

    def picture(self, file: pathlib.Path) -> None:
        """Writes what the whole page looks like."""
        file.write_bytes(base64.b64decode(self.ask('Page.captureScreenshot', captureBeyondViewport=True)['data']))

    def close(self) -> None:
        self.session = None
        try:
            self.ask('Browser.close', 10)
        except (TimeoutError, RuntimeError, OSError):
            pass
        try:
            self.process.wait(10)
        except subprocess.TimeoutExpired:
            self.process.kill()
        os.close(self.read)
        os.close(self.write)
        self.profile.cleanup()
