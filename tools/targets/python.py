"""Debian's Python for another processor, unpacked into a folder, to be run by an emulator. apt-get brings its packages from Debian's own archive;
nothing is installed."""
from __future__ import annotations

import os
import pathlib
import subprocess
import sys

from .allocator import SETTINGS, SOURCES

PACKAGES = ('python3.11-minimal libpython3.11-minimal libpython3.11-stdlib libc6 libexpat1 zlib1g libffi8 libssl3 libbz2-1.0 liblzma5 libsqlite3-0 '
            'libuuid1 libgcc-s1 libcrypt1').split()


def emulated(folder: pathlib.Path, processor: str = 'arm64', emulator: str = 'qemu-aarch64') -> list[str]:
    """The words that start it. The folder keeps it."""
    root = folder / 'root'
    python = root / 'usr/bin/python3.11'
    if not python.exists():
        for it in ('parts', 'lists/partial', 'cache/archives/partial', 'packages'):
            (folder / it).mkdir(parents=True, exist_ok=True)
        (folder / 'parts/debian.sources').write_text(SOURCES.replace('deb-src', 'deb'))
        own = f'APT::Architecture "{processor}";\nAPT::Architectures {{ "{processor}"; }};\n'
        (folder / 'apt.conf').write_text(SETTINGS.format(folder) + own)
        for words in (['update'], ['download', *PACKAGES]):
            done = subprocess.run(['apt-get', '-q', *words], cwd=folder / 'packages', env={**os.environ, 'APT_CONFIG': str(folder / 'apt.conf')}, text=True,
                                  stdout=subprocess.PIPE, stderr=subprocess.STDOUT)
            if done.returncode:
                sys.exit(f'apt-get {words[0]} does not bring Python for {processor}: {done.stdout[-500:]}')
        for it in (folder / 'packages').glob('*.deb'):
            subprocess.run(['dpkg', '-x', it, root], check=True)
    return [emulator, '-L', str(root), str(python)]
