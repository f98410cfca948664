"""Doug Lea's allocator, as wasi-libc has it: one file of Debian's source package, which apt-get brings from Debian's own archive."""
from __future__ import annotations

import hashlib
import os
import pathlib
import subprocess
import sys
import tarfile
import tempfile

from .crates import TOP

PACKAGE, VERSION = 'wasi-libc', '0.0~git20220510.9886d3d-2'
SUM = '22c1995baed5659a0002cb396d6d83e678c92199e893a02d916cadc142d3ada2'
NAME = f'dlmalloc 2.8.6 of {PACKAGE} {VERSION} (Debian), released to the public domain (CC0)'
KEPT = TOP / 'bindings/wasm/out/malloc.c'
SOURCES = '''Types: deb-src
URIs: http://deb.debian.org/debian
Suites: bookworm
Components: main
Signed-By: /usr/share/keyrings/debian-archive-keyring.gpg
'''
SETTINGS = '''Dir::Etc::SourceList "/dev/null";
Dir::Etc::SourceParts "{0}/parts";
Dir::State::Lists "{0}/lists";
Dir::Cache "{0}/cache";
APT::Sandbox::User "root";
'''


def is_it(file: pathlib.Path) -> bool:
    return file.exists() and hashlib.sha256(file.read_bytes()).hexdigest() == SUM


def fetched(folder: pathlib.Path) -> bytes:
    """The file, from the source package. The machine's own list of sources stays as it is."""
    for it in ('parts', 'lists/partial', 'cache/archives/partial'):
        (folder / it).mkdir(parents=True)
    (folder / 'parts/debian.sources').write_text(SOURCES)
    (folder / 'apt.conf').write_text(SETTINGS.format(folder))
    for words in (['update'], ['source', '--download-only', f'{PACKAGE}={VERSION}']):
        done = subprocess.run(['apt-get', '-q', *words], cwd=folder, env={**os.environ, 'APT_CONFIG': str(folder / 'apt.conf')}, text=True,
                              stdout=subprocess.PIPE, stderr=subprocess.STDOUT)
        if done.returncode:
            sys.exit(f'apt-get {words[0]} does not bring the source of {PACKAGE}: {done.stdout[-500:]}')
    with tarfile.open(next(folder.glob(f'{PACKAGE}_*.orig.tar.*'))) as archive:
        name = next(it for it in archive.getnames() if it.endswith('/dlmalloc/src/malloc.c') or it == 'dlmalloc/src/malloc.c')
        return archive.extractfile(name).read()


def allocator() -> pathlib.Path:
    """The file, kept in bindings/wasm/out once it was fetched."""
    if not is_it(KEPT):
        KEPT.parent.mkdir(exist_ok=True)
        with tempfile.TemporaryDirectory() as made:
            KEPT.write_bytes(fetched(pathlib.Path(made)))
        if not is_it(KEPT):
            sys.exit(f'{KEPT} is not the file that it should be')
    return KEPT
