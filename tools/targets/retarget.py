"""Makes of the text of a library's module, which the toolchain made for x86-64 Linux, one that clang compiles for any target with pointers
of 64 bits, and gives the names of its exports.

Taken out are the two lines that name the target and its data layout (clang writes its own), and the attributes that only say how code for
x86-64 is made: the frame pointer, the probes of the stack, the processor. The layouts of x86-64, AArch64 and wasm64 agree in all that the
module rests on: little endian, pointers of 64 bits, numbers of 64 and 128 bits aligned to 8 and 16. The C of wasm wants whoever hands out
a small number to fill its word, which `zeroext` says.

In an unproved module, of tests that name the exports, each export is an internal function; the exports are written here over them.
"""
from __future__ import annotations

import pathlib
import re
import sys

TARGET = re.compile(r'target (datalayout|triple) ')
ATTRIBUTES = re.compile(r' "(frame-pointer|probe-stack|stack-probe-size|target-cpu|target-features|tune-cpu)"="[^"]*"')
LEFT = re.compile(r'@llvm\.(x86|aarch64)\.|^module asm|\basm (sideeffect|")')
EXPORT = re.compile(r'define (?!internal)[^@]*@((?:rx|cellar)_\w+)\(')


def filled(line: str) -> str:
    """An export whose small numbers fill their words."""
    line = re.sub(r'\bi8 (noundef )?(?=[@%])', r'i8 \1zeroext ', line)
    return line.replace('i8 zeroext @', 'zeroext i8 @').replace('i8 noundef zeroext @', 'noundef zeroext i8 @')


def export(name: str, answer: str, symbol: str, words: list[str]) -> str:
    """An export that calls an internal function."""
    given = ', '.join(f'{word} {"zeroext " if word == "i8" else ""}%p{i}' for i, word in enumerate(words))
    passed = ', '.join(f'{word} %p{i}' for i, word in enumerate(words))
    if answer == 'void':
        return f'\ndefine void @{name}({given}) {{\n  call void @"{symbol}"({passed})\n  ret void\n}}\n'
    return f'\ndefine {"zeroext " if answer == "i8" else ""}{answer} @{name}({given}) {{\n  %r = call {answer} @"{symbol}"({passed})\n  ret {answer} %r\n}}\n'


def retarget(source: pathlib.Path, to: pathlib.Path, crate: str | None = None) -> list[str]:
    """The names of the exports of what is written. With a crate the module is one of that crate's tests."""
    defined = re.compile(rf'define internal (?:noundef )?(i8|i32|void) @"({crate}::[a-z_:]*::((?:rx|cellar)_\w+))"\((.*)\)')
    found, names, in_main = [], [], False
    with open(source) as lines, open(to, 'w') as out:
        for line in lines:
            if TARGET.match(line):
                continue
            if line.startswith('attributes '):
                line = ATTRIBUTES.sub('', line).replace('{ }', '{ nounwind }')
            if it := EXPORT.match(line):
                names.append(it[1])
                line = filled(line)
            if LEFT.search(line):
                sys.exit(f'an instruction of a processor is left: {line.strip()}')
            in_main = in_main or crate is not None and line.startswith('define i32 @main(')
            if in_main:
                in_main = not line.startswith('}')
                continue
            if crate and (it := defined.match(line)):
                found.append((it[3], it[1], it[2], [word.split()[0] for word in it[4].split(', ') if word]))
            out.write(line)
        for it in found:
            out.write(export(*it))
    return sorted([*names, *(name for name, *_ in found)])
