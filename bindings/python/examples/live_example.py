"""Four threads read a file each through one live book; one of them fails. No file stays open.

Run as `python3 live_example.py PROGRAM ..`, where the words are those that start a live book: ./rxbook live
Without any word the book is in this process, by the shared library. The package is found where it is installed, or beside
this folder.
"""
import pathlib
import sys
import tempfile
import threading

sys.path.append(str(pathlib.Path(__file__).resolve().parent.parent))

from cellarcliff import live  # noqa: E402
from cellarcliff.live import Refused  # noqa: E402

FAILS = 2
files = []


def read(book, number):
    """Subscribes to a file, emits its lines, and ends; the one that fails emits no more after its first line."""
    file = tempfile.TemporaryFile("w+")
    file.writelines(f"{line}\n" for line in range(3))
    file.seek(0)
    files.append(file)
    name, source = f"file{number}", f"source{number}"
    book.using(name, lambda note: print(f"{name}: {note}\n", end=""), file.close)
    book.open(source, place="source", of=name, kind="leaf")
    for line in file:
        book.send("next", node=source, value=int(line))
        if number == FAILS:
            raise OSError(f"{name} cannot be read")
    book.send("end", node=source)


def run(book, number):
    try:
        read(book, number)
    except OSError as why:
        print(f"{why}\n", end="")


def main():
    with live.Book(sys.argv[1:]) as book:
        threads = [threading.Thread(target=run, args=(book, number)) for number in range(4)]
        for thread in threads:
            thread.start()
        for thread in threads:
            thread.join()
        try:
            book.send("next", node="source0", value=5)
        except Refused as why:
            print(f"an item after the end: {why}")
        print(f"open while the book is: {sum(not file.closed for file in files)}")
    print(f"open after it: {sum(not file.closed for file in files)}")


main()
