"""Two readers of one feed, each with a file of its own; prints the dump of what happened.

Run as `python3 readers.py`, one of them is forgotten; as `python3 readers.py all`, none is.
"""
import json
import sys
import tempfile

history = []


def note(*event):
    """The place of the event, which is the number of what it makes."""
    history.append(event)
    return len(history) - 1


class Reader:
    """A subscription that holds a file, and the source that it mirrors."""

    def __init__(self, tag):
        self.node = note("open", "root", "pass")
        self.resource = note("accept", self.node, tag)
        self.file = tempfile.TemporaryFile()
        self.source = note("open", "source", self.node, "leaf")

    def next(self, value):
        note("item", self.source, value)
        self.file.write(b"%d\n" % value)

    def complete(self):
        note("end", self.source, "completed")
        note("end", self.node, "completed")
        self.release()

    def dispose(self):
        note("close", self.node)
        self.release()

    def release(self):
        self.file.close()
        note("take", self.resource)


first, second = Reader(1), Reader(2)
for value in 101, 99:
    first.next(value)
    second.next(value)
first.complete()
if "all" in sys.argv:
    second.dispose()
print(json.dumps(history))
