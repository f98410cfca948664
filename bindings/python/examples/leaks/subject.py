"""Chat rooms. Whoever leaves a room forgets it, but nobody completes its subject while a list of all rooms keeps it: its log stays open."""
import rx
from rx import operators as ops
from rx.disposable import Disposable
from rx.subject import Subject


class Room:
    all = []

    def __init__(self, name):
        self.name, self.said = name, Subject()
        Room.all.append(self)
        rx.using(self.open_log, lambda _: self.said).pipe(ops.filter(bool)).subscribe(self.write)

    def open_log(self):
        return Disposable(lambda: print("closed:", self.name))

    def write(self, line):
        print(f"{self.name}: {line}")

    def close(self):
        print(self.name, "is left")  # and self.said.on_completed() is missing


for name in "kitchen", "garden":
    room = Room(name)
    room.said.on_next("hello")
    room.close()
