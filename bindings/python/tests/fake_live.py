"""A live book by lines in Python, over the book of fake_book: what `rxbook live` does, as far as the tests need it.

A line with a member "slow" is answered so many seconds late; one with "die" ends the program without an answer.
"""
import json
import pathlib
import sys
import time

sys.path.insert(0, str(pathlib.Path(__file__).resolve().parent.parent))
sys.path.insert(0, str(pathlib.Path(__file__).resolve().parent))

import fake_book as it  # noqa: E402
from fake_book import FakeBook  # noqa: E402

PLACES = {"root": it.ROOT, "source": it.SOURCE, "inner": it.INNER, "notifier": it.NOTIFIER}
KINDS = {"leaf": it.LEAF, "pass": it.PASS, "flat": it.FLAT, "switch": it.SWITCH, "until": it.UNTIL, "sub": it.SUB}


class Lines:
    def __init__(self):
        self.book, self.nodes, self.resources, self.hubs, self.names, self.tags = FakeBook(), {}, {}, {}, {}, {}
        self.place = 0

    def node(self, name):
        if name not in self.nodes or not self.book.is_open(self.nodes[name]):
            raise it.Refused("NoName")
        return self.nodes[name]

    def bind(self, name, node):
        self.nodes[name], self.names[node.number] = node, name

    def tag(self, res):
        self.tags[len(self.tags)] = res
        return len(self.tags) - 1

    def do(self, do, **words):
        book = self.book
        above = self.node(words["of"]) if words.get("of") else None
        if "name" in words and words["name"] in self.nodes and book.is_open(self.nodes[words["name"]]):
            raise it.Refused("NameTaken")
        if do == "using":
            node, _ = book.using(PLACES[words["place"]], above, self.tag(words["res"]))
            self.bind(words["name"], node)
        elif do == "open":
            node, connection = book.open(PLACES[words["place"]], above, KINDS[words["kind"]], self.hubs.get(words.get("hub"), 0))
            self.bind(words["name"], node)
            if connection is not None and "connection" in words:
                self.bind(words["connection"], connection)
            if "res" in words:
                book.hold(node, self.tag(words["res"]))
        elif do == "hold":
            book.hold(self.node(words["node"]), self.tag(words["res"]))
        elif do == "next":
            book.next(self.node(words["node"]), words["value"])
        elif do == "end":
            book.end(self.node(words["node"]), words.get("error"))
        elif do == "dispose":
            book.dispose(self.node(words["node"]))
        elif do == "hub":
            self.hubs[words["name"]] = book.hub(it.AUTO if words["mode"] == "auto" else it.MANUAL)
        elif do == "connect":
            self.bind(words["name"], book.connect(self.hubs[words["hub"]]))
        elif do != "list":
            return {"faulty": "do: a command is expected"}
        self.place += 1
        answer = {"ok": self.place}
        if do == "list":
            answer["nodes"] = [{"name": name} for name, node in self.nodes.items() if book.is_open(node)]
        return self.told(answer)

    def answer(self, words):
        try:
            return self.do(**words)
        except it.Refused as why:
            return {"refused": why.name}

    def told(self, answer):
        ends = {it.ON_COMPLETED: "completed", it.ON_ERROR: "error", it.NEXT: "next", it.PROJECT: "project"}
        notes = [{"to": self.names[to], ends[kind]: True if kind == it.ON_COMPLETED else value}
                 for to, kind, value in self.book.mail]
        releases = [self.tags[tag] for tag in self.book.tags]
        self.book.mail.clear()
        self.book.tags.clear()
        if notes:
            answer["notes"] = notes
        if releases:
            answer["release"] = releases
        return answer


def main():
    lines = Lines()
    for line in sys.stdin:
        words = json.loads(line)
        if isinstance(words, list):
            print(json.dumps([lines.answer(one) for one in words]), flush=True)
            continue
        if words.pop("die", None):
            return
        time.sleep(words.pop("slow", 0))
        print(json.dumps(lines.answer(words)), flush=True)
    lines.book.close()
    print(json.dumps(lines.told({"closed": True})), flush=True)


if __name__ == "__main__":
    main()
