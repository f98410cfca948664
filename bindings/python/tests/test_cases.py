"""The cases that all languages share are well formed: names are known, each resource is released once, each operator has its endings."""
import collections
import importlib
import json
import os
import pathlib
import re
import subprocess
import sys
import tempfile
import unittest

from tests.kits import is_model

FOLDER = pathlib.Path(__file__).resolve().parent.parent.parent / "cases"
KEYS = {"name", "of", "ending", "sources", "let", "pipe", "do", "when", "from", "log", "differs", "RxPY", "RxJS", "unlike"}
USUAL = {"completion", "error", "disposal", "resources"}
#: What these cannot do, as sources that end at once or never, or that another operator makes items for.
WITHOUT = {"empty": {"error", "disposal"}, "never": {"completion", "error"}, "throw": {"completion", "disposal"}}
SUBJECTS = {"subject", "behavior_subject", "replay_subject", "async_subject"}


def read():
    files = [it for it in sorted(FOLDER.glob("*.json")) if it.stem not in ("words", "unlike")]
    return [case for it in files for case in json.loads(it.read_text(encoding="utf-8"))]


def order():
    """What puts lines into the order in which they are compared."""
    sys.path.insert(0, str(FOLDER))
    try:
        return importlib.import_module("told").in_order
    finally:
        sys.path.remove(str(FOLDER))


@unittest.skipUnless(FOLDER.exists(), "the cases are in the checkout alone")
class Cases(unittest.TestCase):
    @classmethod
    def setUpClass(cls):
        cls.cases = read()
        cls.words = json.loads((FOLDER / "words.json").read_text(encoding="utf-8"))
        cls.in_order = staticmethod(order())

    def each(self, check):
        for case in self.cases:
            try:
                check(case)
            except (AssertionError, KeyError, ValueError, IndexError) as why:
                self.fail(f"{case.get('name')}: {type(why).__name__}: {why}")

    def test_each_has_its_keys_and_a_name_of_its_own(self):
        def check(case):
            self.assertEqual(set(case) - KEYS, set())
            self.assertTrue(case["name"] and case["of"] and case["ending"] and case["pipe"])
            self.assertIn(case["from"], ("both", "RxPY", "RxJS"))
            self.assertEqual("differs" in case, "RxPY" in case or "RxJS" in case)
            self.assertNotIn(case["from"], case)
        self.each(check)
        names = collections.Counter(it["name"] for it in self.cases)
        self.assertEqual([name for name, many in names.items() if many > 1], [])

    def test_each_word_is_known(self):
        self.each(lambda case: [self.known(it, case) for it in (case["pipe"], *case.get("let", {}).values())])

    def known(self, it, case):
        """An observable of the case, with all that is in it."""
        if isinstance(it, str):
            self.assertIn(it, {*case["sources"], *case.get("let", {}), "self", "fail"})
        elif isinstance(it[0], str) and it[0] in self.words["sources"]:
            self.arguments(self.words["sources"][it[0]].split(), it[1:], case)
        else:
            self.known(it[0], case)
            for name, *words in it[1:]:
                self.arguments(self.words["operators"][name].split(), words, case)

    def arguments(self, kinds, words, case):
        self.assertGreaterEqual(len(words), sum(it[-1] not in "?*" for it in kinds))
        self.assertTrue(len(words) <= len(kinds) or kinds and kinds[-1].endswith("*"), words)
        for index, word in enumerate(words):
            kind = kinds[min(index, len(kinds) - 1)].rstrip("?*")
            if kind in ("observable", "inner", "factory"):
                for each in word.values() if isinstance(word, dict) else [word]:
                    self.known(each, case)
            elif kind == "function":
                name = re.sub(r" \d+$", " N", word.partition(" or fail at ")[0])
                self.assertIn(name, self.words["functions"])
            else:
                self.assertIsInstance(word, {"number": int, "time": int, "name": str, "error": str, "notification": str}.get(kind, object))

    def test_each_command_is_known_and_in_its_time(self):
        def check(case):
            times = [int(it.split(" ", 1)[0]) for it in case["do"]]
            self.assertEqual(times, sorted(times))
            within = [it for lines in case.get("when", {}).values() for it in lines]
            for command in [it.split(" ", 1)[1] for it in case["do"]] + within:
                who, what, value = (command.split(" ", 2) + [""])[:3]
                self.assertIn(what, self.words["commands"])
                if what in ("next", "error", "completed"):
                    self.assertIn(case["sources"][who].split()[0] + " N", {f"{it.split()[0]} N" for it in self.words["subjects"]})
                elif what in ("connect", "disconnect"):
                    self.assertIn(who, case["let"])
                elif value:
                    self.known(json.loads(value), case)
        self.each(check)

    def test_what_is_told_is_in_order_and_nothing_after_an_end(self):
        def check(case):
            for log in (case[it] for it in ("log", "RxPY", "RxJS") if isinstance(case.get(it), list)):
                self.assertEqual(log, self.in_order(log))
                times = [int(it.split(" ", 1)[0]) for it in log]
                self.assertEqual(times, sorted(times))
                ended = set()
                for _, who, what in (it.split(" ")[:3] for it in log):
                    self.assertIn(what, self.words["told"])
                    self.assertNotIn(who if what in ("next", "error", "completed") else None, ended)
                    ended |= {who} if what in ("error", "completed") else set()
        self.each(check)

    def test_each_resource_is_released_once(self):
        def check(case):
            lines = [it.split(" ")[1:] for it in case["log"]]
            made, released = (collections.Counter((it[0], it[2]) for it in lines if it[1] == word) for word in ("made", "released"))
            actions = {it for it in released if f'["finally_action", "{it[0]}"]' in json.dumps(case)}
            self.assertEqual({it for it in released if it not in actions}, set(made))
            self.assertLessEqual({*made.values(), *released.values()}, {1})
        self.each(check)

    def test_each_operator_has_its_endings(self):
        cases, endings = collections.Counter(), collections.defaultdict(set)
        for case in self.cases:
            cases[case["of"]] += 1
            endings[case["of"]].add(case["ending"])
        names = {*self.words["sources"], *self.words["operators"], *SUBJECTS} - {"project"}
        self.assertEqual(set(cases), names)
        self.assertEqual([it for it in names if cases[it] < 5 or not USUAL - WITHOUT.get(it, set()) <= endings[it]], [])
        self.assertGreater(len(self.cases), 1200)

    def test_each_difference_is_a_row_of_the_page(self):
        rows = set(re.findall(r"^\| `([a-z-]+)` \|", (FOLDER / "README.md").read_text(encoding="utf-8").partition("## Where ")[2], re.M))
        used = {case[key] for case in self.cases for key in ("differs", "unlike") if key in case}
        self.assertEqual(used ^ rows, set())

    def test_releases_are_a_set_up_to_what_is_made(self):
        in_order = self.in_order
        self.assertEqual(in_order(["1 b released 1", "1 a released 1", "1 x completed"]),
                         ["1 x completed", "1 a released 1", "1 b released 1"])
        self.assertEqual(in_order(["1 b released 1", "1 c made 1", "1 x next 1"]), ["1 b released 1", "1 c made 1", "1 x next 1"])
        self.assertEqual(in_order(["1 a released 1", "2 x next 1"]), ["1 a released 1", "2 x next 1"])


@unittest.skipUnless(FOLDER.exists(), "the cases are in the checkout alone")
class Told(unittest.TestCase):
    """What the package tells in each case, over the engine that the tests have. `tools/try-cases` runs the peers too."""

    def test_each_case_is_told_as_it_says(self):
        cases = read()[::5 if is_model() else 1]  # the model is slow
        here = pathlib.Path(__file__).resolve().parent.parent
        with tempfile.TemporaryDirectory() as folder:
            file = pathlib.Path(folder) / "cases.json"
            file.write_text(json.dumps(cases), encoding="utf-8")
            done = subprocess.run([sys.executable, "-B", str(FOLDER / "runner.py"), "cellarcliff.rx", str(file)], stdout=subprocess.PIPE, text=True,
                                  env={**os.environ, "PYTHONPATH": os.pathsep.join([str(here), *sys.path])})
        self.assertEqual(done.returncode, 0)
        told, in_order, passed, lacking = json.loads(done.stdout), order(), 0, set()
        unlike = {pattern for patterns in json.loads((FOLDER / "unlike.json").read_text()).get("Python", {}).values() for pattern in patterns}
        for case in cases:
            mine = told[case["name"]]
            if isinstance(mine, str):
                self.assertEqual(mine[:6], "lacks ", case["name"])
                lacking.add(mine[6:])
            elif in_order(mine) == case["log"]:
                passed += 1
            else:
                self.assertTrue("unlike" in case or case["name"] in unlike or in_order(mine) == case.get("RxPY"), (case["name"], mine))
        self.assertGreater(passed, 0.96 * len(cases))
        self.assertLessEqual(lacking, {"audit_time", "end_with", "share_replay", "throw_if_empty"})  # RxJS alone has them


if __name__ == "__main__":
    unittest.main()
