"""A mistyped word: what is said has the nearest one. Numbers have their names, and a Python that is too old is told so."""
import importlib
import pathlib
import re
import subprocess
import sys
import traceback
import unittest
from unittest import mock

import cellarcliff
from cellarcliff import _refused, audit, live, rx
from cellarcliff.rx import operators as ops
from tests.kits import fresh_engine
from tests.test_live import PROGRAM

PACKAGE = pathlib.Path(cellarcliff.__file__).resolve().parent
HEADER = pathlib.Path(__file__).resolve().parents[3] / "crates/cellarcliff/cellarcliff_names.h"
#: Of each module a name that is not there, and the one that is meant.
NAMES = (("rx", "from_iterabel", "from_iterable"), ("rx", "combinelatest", "combine_latest"), ("rx.operators", "flatmap", "flat_map"),
         ("rx.operators", "distinct_until_change", "distinct_until_changed"), ("rx.subject", "BehaviourSubject", "BehaviorSubject"),
         ("rx.disposable", "Disposible", "Disposable"), ("rx.scheduler", "TimoutScheduler", "TimeoutScheduler"),
         ("rx.testing", "ReactivTest", "ReactiveTest"), ("live", "Boook", "Book"), ("audit", "expalin", "explain"))


class Words(unittest.TestCase):
    def test_a_name_of_a_module(self):
        for module, wrong, right in NAMES:
            with self.subTest(module=module, name=wrong):
                it = importlib.import_module("cellarcliff." + module)
                with self.assertRaises(AttributeError) as raised:
                    getattr(it, wrong)
                self.assertNotIsInstance(raised.exception, NotImplementedError)
                self.assertEqual(str(raised.exception), f"module 'cellarcliff.{module}' has no attribute {wrong!r}: did you mean {right!r}?")
                self.assertFalse(hasattr(it, wrong))
                # Python 3.10 and later look for the nearest name too: it is said once
                self.assertEqual("".join(traceback.format_exception(AttributeError, raised.exception, None)).lower().count("did you mean"), 1)
                with self.assertRaises(AttributeError) as raised:
                    it.xyzzy
                self.assertEqual(str(raised.exception), f"module 'cellarcliff.{module}' has no attribute 'xyzzy'")

    def test_a_name_of_rxpys_alone_is_another_thing(self):
        for it, name in (rx, "to_async"), (ops, "group_join"), (rx.scheduler, "GtkScheduler"), (rx.scheduler, "EventletScheduler"):
            self.assertRaises(NotImplementedError, getattr, it, name)

    def test_a_keyword(self):
        for call, wrong, right in ((ops.debounce, "duetme", "duetime"), (ops.buffer_with_count, "cuont", "count"), (ops.retry, "retrycount", "retry_count")):
            with self.assertRaises(TypeError) as raised:
                call(1, **{wrong: 1})
            self.assertIn(f"'{wrong}'", str(raised.exception))
            self.assertRegex("".join(traceback.format_exception(TypeError, raised.exception, None)), f"(?i)did you mean '{right}'")
        with self.assertRaises(TypeError) as raised:
            ops.map(xyzzy=1)
        self.assertNotIn("did you mean", str(raised.exception).lower())

        def mapper(value):
            return int(base=value)
        engine = rx.use(fresh_engine())
        with self.assertRaises(TypeError) as raised:  # of what is called within, nothing is said
            rx.of(1).pipe(ops.map(mapper=mapper)).run()
        engine.close()
        self.assertNotIn("did you mean", str(raised.exception).lower())

    def test_each_status_has_its_name(self):
        self.assertEqual(_refused.REFUSALS[5], "NoSuchCode")
        for refuse in (rx._engine.refuse,):
            self.assertRaisesRegex(_refused.Refused, "^NoSuchCode$", refuse, 5)
            self.assertRaisesRegex(_refused.Refused, "^status 200$", refuse, 200)

    @unittest.skipUnless(HEADER.exists(), "the header is in a checkout")
    def test_the_names_are_those_of_the_header(self):
        names = {int(number): name for number, name in re.findall(r'case (\d+): return "(\w+)"', HEADER.read_text())}
        theirs = {number: name for number, name in names.items() if number not in (0, 1, 4)}  # done; a ValueError; a MemoryError
        self.assertEqual(_refused.REFUSALS, theirs)

    def test_a_line_of_a_live_book(self):
        cases = (({"do": "opne", "name": "b"}, "do: ", "open"), ({"do": "open", "nmae": "b"}, "nmae: ", "name"),
                 ({"do": "open", "name": "b", "place": "rot", "kind": "leaf"}, "place: ", "root"),
                 ({"do": "open", "name": "b", "place": "root", "kind": "swich"}, "kind: ", "switch"),
                 ({"do": "hub", "name": "h", "mode": "manuel"}, "mode: ", "manual"))
        for words, told, right in cases:
            with self.subTest(words):
                self.assertEqual(live._hint(words), f": did you mean {right!r}?")
        self.assertEqual(live._hint({"do": "open", "name": "swich", "place": "root", "kind": "leaf"}), "")
        self.assertEqual(live._hint({"do": "xyzzy"}), "")
        with live.Book(PROGRAM) as it:
            self.assertRaisesRegex(live.Refused, r"^do: a command is expected: did you mean 'open'\?$", it.send, "opne", name="a")
            self.assertRaisesRegex(live.Refused, "^NoName$", it.send, "next", node="opne", value=1)

    def test_a_faulty_input_is_explained(self):
        def answers(told):
            """A library that finds the input faulty, and explains it so."""
            def call(name):
                def answer(value, length, buffer, room, size):
                    if name != "cellar_explain":
                        return audit.FAULTY_INPUT
                    buffer.value, size._obj.value = told, len(told)
                    return audit.NOT_LAWFUL if told else audit.DONE
                return answer
            return mock.patch.object(audit, "_call", call)

        def said(call, value):
            with self.assertRaises(audit.FaultyInput) as raised:
                call(value)
            return str(raised.exception)
        with answers(b"line 1, column 4: not a JSON text"):
            self.assertEqual(said(audit.audit, "{ no"), "no history: line 1, column 4: not a JSON text")
        with answers(b".steps[0].do: a fault"):
            self.assertEqual(said(audit.run, {"steps": [{}]}), "no scenario: .steps[0].do: a fault")
            self.assertEqual(said(audit.audit, [["opne"]]), "no history: .steps[0].do: a fault")
            self.assertEqual(said(audit.audit, " {}"), "no history: it is a scenario, which run and run_names take")
            self.assertEqual(said(audit.run, []), "no scenario: it is a history, which audit takes")
        with answers(b""):
            self.assertEqual(said(audit.run_dump, {"steps": [{"do": "checkpoint"}]}),
                             "no scenario: one that has a checkpoint has no history; run takes it")

        def no_explain(name):
            if name == "cellar_explain":
                raise OSError("there is none")
            return lambda *_: audit.FAULTY_INPUT
        with mock.patch.object(audit, "_call", no_explain):  # an older library
            self.assertEqual(said(audit.audit, [1]), "no history")

    def test_an_old_python_is_told_so(self):
        source = (PACKAGE / "__init__.py").read_text()
        for version in (2, 7, 18), (3, 6, 15), (3, 7, 16):
            with mock.patch.object(sys, "version_info", version):
                self.assertRaisesRegex(ImportError, "cellarcliff needs Python 3.8 or later", exec, compile(source, "__init__.py", "exec"), {})
        for it in sorted(pathlib.Path.home().glob(".pyenv/versions/[23].[67].*/bin/python")):
            said = subprocess.run([str(it), "-B", "-c", "import cellarcliff.rx"], cwd=str(PACKAGE.parent), stderr=subprocess.PIPE)
            last = said.stderr.decode().splitlines()[-1]
            if "/2.7." in str(it) or "/3.6." in str(it) or "/3.7." in str(it):
                self.assertRegex(last, "^ImportError: cellarcliff needs Python 3.8 or later", str(it))


if __name__ == "__main__":
    unittest.main()
