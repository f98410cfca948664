"""The module audit over the library, by the examples in the folder that CELLARCLIFF_EXAMPLES names, or by the checkout's."""
import os
import pathlib
import threading
import unittest

from cellarcliff import audit

EXAMPLES = pathlib.Path(os.environ.get("CELLARCLIFF_EXAMPLES") or pathlib.Path(__file__).resolve().parents[3] / "examples/stored")


def text(name):
    return (EXAMPLES / name).read_text()


@unittest.skipUnless(os.environ.get("CELLARCLIFF_LIBRARY"), "without the library")
class Audit(unittest.TestCase):
    def test_reports_and_dumps_are_those_of_the_examples(self):
        for file in EXAMPLES.glob("*.json"):
            self.assertEqual(audit.run(file.read_text()), file.with_suffix(".report").read_text())
            self.assertTrue(audit.audit(audit.run_dump(file.read_bytes())).is_lawful)
        self.assertEqual(audit._answer("cellar_run_dump", text("first-run.json")).decode(), text("first-run.dump"))

    def test_verdicts(self):
        self.assertEqual(audit.audit(text("dispose-twice.dump")), audit.Verdict("unlawful", 4))
        self.assertEqual(audit.audit(text("swallowed-error.dump")), audit.Verdict("unsettled"))
        self.assertTrue(audit.audit(text("until-last.dump")).leaves_nothing)
        self.assertTrue(audit.audit([]).leaves_nothing)
        opened = [["open", "root", "pass"], ["accept", 0, 7]]
        self.assertEqual(audit.audit(opened), audit.Verdict("lawful", None, (0,), (1,), ()))

    def test_faulty_input(self):
        for call, value in (audit.audit, ""), (audit.audit, {}), (audit.run, []), (audit.run, b"\xff"), (audit.run_dump, "{"):
            self.assertRaises(audit.FaultyInput, call, value)

    def test_an_answer_that_is_longer_than_the_first_buffer(self):
        history = [["open", "root", "leaf"]] * 5000
        self.assertEqual(audit.audit(history).live, tuple(range(5000)))

    def test_pictures_are_those_of_the_examples(self):
        drawn = sorted((EXAMPLES / "pictures").glob("*.svg"))
        for file in drawn:
            of = next(it for it in (file.with_suffix(".dump"), file.with_suffix(".named-dump")) if it.exists())
            self.assertEqual(audit.picture(of.read_text()), file.read_text())
        named = audit.run_names(text("pictures/forgotten-screen.json"))
        self.assertEqual(named["names"]["4"], "socket")
        self.assertEqual(audit.picture(named), text("pictures/forgotten-screen.svg"))
        self.assertRaises(audit.FaultyInput, audit.picture, {"steps": []})
        self.assertGreater(len(drawn), 8)

    def test_what_is_wrong_is_explained(self):
        self.assertEqual(audit.explain(text("dispose-twice.dump")), 'event 4, ["close",0]: node 0 is closed, by event 2')
        self.assertIsNone(audit.explain(text("first-run.json")))
        self.assertIsNone(audit.explain([]))
        self.assertIn(".steps[0]", audit.explain({"steps": [{"do": "open"}]}))

    def test_threads(self):
        wanted, seen = text("web-requests.report"), []
        scenario = text("web-requests.json")
        threads = [threading.Thread(target=lambda: seen.append(audit.run(scenario))) for _ in range(8)]
        for thread in threads:
            thread.start()
        for thread in threads:
            thread.join()
        self.assertEqual(seen, [wanted] * 8)


if __name__ == "__main__":
    unittest.main()
