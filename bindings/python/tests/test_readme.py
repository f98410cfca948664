"""The examples of README.md print what stands below them; and a program for RxPY prints the same once its imports are changed."""
import contextlib
import io
import os
import pathlib
import re
import unittest

from cellarcliff import rx
from tests.kits import fresh_engine, rxpy

FOLDER = pathlib.Path(__file__).resolve().parent.parent
PAGE = FOLDER / "README.md"
PROGRAM = FOLDER / "examples/quotes.py"
EXAMPLES = re.findall(r"^```python\n((?s:.*?))^```\n\n((?:    .*\n)+)", PAGE.read_text(), re.M)


def printed_by(code, name):
    rx.use(fresh_engine())
    printed = io.StringIO()
    with contextlib.redirect_stdout(printed):
        exec(compile(code, name, "exec"), {})
    return printed.getvalue()


class Readme(unittest.TestCase):
    def test_its_examples(self):
        self.assertEqual(len(EXAMPLES), 6)
        for number, (code, wanted) in enumerate(EXAMPLES, 1):
            if number > 5 and not os.environ.get("CELLARCLIFF_LIBRARY"):
                continue
            with self.subTest(number):
                self.assertEqual(printed_by(code, f"example {number}"), re.sub("^    ", "", wanted, flags=re.M))

    @unittest.skipUnless(PROGRAM.is_file(), "without the examples")
    def test_a_program_for_rxpy(self):
        code, wanted = PROGRAM.read_text(), PROGRAM.with_suffix(".out").read_text()
        if rxpy is not None:
            self.assertEqual(printed_by(code, "RxPY"), wanted)
        changed = re.sub("^import rx$", "from cellarcliff import rx", re.sub(r"^from rx\b", "from cellarcliff.rx", code, flags=re.M), flags=re.M)
        self.assertEqual(len(re.findall("^from cellarcliff", changed, re.M)), 4)
        self.assertEqual(printed_by(changed, "cellarcliff"), wanted)


if __name__ == "__main__":
    unittest.main()
