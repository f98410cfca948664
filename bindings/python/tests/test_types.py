"""What a type checker finds: nothing in a program that is right, and each mistake of one that is wrong. It takes some seconds, so not
over the model."""
import os
import pathlib
import re
import shutil
import subprocess
import tempfile
import unittest

from tests.kits import is_model

TYPED = pathlib.Path(__file__).resolve().parent / "typed"
PACKAGE = pathlib.Path(__file__).resolve().parents[1]


def faults(name):
    """The lines of this program at which mypy finds a fault, and all that it says."""
    import cellarcliff
    path = str(pathlib.Path(cellarcliff.__file__).parents[1])
    with tempfile.TemporaryDirectory() as cache:
        said = subprocess.run(["mypy", "--strict", "--cache-dir", cache, name], cwd=TYPED, env={**os.environ, "MYPYPATH": path},
                              stdout=subprocess.PIPE, stderr=subprocess.STDOUT, text=True).stdout
    return {int(it) for it in re.findall(rf"^{name}:(\d+): error", said, re.M)}, said


@unittest.skipIf(is_model() or not shutil.which("mypy"), "it takes some seconds, and mypy")
class Types(unittest.TestCase):
    def test_a_program_that_is_right(self):
        found, said = faults("right.py")
        self.assertEqual(found, set(), said)
        self.assertIn("no issues", said)

    def test_each_mistake_is_found(self):
        lines = (TYPED / "mistakes.py").read_text().splitlines()
        planted = {number for number, line in enumerate(lines, 1) if "# mistake" in line}
        found, said = faults("mistakes.py")
        self.assertEqual(found, planted, said)
        self.assertGreater(len(planted), 30)


if __name__ == "__main__":
    unittest.main()
