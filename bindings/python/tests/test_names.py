"""Every public name of RxPY's modules is here, with the same parameters; or it says that it is not, and what to do."""
import importlib
import inspect
import pathlib
import subprocess
import sys
import unittest

from tests.kits import rxpy

PACKAGE = pathlib.Path(__file__).resolve().parent.parent
MODULES = ("", ".operators", ".subject", ".disposable", ".scheduler", ".core", ".core.typing", ".testing")
INSIDES = {"core", "disposable", "internal", "scheduler", "subject", "testing"}
#: What RxPY's modules have of Python's and of their own insides.
INSIDE = {"GroupedObservable", "NotSet", "alias", "cast", "overload", "internal", "Mapping", "Future", "Subject", "ScheduledItem"}


def parameters(of):
    """The names of the parameters, and which have to be given."""
    return [(it.name, it.kind, it.default is it.empty) for it in inspect.signature(of).parameters.values() if it.name != "self"]


def public(module):
    """The names of a module's functions and classes that are its package's own."""
    return [name for name, value in vars(module).items()
            if not name.startswith("_") and (inspect.isfunction(value) or inspect.isclass(value))
            and value.__module__.split(".")[0] == "rx" and name not in INSIDE]


class Names(unittest.TestCase):
    @unittest.skipIf(rxpy is None, "RxPY is not installed")
    def test_each_name_of_rxpy(self):
        there = 0
        for module in MODULES:
            theirs, ours = (importlib.import_module(name + module) for name in ("rx", "cellarcliff.rx"))
            for name in public(theirs):
                with self.subTest(module=module, name=name):
                    try:
                        mine = getattr(ours, name)
                    except NotImplementedError as why:
                        self.assertRegex(str(why), "RxPY|schedule")
                        continue
                    there += 1
                    if inspect.isfunction(getattr(theirs, name)):
                        self.assertEqual(parameters(mine), parameters(getattr(theirs, name)))
        self.assertGreater(there, 60)

    @unittest.skipIf(rxpy is None, "RxPY is not installed")
    def test_each_method_of_an_observable_an_observer_and_a_subject(self):
        from cellarcliff.rx import core, disposable, subject
        for name, mine in (("Observable", core.Observable), ("Observer", core.Observer), ("Subject", subject.Subject),
                           *((it, getattr(disposable, it)) for it in disposable.__dict__ if it.endswith("Disposable"))):
            theirs = getattr(rxpy.core, name, None) or getattr(rxpy.subject, name, None) or getattr(rxpy.disposable, name)
            for method in (it for it in vars(theirs) if not it.startswith("_") and it != "throw"):
                with self.subTest(name=name, method=method):
                    self.assertTrue(hasattr(mine, method))
                    if inspect.isfunction(getattr(theirs, method)):
                        self.assertEqual(parameters(getattr(mine, method)), parameters(getattr(theirs, method)))

    @unittest.skipIf(rxpy is None, "RxPY is not installed")
    def test_each_module_of_rxpy(self):
        top = pathlib.Path(rxpy.__file__).parent
        for file in sorted(top.rglob("*.py")):
            name = ".".join(file.relative_to(top).with_suffix("").parts).replace(".__init__", "")
            parts = name.split(".")
            if name == "__init__" or parts[0] not in INSIDES or "eventloop" in parts[1:] or len(parts) > 2:
                continue
            with self.subTest(module=name):
                try:
                    importlib.import_module(f"cellarcliff.rx.{name}")
                except ModuleNotFoundError as why:
                    self.assertIn(f"what users need of it is in cellarcliff.rx.{parts[0]}", str(why))

    def test_no_module_hides_rxpy(self):
        names = [it.stem for folder in (PACKAGE, PACKAGE / "cellarcliff", PACKAGE / "examples") for it in folder.glob("rx.py")]
        self.assertEqual(names, [])
        found = "import importlib.util as it; spec = it.find_spec('rx'); print(spec and spec.origin)"
        for paths in [], [str(PACKAGE)]:
            said = subprocess.run([sys.executable, "-c", f"import sys; sys.path[:1] = {paths!r}; {found}"], cwd="/", text=True,
                                  stdout=subprocess.PIPE, check=True).stdout.strip()
            self.assertNotIn(str(PACKAGE), said)


if __name__ == "__main__":
    unittest.main()
