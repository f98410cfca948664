"""`pytest --rx-leaks`: a test that leaves something open fails, and says by which line; what was open before it is not its fault."""
import os
import pathlib
import re
import subprocess
import sys
import tempfile
import textwrap
import unittest
from importlib import metadata, util

import cellarcliff
from tests.kits import is_model

PACKAGE = str(pathlib.Path(cellarcliff.__file__).resolve().parents[1])
PLUGIN = "cellarcliff.watch.pytest_plugin"
HEAD = "import rx\nfrom rx import operators as ops\nfrom rx.disposable import Disposable\nfrom rx.subject import Subject\nimport pytest\nkept = Subject()\n"


def plugins():
    """The words that bring the plugin, where no wheel is installed that does; and over the model, that."""
    groups = metadata.entry_points()
    found = groups.select(group="pytest11") if hasattr(groups, "select") else groups.get("pytest11", ())
    words = [] if any(it.value == PLUGIN for it in found) else ["-p", PLUGIN]
    return ["-p", "tests.kits", *words] if is_model() else words


def environment():
    """Of a process that finds this package; over the model, the tests."""
    paths = [str(pathlib.Path(__file__).resolve().parents[1])] if is_model() else []
    return {**os.environ, "PYTHONPATH": os.pathsep.join([*paths, *filter(None, [os.environ.get("PYTHONPATH")]), PACKAGE])}


@unittest.skipUnless(util.find_spec("pytest"), "pytest is not installed")
class Tests(unittest.TestCase):
    def pytest(self, text, *words, **files):
        """What pytest prints of this module, and of further files."""
        with tempfile.TemporaryDirectory() as folder:
            for name, of in {"test_it": HEAD + textwrap.dedent(text), **files}.items():
                (pathlib.Path(folder) / f"{name}.py").write_text(textwrap.dedent(of))
            said = subprocess.run([sys.executable, "-B", "-m", "pytest", "-q", "-p", "no:cacheprovider", *plugins(), "--rx-leaks", *words, folder],
                                  capture_output=True, text=True, cwd=folder, env=environment(), timeout=600)
        self.assertNotIn("INTERNALERROR", said.stdout + said.stderr)
        return said

    def ends(self, said, summary, status):
        last = re.sub(r" in [0-9.]+s.*", "", said.stdout.strip().splitlines()[-1])
        self.assertEqual((last, said.returncode), (summary, status), said.stdout + said.stderr)

    def line(self, words, text):
        return 1 + next(i for i, it in enumerate((HEAD + textwrap.dedent(text)).splitlines()) if words in it)

    def test_what_a_test_leaves_fails_it_by_the_line(self):
        text = """
            def test_leaves_one():
                kept.subscribe()  # here
            def test_leaves_none():
                kept.subscribe().dispose()
            def test_leaves_none_again(): pass
            """
        said = self.pytest(text)
        self.ends(said, "3 passed, 1 error", 1)
        self.assertIn("ERROR at teardown of test_leaves_one", said.stdout)
        self.assertIn(f"test_it.py:{self.line('# here', text)} in test_leaves_one", said.stdout)

    def test_nothing_is_asked_without_the_option(self):
        with tempfile.TemporaryDirectory() as folder:
            (pathlib.Path(folder) / "test_it.py").write_text("def test(): pass\n")
            said = subprocess.run([sys.executable, "-B", "-m", "pytest", "-q", "-p", "no:cacheprovider", *plugins(), folder],
                                  capture_output=True, text=True, cwd=folder, env=environment(), timeout=600)
        self.ends(said, "1 passed", 0)

    def test_a_resource_and_its_subscription(self):
        said = self.pytest("""
            def file(): return Disposable()
            def test_file(): rx.using(file, lambda _: kept).subscribe()
            """)
        self.ends(said, "1 passed, 1 error", 1)
        self.assertIn("1 resource Disposable of test_it.py:8 in file, for what was subscribed at test_it.py:9 in test_file", said.stdout)

    def test_what_a_fixture_of_a_test_lets_go_is_no_fault(self):
        said = self.pytest("""
            @pytest.fixture
            def subscribed():
                held = kept.subscribe()
                yield held
                held.dispose()
            def test_one(subscribed): pass
            """)
        self.ends(said, "1 passed", 0)

    def test_what_a_fixture_of_a_test_leaves_is_a_fault(self):
        said = self.pytest("""
            @pytest.fixture
            def subscribed(): return kept.subscribe()
            def test_one(subscribed): pass
            """)
        self.ends(said, "1 passed, 1 error", 1)
        self.assertIn("test_it.py:9 in subscribed", said.stdout)

    def test_what_a_fixture_of_a_module_or_session_holds_is_no_test_s_fault(self):
        for scope in "class", "module", "package", "session":
            with self.subTest(scope):
                said = self.pytest(f"""
                    @pytest.fixture(scope="{scope}")
                    def log():
                        told = []
                        held = kept.pipe(ops.flat_map(lambda it: rx.using(Disposable, lambda _: rx.concat(rx.of(it), rx.never())))).subscribe(told.append)
                        yield told
                        held.dispose()
                    class TestIt:
                        def test_one(self, log):
                            kept.on_next(1)
                            assert log == [1]
                        def test_two(self, log):
                            kept.on_next(2)
                            assert log[-1] == 2
                        def test_leaves(self, log): kept.subscribe()
                    """)
                self.ends(said, "3 passed, 1 error", 1)
                self.assertIn("ERROR at teardown of TestIt.test_leaves", said.stdout)
                self.assertIn("leaves 1 of what it made open", said.stdout)

    def test_what_a_fixture_of_a_module_leaves_is_told_with_its_name_once(self):
        said = self.pytest("""
            @pytest.fixture(scope="module")
            def forgets():
                yield kept.subscribe()  # here
            def test_one(forgets): pass
            def test_two(forgets): pass
            """, test_other="def test_after(): pass\n")
        self.ends(said, "3 passed, 1 error", 1)
        self.assertIn("ERROR at teardown of test_two", said.stdout)
        self.assertIn("fixture forgets of the module leaves 1 of what it made open", said.stdout)
        self.assertIn("test_it.py:10 in forgets", said.stdout)

    def test_what_the_set_up_of_a_class_makes_is_let_go_by_its_tear_down(self):
        said = self.pytest("""
            import unittest
            class Cases(unittest.TestCase):
                @classmethod
                def setUpClass(cls): cls.held = kept.subscribe()
                @classmethod
                def tearDownClass(cls): cls.held.dispose()
                def setUp(self): self.mine = kept.subscribe()
                def tearDown(self): self.mine.dispose()
                def test_one(self): pass
                def test_two(self): kept.subscribe()
            """)
        self.ends(said, "2 passed, 1 error", 1)
        self.assertIn("ERROR at teardown of Cases.test_two", said.stdout)

    def test_what_a_module_makes_as_it_is_imported_is_no_test_s_fault(self):
        said = self.pytest("""
            import shared
            def test_one(): shared.feed.on_next(1)
            """, shared="import rx\nfrom rx.subject import Subject\nfeed = Subject()\nfeed.subscribe(print)\n")
        self.ends(said, "1 passed", 0)

    def test_a_conftest_has_these_names_too(self):
        said = self.pytest("""
            def test_one(feed): feed.subscribe()
            """, conftest="import pytest, rx.subject\n@pytest.fixture\ndef feed(): return rx.subject.Subject()\nheld = rx.never().subscribe()\n")
        self.ends(said, "1 passed, 1 error", 1)
        self.assertIn("test_it.py:8 in test_one", said.stdout)

    def test_a_test_that_fails_by_itself_fails_once(self):
        said = self.pytest("""
            def test_fails():
                held = kept.subscribe()  # here
                assert False
                held.dispose()
            def test_after(): pass
            """)
        self.ends(said, "1 failed, 1 passed", 1)
        self.assertIn("1 subscription, subscribed at test_it.py:9 in test_fails", said.stdout)

    def test_a_tear_down_that_fails_by_itself(self):
        said = self.pytest("""
            @pytest.fixture
            def bad():
                yield kept.subscribe()
                raise KeyError("bad")
            def test_one(bad): pass
            def test_after(): pass
            """)
        self.ends(said, "2 passed, 1 error", 1)
        self.assertIn("KeyError", said.stdout)

    def test_a_test_that_is_skipped_or_expected_to_fail(self):
        said = self.pytest("""
            @pytest.mark.skip
            def test_skipped(): kept.subscribe()
            def test_skips(): pytest.skip("now")
            @pytest.mark.xfail
            def test_xfails():
                held = kept.subscribe()
                assert False
            """)
        self.ends(said, "2 skipped, 1 xfailed", 0)

    def test_the_first_that_leaves_something_ends_it_with_x(self):
        said = self.pytest("""
            def test_one(): kept.subscribe()
            def test_two(): kept.subscribe()
            """, "-x")
        self.ends(said, "1 passed, 1 error", 1)
        self.assertNotIn("test_two", said.stdout)

    def test_parameters(self):
        said = self.pytest("""
            @pytest.fixture(scope="module", params=["a", "b"])
            def source(request):
                feed = Subject()
                held = feed.subscribe()
                yield feed
                held.dispose()
            @pytest.mark.parametrize("leaves", [False, True])
            def test_one(source, leaves):
                held = source.subscribe()
                if not leaves: held.dispose()
            """)
        self.ends(said, "4 passed, 2 errors", 1)
        for name in "a-True", "b-True":
            self.assertIn(f"ERROR at teardown of test_one[{name}]", said.stdout)

    def test_asynchronous_tests(self):
        said = self.pytest("""
            import asyncio, unittest
            from rx.scheduler.eventloop import AsyncIOScheduler
            async def ticks(many):
                done = asyncio.get_running_loop().create_future()
                held = rx.interval(0.01, scheduler=AsyncIOScheduler(asyncio.get_running_loop())).subscribe(lambda it: it < many or done.done() or done.set_result(it))
                await asyncio.wait_for(done, 30)
                return held
            def test_ends(): asyncio.run(ticks(2)).dispose()
            def test_leaves(): asyncio.run(ticks(2))
            class Cases(unittest.IsolatedAsyncioTestCase):
                async def asyncSetUp(self): self.held = await ticks(1)
                async def asyncTearDown(self): self.held.dispose()
                async def test_ends(self): (await ticks(1)).dispose()
                async def test_leaves(self): await ticks(1)
            """)
        self.ends(said, "4 passed, 2 errors", 1)
        self.assertIn("ERROR at teardown of test_leaves", said.stdout)
        self.assertIn("ERROR at teardown of Cases.test_leaves", said.stdout)

    @unittest.skipUnless(util.find_spec("pytest_asyncio"), "pytest-asyncio is not installed")
    def test_asynchronous_tests_by_pytest_asyncio(self):
        said = self.pytest("""
            import asyncio
            from rx.scheduler.eventloop import AsyncIOScheduler
            ticks = lambda: rx.interval(0.01, scheduler=AsyncIOScheduler(asyncio.get_running_loop()))
            @pytest.mark.asyncio
            async def test_ends(): assert await ticks().pipe(ops.take(2)) == 1
            @pytest.mark.asyncio
            async def test_leaves(): ticks().subscribe()
            """, "--asyncio-mode=strict")
        self.ends(said, "2 passed, 1 error", 1)
        self.assertIn("ERROR at teardown of test_leaves", said.stdout)

    @unittest.skipUnless(util.find_spec("xdist"), "pytest-xdist is not installed")
    def test_workers_of_pytest_xdist(self):
        said = self.pytest("""
            def test_leaves(): kept.subscribe()
            @pytest.mark.parametrize("it", range(4))
            def test_leaves_none(it): kept.subscribe().dispose()
            """, "-n", "2", "-p", "xdist")
        self.ends(said, "5 passed, 1 error", 1)
        self.assertIn("ERROR at teardown of test_leaves", said.stdout)

    def test_what_nothing_holds_any_more_is_no_leak(self):
        said = self.pytest("""
            def test_one():
                feed = Subject()
                told = []
                told.append(feed.subscribe(told.append))
            """)
        self.ends(said, "1 passed", 0)

    def test_an_engine_of_a_test_s_own_is_left_behind(self):
        said = self.pytest("""
            from cellarcliff import rx as ours
            def test_own():
                engine = ours.use()
                kept.subscribe()
                engine.close()
            def test_leaves(): Subject().subscribe().dispose(); kept2.subscribe()
            kept2 = Subject()
            """)
        self.ends(said, "2 passed, 1 error", 1)
        self.assertIn("ERROR at teardown of test_leaves", said.stdout)


if __name__ == "__main__":
    unittest.main()
