"""Programs for RxPY under `python3 -m cellarcliff.watch`: what they leave open is told by their lines."""
import json
import os
import pathlib
import re
import signal
import subprocess
import sys
import tempfile
import textwrap
import unittest
from importlib import util

from cellarcliff import audit
from cellarcliff.watch.hubs import without_unused_hubs
from tests.test_watch_pytest import environment

HERE = pathlib.Path(__file__).resolve().parent
LEAKS = HERE.parent / "examples/leaks"

#: Programs that leave nothing. Each begins with the imports below.
IMPORTS = """
import rx
from rx import operators as ops
from rx.disposable import Disposable
from rx.subject import AsyncSubject, BehaviorSubject, ReplaySubject, Subject
source = Subject()
file = lambda: Disposable()
held = lambda inner=None: rx.using(file, lambda _: inner or source)
"""
CLEAN = {
    "an end": "held().subscribe(print); source.on_completed()",
    "an error": "held().subscribe(print, lambda error: None); source.on_error(KeyError())",
    "disposed of": "held().subscribe(print).dispose()",
    "take": "held().pipe(ops.take(1)).subscribe(print); source.on_next(1)",
    "take_until": "end = Subject(); held().pipe(ops.take_until(end)).subscribe(); end.on_next(1)",
    "take_until around flat_map_latest": "end = Subject(); source.pipe(ops.flat_map_latest(lambda _: held(rx.never())), ops.take_until(end)).subscribe(); "
                                         "source.on_next(1); source.on_next(2); end.on_next(1); source.on_completed()",
    "flat_map": "source.pipe(ops.flat_map(lambda it: held(rx.of(it)))).subscribe(); source.on_next(1); source.on_completed()",
    "concat_map": "rx.of(1, 2).pipe(ops.concat_map(lambda it: held(rx.of(it)))).subscribe()",
    "merge": "rx.merge(held(rx.of(1)), held(rx.of(2))).subscribe()",
    "concat": "rx.concat(held(rx.of(1)), held(rx.of(2))).subscribe()",
    "zip": "rx.zip(held(rx.of(1)), held(rx.of(2))).subscribe()",
    "share": "shared = held().pipe(ops.share()); a, b = shared.subscribe(), shared.subscribe(); a.dispose(); b.dispose()",
    "publish": "published = held().pipe(ops.publish()); a = published.subscribe(); c = published.connect(); a.dispose(); c.dispose()",
    "retry": "tries = iter([1, 2]); rx.defer(lambda _: held(rx.throw(KeyError()) if next(tries) == 1 else rx.of(2))).pipe(ops.retry(2)).subscribe()",
    "catch": "held(rx.throw(KeyError())).pipe(ops.catch(lambda error, _: held(rx.of(1)))).subscribe()",
    "finally_action": "held(rx.of(1)).pipe(ops.finally_action(lambda: None)).subscribe()",
    "create": "rx.create(lambda observer, _: Disposable()).subscribe().dispose()",
    "a subject that is forgotten": "held().subscribe(); del source",
    "replay": "subject = ReplaySubject(); held(subject).subscribe(); subject.on_next(1); subject.on_completed()",
    "a timer": "import time; held(rx.timer(0.05)).subscribe(); time.sleep(0.3)",
    "a mapper that raises": "held(rx.of(1)).pipe(ops.map(lambda it: it / 0)).subscribe(print, lambda error: None)",
    "a thread": "import threading; thread = threading.Thread(target=lambda: held(rx.of(1)).subscribe()); thread.start(); thread.join()",
}


def watched(*words, **more):
    return subprocess.run([sys.executable, "-B", "-m", "cellarcliff.watch", *map(str, words)], capture_output=True, text=True, timeout=60,
                          env=environment(), **more)


def of_text(text, *words):
    with tempfile.TemporaryDirectory() as folder:
        file = pathlib.Path(folder) / "program.py"
        file.write_text(textwrap.dedent(text))
        return watched(*words, file, cwd=folder)


@unittest.skipUnless(os.environ.get("CELLARCLIFF_LIBRARY"), "a program of its own process stands over the library alone")
class Watching(unittest.TestCase):
    def rows(self, said):
        return [it.strip() for it in said.stderr.splitlines() if re.match(r"  (GROWS )?\d", it)]

    def leaks(self, name, *wanted):
        said = watched("--fail", LEAKS / f"{name}.py", cwd=LEAKS)
        rows = self.rows(said)
        self.assertEqual((said.returncode, len(rows)), (3, len(wanted)), said.stderr)
        for words in wanted:
            self.assertTrue(any(all(it in row for it in words) for row in rows), (words, rows))

    def line(self, name, text):
        return f"{name}.py:{(LEAKS / f'{name}.py').read_text().splitlines().index(text) + 1}"

    def test_a_dashboard_whose_take_until_stands_inside(self):
        at = self.line("dashboard", "page = routes.pipe(ops.flat_map_latest(socket_of)).subscribe(print)")
        self.leaks("dashboard", ("1 subscription", at), ("1 resource Disposable", "dashboard.py:16", at))

    def test_a_share_that_is_never_left(self):
        at = self.line("share", '        self.subscription = feed.subscribe(lambda value: print(name, value))')
        self.leaks("share", ("1 subscription", at), ("1 resource Disposable", self.line("share", "def connect():")))

    def test_a_retry_that_subscribes_before_it_let_go(self):
        at = self.line("retry", "    lines().pipe(ops.map(str)).subscribe(print)")
        self.leaks("retry", ("3 subscriptions", at), ("3 resources Disposable", self.line("retry", "def open_file():"), at))

    def test_a_subject_that_nobody_completes(self):
        self.leaks("subject", ("2 subscriptions", "__init__"), ("2 resources Disposable", "open_log"))

    def test_programs_that_leave_nothing_are_said_to(self):
        for name, text in CLEAN.items():
            with self.subTest(name):
                said = of_text(IMPORTS + text.replace("; ", "\n"), "--fail")
                self.assertEqual(said.returncode, 0, said.stderr)
                self.assertIn("nothing that the program made is open", said.stderr)

    def test_the_names_of_its_successor(self):
        said = of_text("""
            import reactivex
            from reactivex import operators as ops
            from reactivex.subject import Subject
            kept = Subject()
            kept.pipe(ops.map(str)).subscribe()
            print(isinstance(kept, reactivex.Observable))
            """)
        self.assertEqual((said.stdout, len(self.rows(said))), ("True\n", 1), said.stderr)

    @unittest.skipUnless(util.find_spec("rx"), "RxPY is not installed")
    def test_what_this_package_lacks_is_rxpy_s_own_and_takes_its_observables(self):
        said = of_text("""
            from rx import operators as ops
            from rx.testing.marbles import marbles_testing
            with marbles_testing() as (start, cold, hot, exp):
                print(start(hot("-a-b--|").pipe(ops.flat_map(lambda it: cold("--c|")))) == exp("---c-c|"))
            """, "--fail")
        self.assertEqual((said.returncode, said.stdout), (0, "True\n"), said.stderr)

    def test_what_grows_comes_first(self):
        said = of_text("""
            import os, signal, time, rx
            from rx.subject import Subject
            one, many = Subject(), Subject()
            one.subscribe()
            one.subscribe()
            for _ in range(2):
                many.subscribe(print)
                os.kill(os.getpid(), signal.SIGUSR1)
                time.sleep(0.3)
            """)
        last = self.rows(said)[-3:]
        self.assertTrue(last[0].startswith("GROWS 2 subscriptions"), said.stderr)
        self.assertIn("(at each report: 1, 2, 2)", last[0])

    def test_what_grows_below_a_subscription_is_told(self):
        said = of_text("""
            import os, signal, time, rx
            from rx import operators as ops
            from rx.subject import Subject
            source = Subject()
            source.pipe(ops.flat_map(lambda _: rx.never())).subscribe()
            for _ in range(2):
                source.on_next(1)
                os.kill(os.getpid(), signal.SIGUSR1)
                time.sleep(0.3)
            """)
        found = re.findall(r"^  GROWS what stands below these \(nodes at each report: (\d+), (\d+)\)$", said.stderr, re.M)
        self.assertEqual(len(found), 1, said.stderr)
        self.assertLess(*map(int, found[0]))

    def test_the_end_of_the_program_is_its_own(self):
        self.assertEqual(of_text("import sys\nprint(sys.argv[1:])\nsys.exit(7)", "--fail").returncode, 7)
        said = of_text("1 / 0")
        self.assertEqual(said.returncode, 1)
        self.assertIn("ZeroDivisionError", said.stderr)
        for words in ["--nonsense"], ["--picture"], [], ["no-such-program.py"]:
            said = watched(*words)
            self.assertEqual((said.returncode, said.stdout), (1, ""), said.stderr)
            self.assertIn("cellarcliff.watch: ", said.stderr)

    def test_a_pool_that_nobody_shuts_down_ends_with_the_program(self):
        said = of_text("""
            import time, rx
            from rx import operators as ops
            from rx.scheduler import ThreadPoolScheduler
            rx.of(1).pipe(ops.observe_on(ThreadPoolScheduler(1))).subscribe(print)
            time.sleep(0.3)
            """, "--fail")
        self.assertEqual((said.returncode, said.stdout), (0, "1\n"), said.stderr)

    def test_what_the_program_lets_go_as_it_ends_is_no_leak(self):
        said = of_text("""
            import atexit, rx
            held = rx.never().subscribe()
            atexit.register(held.dispose)
            left = rx.never().subscribe()
            """)
        self.assertEqual(len(self.rows(said)), 1, said.stderr)
        self.assertIn("program.py:5", said.stderr)

    def test_a_program_that_raises(self):
        said = of_text("import rx\nheld = rx.never().subscribe()\ndef fail(): raise KeyError('it')\nfail()")
        self.assertEqual((said.returncode, len(self.rows(said))), (1, 1), said.stderr)
        self.assertEqual(re.findall(r'File "(.*?)"', said.stderr)[0].rpartition("/")[2], "program.py")
        self.assertNotIn("__main__", said.stderr)

    @unittest.skipUnless(os.name == "posix", "an interrupt ends a process by its status elsewhere")
    def test_a_program_that_is_interrupted(self):
        text = "import os, rx, signal\nheld = rx.never().subscribe()\nprint('told')\nos.kill(os.getpid(), signal.SIGINT)\nsignal.pause()\n"
        with tempfile.TemporaryDirectory() as folder:
            (pathlib.Path(folder) / "program.py").write_text(text)
            for words in ["program.py"], ["-m", "program"]:
                said = watched(*words, cwd=folder)
                self.assertEqual((said.returncode, said.stdout, len(self.rows(said))), (-signal.SIGINT, "told\n", 1), said.stderr)
                self.assertRegex(said.stderr, r'^Traceback .*\n  File ".*program.py", line [45], in <module>\n')
                self.assertNotRegex(said.stderr, "runpy|__main__")

    def test_what_only_a_cycle_holds_is_no_leak(self):
        said = of_text("""
            import rx
            from rx.subject import Subject
            def run():
                feed, told = Subject(), []
                told.append(feed.subscribe(told.append))
            run()
            """, "--fail")
        self.assertEqual(said.returncode, 0, said.stderr)

    def test_a_checkpoint_is_said(self):
        text = "import rx\nfrom rx.subject import Subject\nsource = Subject()\nsource.subscribe()\nfor it in range(70000): source.on_next(it)"
        self.assertIn("made a checkpoint", of_text(text).stderr)
        self.assertNotIn("made a checkpoint", of_text(text, "--whole").stderr)

    @unittest.skipUnless(os.name == "posix", "TERM ends a process without a word elsewhere")
    def test_a_program_that_term_ends_is_told_of(self):
        with tempfile.TemporaryDirectory() as folder:
            file = pathlib.Path(folder) / "history.json"
            said = of_text("""
                import os, rx, signal, threading
                rx.never().subscribe()
                threading.Timer(0.2, os.kill, (os.getpid(), signal.SIGTERM)).start()
                while True: signal.pause()
                """, "--dump", file)
            self.assertEqual((said.returncode, len(self.rows(said))), (-signal.SIGTERM, 1), said.stderr)
            self.assertEqual(json.loads(file.read_text()), {"dump": [["open", "root", "leaf"]], "names": {"0": "program.py:3"}})

    def test_a_picture_has_the_lines_as_names(self):
        with tempfile.TemporaryDirectory() as folder:
            file = pathlib.Path(folder) / "picture.svg"
            said = watched("--picture", file, LEAKS / "dashboard.py")
            self.assertTrue(file.exists(), said.stderr)
            self.assertIn("Disposable dashboard.py:16", file.read_text())

    def test_a_dump_has_them_too(self):
        with tempfile.TemporaryDirectory() as folder:
            file = pathlib.Path(folder) / "history.json"
            said = watched("--dump", file, LEAKS / "dashboard.py")
            self.assertTrue(file.exists(), said.stderr)
            found = json.loads(file.read_text())
        self.assertEqual(found["dump"][0], ["open", "root", "switch"])
        self.assertIn("Disposable dashboard.py:16", found["names"].values())

    def test_a_dump_of_a_share_has_its_own_hub_alone(self):
        with tempfile.TemporaryDirectory() as folder:
            file = pathlib.Path(folder) / "history.json"
            said = of_text("""
                import rx
                from rx import operators as ops
                from rx.subject import Subject
                source = Subject()
                published = source.pipe(ops.publish())
                published.subscribe()
                source.pipe(ops.share()).subscribe()
                source.on_next(1)
                """, "--dump", file)
            found = json.loads(file.read_text())
        self.assertIn("the history is lawful", said.stderr)
        self.assertEqual(audit.audit(found["dump"]).word, "lawful")
        self.assertEqual(found, {"dump": [["hub", "auto"], ["hub", "manual"], ["open", "root", "sub", 1], ["open", "root", "sub", 0], ["connect", 0],
                                          ["open", "source", 4, "leaf"], ["item", 5, 0]],
                                 "names": {"2": "program.py:7", "3": "program.py:8"}})


class Hubs(unittest.TestCase):
    def test_hubs_that_nothing_names_are_left_out_and_the_others_counted_anew(self):
        whole = [["hub", "auto"], ["hub", "manual"], ["hub", "auto"], ["open", "root", "sub", 2], ["connect", 2], ["open", "source", 4, "pass"], ["accept", 5, 1],
                 ["open", "source", 5, "leaf"], ["lease", 6], ["use", 6], ["item", 7, 4], ["hub", "manual"], ["end", 7, "error", 3], ["return", 8], ["take", 6]]
        self.assertEqual(without_unused_hubs({"dump": whole, "names": {"5": "mapped", "7": "prices", "15": "opened meanwhile"}}), {
            "dump": [["hub", "auto"], ["open", "root", "sub", 0], ["connect", 0], ["open", "source", 2, "pass"], ["accept", 3, 1], ["open", "source", 3, "leaf"],
                     ["lease", 4], ["use", 4], ["item", 5, 4], ["end", 5, "error", 3], ["return", 6], ["take", 4]],
            "names": {"3": "mapped", "5": "prices"}})
        self.assertEqual(without_unused_hubs({"dump": [], "names": {}}), {"dump": [], "names": {}})


if __name__ == "__main__":
    unittest.main()
