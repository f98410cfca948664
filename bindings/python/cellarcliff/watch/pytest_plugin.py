"""For pytest: with `--rx-leaks` a test that leaves something open fails as it is torn down, and says by which lines.

Imports of `rx` and `reactivex` are answered by this package then, those of conftest.py too, in one engine for all tests. What was open before
a test, and what a fixture of a wider scope made, is not the test's; that fixture fails what tears it down if it leaves something. A test that
fails by itself is told with what it left.
"""
from __future__ import annotations

import gc
import weakref
from typing import Any, Generator, List, Optional, Set

import pytest

from .. import rx
from ..rx.watched import Made
from . import begin
from .reports import lines

_tests: List["Tests"] = []


class Tests:
    """What is open, and whose it is."""

    def __init__(self) -> None:
        self.engine = begin()
        self.owners: "weakref.WeakKeyDictionary[Made, Any]" = weakref.WeakKeyDictionary()  # of what a fixture of a wider scope made
        self.failed: "weakref.WeakSet[Any]" = weakref.WeakSet()  # tests that failed by themselves
        self.before: Set[Made] = set()
        self.told: List[str] = []  # what such fixtures left

    def open_now(self) -> List[Made]:
        """What is open and not out of reach, which a collection finds."""
        if self.engine.open_now():
            gc.collect()
        return self.engine.open_now()

    def begins(self) -> None:
        rx.use(self.engine)
        self.before, self.told = set(self.engine.open_now()), []

    def owner(self, made: Optional[Made]) -> Any:
        """The fixture that made it, or what it was made for."""
        while made is not None:
            if made in self.owners:
                return self.owners[made]
            made = made.within
        return None

    def is_older(self, made: Optional[Made]) -> bool:
        while made is not None:
            if made in self.before:
                return True
            made = made.within
        return False

    def made_by(self, fixture: Any, before: Set[Made]) -> None:
        for made in self.engine.open_now():
            if made not in before and self.owner(made) is None:
                self.owners[made] = fixture

    def ended(self, fixture: Any) -> None:
        left = [it for it in self.open_now() if self.owner(it) is fixture]
        if left:
            self.told.append(told(f"the fixture {fixture.argname} of the {fixture.scope}", left))
            for made in left:
                self.owners[made] = self  # told

    def left(self) -> List[str]:
        """What the test that ends now leaves, as texts."""
        mine = [it for it in self.open_now() if not self.is_older(it) and self.owner(it) is None]
        return [*([told("it", mine)] if mine else []), *self.told]


def told(who: str, left: List[Made]) -> str:
    return "\n".join([f"{who} leaves {len(left)} of what it made open", *(f"  {it}" for it in lines(left))])


def pytest_addoption(parser: Any) -> None:
    parser.getgroup("cellarcliff").addoption("--rx-leaks", action="store_true", help="a test that leaves a subscription or a resource open fails")


@pytest.hookimpl(tryfirst=True)
def pytest_load_initial_conftests(early_config: Any) -> None:
    """Before the first conftest.py imports rx."""
    if early_config.known_args_namespace.rx_leaks:
        _tests[:] = [Tests()]


def pytest_configure(config: Any) -> None:
    if config.getoption("--rx-leaks") and not _tests:
        _tests.append(Tests())


@pytest.hookimpl(tryfirst=True)
def pytest_runtest_setup() -> None:
    for tests in _tests:
        tests.begins()


@pytest.hookimpl(hookwrapper=True)
def pytest_fixture_setup(fixturedef: Any) -> Generator[None, Any, None]:
    watching = _tests if fixturedef.scope != "function" else []
    before = [set(tests.engine.open_now()) for tests in watching]
    yield
    for tests, was in zip(watching, before):
        tests.made_by(fixturedef, was)


@pytest.hookimpl(trylast=True)
def pytest_fixture_post_finalizer(fixturedef: Any) -> None:
    if fixturedef.scope != "function":
        for tests in _tests:
            tests.ended(fixturedef)


def pytest_runtest_makereport(item: Any, call: Any) -> None:
    if call.excinfo is not None:
        for tests in _tests:
            tests.failed.add(item)


@pytest.hookimpl(trylast=True)
def pytest_runtest_teardown(item: Any) -> None:
    """After all that is torn down with the test."""
    for tests in _tests:
        text = "\n".join(tests.left())
        if text and item in tests.failed:
            item.add_report_section("teardown", "rx-leaks", text)
        elif text:
            pytest.fail(text, pytrace=False)
