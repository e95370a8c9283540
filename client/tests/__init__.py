"""The tests of the client. Most of their time they wait: so `python3 -m unittest` plays them in several processes."""
import multiprocessing
import os
import unittest
from concurrent.futures import ProcessPoolExecutor, as_completed
from typing import Any, Dict, Iterable, List, NamedTuple, Optional, Tuple

# How many tests are played at a time, and the classes of those that take longest: they begin first.
PROCESSES, LONG = 2 * (os.cpu_count() or 1), ("Moments", "States", "Storms", "InBrowser")


class Outcome(NamedTuple):
    """What became of tests in another process: how many were run; why some were left out, and the tracebacks of those that failed, by their names."""

    count: int
    skipped: Dict[str, str]
    failed: List[Tuple[str, str]]


class Elsewhere(Exception):
    """A test failed in another process. The text has its traceback."""


def play(names: List[str]) -> Outcome:
    """Runs tests by their names."""
    result = unittest.TestResult()
    unittest.defaultTestLoader.loadTestsFromNames(names).run(result)
    failed = [(getattr(test, "test_case", test).id(), "%s\n%s" % (test, text)) for test, text in result.failures + result.errors]
    return Outcome(result.testsRun, {test.id(): why for test, why in result.skipped}, failed)


class Beside(unittest.TestSuite):
    """Tests that are run beside each other. Those of a class that prepares something together stay together."""

    def run(self, result: Any, debug: bool = False) -> Any:
        parts: Dict[str, List[unittest.TestCase]] = {}
        for test in cases(self):
            is_together = any("setUpClass" in vars(kind) for kind in type(test).__mro__ if kind is not unittest.TestCase)
            parts.setdefault(type(test).__qualname__ if is_together else test.id(), []).append(test)
        first = sorted(parts.values(), key=lambda part: type(part[0]).__name__ not in LONG)
        with ProcessPoolExecutor(PROCESSES, multiprocessing.get_context("fork")) as pool:
            played = {pool.submit(play, [test.id() for test in part]): part for part in first}
            for each in as_completed(played):
                tell(result, played[each], each.result())
        return result


def tell(result: Any, part: List[unittest.TestCase], outcome: Outcome) -> None:
    """Tells a result what became of tests."""
    known = {test.id() for test in part}
    for test in part:
        result.startTest(test)
        # (what has the name of no test is of what their class prepares)
        texts = [text for name, text in outcome.failed if name == test.id() or name not in known and test is part[0]]
        if texts:
            result.addFailure(test, (Elsewhere, Elsewhere("\n".join(texts)), None))
        elif outcome.skipped.get(test.id()) or not outcome.count:
            result.addSkip(test, outcome.skipped.get(test.id()) or "".join(outcome.skipped.values()))
        else:
            result.addSuccess(test)
        result.stopTest(test)


def cases(suite: Iterable[Any]) -> Iterable[unittest.TestCase]:
    for test in suite:
        if isinstance(test, unittest.TestSuite):
            yield from cases(test)
        else:
            yield test


def load_tests(loader: unittest.TestLoader, _: Any, pattern: Optional[str]) -> unittest.TestSuite:
    folder = os.path.dirname(os.path.abspath(__file__))
    return Beside(loader.discover(folder, pattern or "test*.py", os.path.dirname(folder)))
