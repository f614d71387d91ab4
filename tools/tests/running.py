"""Runs classes of tests, several at once, each in a process that runs one after another.

The tests of a class run in their order, over what its `setUpClass` made. A class may set:

- `seconds = N`: about how many seconds of a processor it takes, if these are many. The slowest classes begin first, so
that all processors are busy to the end.

- `parted = True`: each of its tests runs by itself, in any order and process, and `seconds` are those of one test.

- `alone = True`: its tests measure time, and it runs after all others, on two processors of its own.
"""

import io
import unittest
from collections.abc import Iterable, Iterator
from concurrent.futures import ProcessPoolExecutor, as_completed
from concurrent.futures.process import BrokenProcessPool
from dataclasses import dataclass

@dataclass(frozen=True)
class Outcome:
    """The result of tests: how many ran, the output of those that failed, and which were skipped and why."""

    ran: int
    faults: list[str]
    skipped: list[tuple[str, str]]


def each_test(tests: Iterable[unittest.TestCase | unittest.TestSuite]) -> Iterator[unittest.TestCase]:
    """Yields each test of a suite of suites."""
    for test in tests:
        if isinstance(test, unittest.TestSuite):
            yield from each_test(test)
        else:
            yield test


@dataclass
class Parted:
    """The names of classes and tests, those that run by themselves, and the stand-ins for modules that do not load."""

    together: list[str]
    alone: list[str]
    unloaded: unittest.TestSuite


def parted(suite: unittest.TestSuite) -> Parted:
    """Returns the classes of a suite's tests, and the tests of those that are parted, the slowest first."""
    found = Parted([], [], unittest.TestSuite())
    seconds: dict[str, int] = {}
    for test in each_test(suite):
        kind = type(test)
        if kind.__module__ == "unittest.loader":
            found.unloaded.addTest(test)
            continue
        names = found.alone if getattr(kind, "alone", False) else found.together
        name = test.id() if getattr(kind, "parted", False) else f"{kind.__module__}.{kind.__qualname__}"
        if name not in seconds:
            seconds[name] = getattr(kind, "seconds", 0)
            names.append(name)
    for names in (found.together, found.alone):
        names.sort(key=lambda name: -seconds[name])
    return found


def outcome(suite: unittest.TestSuite) -> Outcome:
    """Runs a suite in this process, and returns its outcome."""
    stream = io.StringIO()
    result = unittest.TextTestRunner(stream).run(suite)
    faults = [f"{test}\n{trace}" for test, trace in [*result.errors, *result.failures]]
    faults += [f"{test}\npassed, and was expected to fail" for test in result.unexpectedSuccesses]
    return Outcome(result.testsRun, faults, [(test.id(), why) for test, why in result.skipped])


def outcome_of_name(name: str) -> Outcome:
    """Runs the class or test of a name in this process, and returns its outcome."""
    return outcome(unittest.defaultTestLoader.loadTestsFromName(name))


def outcomes_of(names: list[str], jobs: int) -> Iterator[Outcome]:
    """Yields the outcomes of classes and tests as they end, by `jobs` processes; a killed process is a failure."""
    executor = ProcessPoolExecutor(jobs)
    try:
        under_way = {executor.submit(outcome_of_name, name): name for name in names}
        for done in as_completed(under_way):
            try:
                yield done.result()
            except BrokenProcessPool:
                yield Outcome(0, [f"{under_way[done]}: not run to its end, since a process of the tests was ended"], [])
    finally:
        executor.shutdown(cancel_futures=True)


def outcomes(suite: unittest.TestSuite, jobs: int) -> Iterator[Outcome]:
    """Yields the outcome of each class of a suite, or of each test of a parted class, as they end, `jobs` at a time."""
    found = parted(suite)
    yield outcome(found.unloaded)
    yield from outcomes_of(found.together, jobs)
    yield from outcomes_of(found.alone, max(1, jobs // 2))
