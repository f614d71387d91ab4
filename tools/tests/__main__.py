"""`python3 -m tools.tests` runs all tests of the tools, and lists the skipped tests at its end, with the reasons.

Classes of tests run at once, one per processor. Those that measure time run after the others, half as many at once. If
--skipped names a file, the lines on skipped tests are also written to it, so that a gate can print them last.
"""

import argparse
import compileall
import os
import sys
import tempfile
import time
import unittest
from unittest.mock import patch

from cdma_tools.arguments import whole_within
from cdma_tools.workers import MOST_JOBS
from tools.tests.helping import SHARED
from tools.tests.running import Outcome, outcomes

HERE = os.path.dirname(os.path.abspath(__file__))
TOP = os.path.dirname(os.path.dirname(HERE))


def all_tests() -> unittest.TestSuite:
    """Returns the tests of all modules in this folder."""
    return unittest.defaultTestLoader.discover(HERE, top_level_dir=TOP)


def skipped_lines(found: list[Outcome]) -> list[str]:
    """Returns a line for each test or module that was skipped, with its reason, and one that counts them."""
    lines = sorted(f"skipped: {name}: {why}" for it in found for name, why in it.skipped)
    return [*lines, f"{sum(it.ran for it in found)} tests of the tools ran, {len(lines)} skipped"]


def compiled(folder: str) -> None:
    """Compiles the modules into a folder where each Python of the run finds them, so that none compiles them again."""
    with patch.object(sys, "pycache_prefix", folder):
        for name in ("cdma", "cdma_tools", "cdma_model", "tools"):
            compileall.compile_dir(os.path.join(TOP, name), quiet=2)


def run_all(jobs: int) -> list[Outcome]:
    """Runs all tests; failures are printed as their class ends, and a dot for each class that passed."""
    found = []
    with tempfile.TemporaryDirectory(prefix="cdma-tests-") as folder:
        code, shared = os.path.join(folder, "code"), os.path.join(folder, "shared")
        os.mkdir(shared)
        compiled(code)
        environment = {"PYTHONPYCACHEPREFIX": code, SHARED: shared}
        with patch.object(sys, "pycache_prefix", code), patch.dict(os.environ, environment):
            for it in outcomes(all_tests(), jobs):
                found.append(it)
                sys.stderr.write("".join(f"\nFAILED: {fault}\n" for fault in it.faults) or ".")
                sys.stderr.flush()
    return found


def main(given: list[str] | None = None) -> int:
    """Runs the tests, and returns 0 if some ran and none failed, otherwise 1."""
    arguments = argparse.ArgumentParser(
        prog="python3 -m tools.tests", description=__doc__, formatter_class=argparse.RawDescriptionHelpFormatter
    )
    arguments.add_argument("--skipped", metavar="FILE", help="write which tests were skipped into this file")
    arguments.add_argument(
        "--jobs",
        type=whole_within(1, MOST_JOBS),
        default=min(os.cpu_count() or 1, MOST_JOBS),
        metavar="N",
        help="classes of tests at once (default: one per processor)",
    )
    options = arguments.parse_args(given)
    begun = time.monotonic()
    try:
        found = run_all(options.jobs)
    except KeyboardInterrupt:
        sys.stderr.write("\ntools.tests: broken off\n")
        return 130
    failed = sum(len(it.faults) for it in found)
    told = "".join(line + "\n" for line in skipped_lines(found))
    sys.stderr.write(f"\n{failed} failed, after {time.monotonic() - begun:.0f} seconds\n{told}")
    if options.skipped:
        with open(options.skipped, "w", encoding="utf-8") as file:
            file.write(told)
    return 1 if failed or not any(it.ran for it in found) else 0


if __name__ == "__main__":
    sys.exit(main())
