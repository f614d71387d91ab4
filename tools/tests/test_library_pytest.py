"""The plugin of pytest: fixtures over the cases, and a receiver with a planted fault that is found."""

import importlib.util
import os
import subprocess
import unittest
from pathlib import Path

from tools.tests.helping import PYTHON, ROOT, needs, temporary_folder

needs("numpy", "scipy")
if importlib.util.find_spec("pytest") is None:
    raise unittest.SkipTest("no pytest: install the package python3-pytest")

CASES = "one_sync_frame or paging_row_1"
RECEIVER = """
import cdma

def right(chips, **options):
    return cdma.follow(chips, **options)

def unscrambled(chips, **options):
    '''Takes the rows of another paging channel for those of the wanted one.'''
    for event in cdma.follow(chips, **{**options, "paging": 2}):
        yield event
"""
OWN = """
def test_own(cdma_case, cdma_program):
    assert len(cdma_case.chips()) and cdma_program
    cdma_case.check(cdma_case.lines)
"""


class Plugin(unittest.TestCase):
    """Runs of pytest in a folder of a user's."""

    seconds = 20

    def setUp(self) -> None:
        self.folder = Path(temporary_folder(self.addCleanup))
        (self.folder / "my_module.py").write_text(RECEIVER)

    def ran(self, *words: str) -> tuple[int, str]:
        """Returns the status and the output of a run of pytest."""
        plugin = ["-p", "cdma.pytest_plugin", "-p", "no:cacheprovider", "-q"]
        command = [PYTHON, "-B", "-m", "pytest", *plugin, *words, "-k", CASES]
        if "CDMA_REPLAY" not in os.environ:
            command.append("--cdma-model")
        environment = {**os.environ, "PYTHONPATH": ROOT, "PYTEST_DISABLE_PLUGIN_AUTOLOAD": "1"}
        done = subprocess.run(
            command, cwd=self.folder, env=environment, capture_output=True, text=True, timeout=300
        )
        return done.returncode, done.stdout

    def test_a_right_receiver(self) -> None:
        status, text = self.ran("--cdma-receiver", "my_module:right")
        self.assertEqual(status, 0, text)
        self.assertIn("2 passed", text)

    def test_a_planted_fault(self) -> None:
        """Only the case of the other paging channel fails, and its message is the first difference."""
        status, text = self.ran("--cdma-receiver", "my_module:unscrambled")
        self.assertEqual(status, 1, text)
        self.assertIn("1 failed, 1 passed", text)
        self.assertIn("paging_row_1: paging channel 1 of seven: follow --paging 1\n", text)
        self.assertRegex(text, r"\nline \d+ wanted: paging at=")
        self.assertNotIn("Traceback", text)

    def test_fixtures_in_own_tests(self) -> None:
        (self.folder / "test_own.py").write_text(OWN)
        status, text = self.ran()
        self.assertEqual(status, 0, text)
        self.assertIn("2 passed", text)

    def test_a_receiver_that_is_not_there(self) -> None:
        status, text = self.ran("--cdma-receiver", "my_module:none")
        self.assertNotEqual(status, 0)
        self.assertIn("--cdma-receiver my_module:none: module 'my_module' has no attribute 'none'", text)


if __name__ == "__main__":
    unittest.main()
