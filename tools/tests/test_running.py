"""The run of all tests: the outcome of a class in a separate process, over tests made for it."""

import os
import sys
import unittest

from tools.tests.helping import temporary_folder
from tools.tests.running import Outcome, outcomes

GOOD = """
import unittest

class Good(unittest.TestCase):
    @classmethod
    def setUpClass(cls):
        cls.order = []

    def test_a(self):
        self.order.append("a")

    def test_b(self):
        self.assertEqual(self.order, ["a"])

    @unittest.skip("not today")
    def test_c(self):
        pass
"""
BAD = """
import unittest

class Fails(unittest.TestCase):
    def test_wrong(self):
        self.assertEqual(2, 3)

    def test_right(self):
        pass

class Unready(unittest.TestCase):
    @classmethod
    def setUpClass(cls):
        raise OSError("no disk")

    def test_never(self):
        pass

class Unexpected(unittest.TestCase):
    @unittest.expectedFailure
    def test_well(self):
        pass
"""
ALONE = """
import os, pathlib, time, unittest

BUSY = pathlib.Path(os.environ["TEST_RUNNING_BUSY"])

class First(unittest.TestCase):
    alone = True

    def test_nothing_else_runs(self):
        for _ in range(10):
            self.assertFalse(list(BUSY.iterdir()))
            time.sleep(0.1)

class Second(unittest.TestCase):
    def test_busy(self):
        mark = BUSY / str(os.getpid())
        mark.touch()
        time.sleep(0.5)
        mark.unlink()

class Third(Second):
    pass
"""
TWO_ALONE = """
import os, pathlib, time, unittest

BUSY = pathlib.Path(os.environ["TEST_RUNNING_BUSY"])

class Fourth(unittest.TestCase):
    alone = True
    mark, other = "fourth", "fifth"

    def test_beside_the_other(self):
        (BUSY / self.mark).touch()
        until = time.monotonic() + 20
        while not (BUSY / self.other).exists():
            self.assertLess(time.monotonic(), until)
            time.sleep(0.01)

class Fifth(Fourth):
    mark, other = "fifth", "fourth"
"""
LONG = """
import os, pathlib, unittest

def begin(name):
    with open(os.environ["TEST_RUNNING_BEGUN"], "a") as file:
        file.write(name)

class Short(unittest.TestCase):
    def test_a(self):
        begin("a")

class Parted(unittest.TestCase):
    parted = True
    seconds = 3

    def test_b(self):
        begin("b")

    def test_c(self):
        begin("c")

class Long(unittest.TestCase):
    seconds = 4

    def test_d(self):
        begin("d")

    def test_e(self):
        begin("e")
"""
SKIPPED = """
import unittest

raise unittest.SkipTest("no such package")
"""
ENDED = """
import os, signal, unittest

class Ended(unittest.TestCase):
    def test_ended(self):
        os.kill(os.getpid(), signal.SIGKILL)
"""


class RunningTest(unittest.TestCase):
    """Modules of tests that are written for it, found and run like those of this folder."""

    def ran(self, jobs: int, **modules: str) -> list[Outcome]:
        """Returns the outcome of modules with these names and texts."""
        folder = temporary_folder(self.addCleanup)
        for name, text in modules.items():
            with open(os.path.join(folder, f"test_made_{name}.py"), "w", encoding="ascii") as file:
                file.write(text)
        path = list(sys.path)
        self.addCleanup(lambda: sys.path.__setitem__(slice(None), path))
        for name in modules:
            sys.modules.pop(f"test_made_{name}", None)
        suite = unittest.TestLoader().discover(folder, top_level_dir=folder)
        return list(outcomes(suite, jobs))

    def test_a_class_runs_in_its_order(self) -> None:
        for jobs in (1, 3):
            with self.subTest(jobs=jobs):
                nothing, good = self.ran(jobs, good=GOOD)
                self.assertEqual(nothing, Outcome(0, [], []))
                self.assertEqual(good, Outcome(3, [], [("test_made_good.Good.test_c", "not today")]))

    def test_each_fault_is_told(self) -> None:
        found = self.ran(2, good=GOOD, bad=BAD, broken="import nothing_of_this_name\n")
        faults = sorted(fault for it in found for fault in it.faults)
        self.assertEqual(len(faults), 4)
        for fault, part in zip(faults, ("setUpClass", "test_made_broken", "test_well", "test_wrong"), strict=True):
            self.assertIn(part, fault)
        for text in ("no disk", "nothing_of_this_name", "expected to fail", "2 != 3"):
            self.assertIn(text, "".join(faults))

    def test_a_module_that_is_skipped_is_told(self) -> None:
        (unloaded,) = self.ran(1, skipped=SKIPPED)
        self.assertEqual([why for _, why in unloaded.skipped], ["no such package"])
        self.assertEqual(unloaded.faults, [])

    def test_a_class_that_runs_alone(self) -> None:
        os.environ["TEST_RUNNING_BUSY"] = temporary_folder(self.addCleanup)
        self.addCleanup(os.environ.pop, "TEST_RUNNING_BUSY")
        found = self.ran(3, alone=ALONE)
        self.assertEqual([fault for it in found for fault in it.faults], [])
        self.assertEqual(sum(it.ran for it in found), 3)

    def test_two_that_run_alone_have_two_processors_each(self) -> None:
        os.environ["TEST_RUNNING_BUSY"] = temporary_folder(self.addCleanup)
        self.addCleanup(os.environ.pop, "TEST_RUNNING_BUSY")
        found = self.ran(4, two_alone=TWO_ALONE)
        self.assertEqual([fault for it in found for fault in it.faults], [])
        self.assertEqual(sum(it.ran for it in found), 2)

    def test_what_takes_longest_begins_first(self) -> None:
        """Each test of a class that is parted counts by itself."""
        begun = os.path.join(temporary_folder(self.addCleanup), "begun")
        os.environ["TEST_RUNNING_BEGUN"] = begun
        self.addCleanup(os.environ.pop, "TEST_RUNNING_BEGUN")
        found = self.ran(1, long=LONG)
        self.assertEqual(sorted(it.ran for it in found), [0, 1, 1, 1, 2])
        with open(begun, encoding="ascii") as file:
            self.assertEqual(file.read(), "debca")

    def test_a_process_that_is_ended_is_a_fault(self) -> None:
        found = self.ran(1, ended=ENDED)
        self.assertIn("test_made_ended.Ended: not run to its end", "".join(it for one in found for it in one.faults))


if __name__ == "__main__":
    unittest.main()
