"""Wrong types for each parameter of the library `cdma`: each is refused by the parameter's name."""

import inspect
import unittest
from collections.abc import Callable
from pathlib import Path
from typing import Any

from tools.tests.helping import EXAMPLES, needs, temporary_folder

needs("numpy", "scipy")

import numpy  # noqa: E402

import cdma  # noqa: E402
from tools.tests.test_library import choose  # noqa: E402

WRONG: tuple[Any, ...] = (object(), [None], {"a": 1}, b"spam", float("nan"), numpy.array([1.5, 2, 3]), set(), -(10**30))
LISTS = ("frames", "lose", "pages", "rows")  # may be empty
LEFT_OUT = ("axes", "scheduler")  # of another package, and an address that is asked for a while


def cell() -> cdma.Cell:
    """Returns a cell with a sync channel."""
    made = cdma.Cell(samples=40_000)
    made.add_sync()
    return made


class Wrong(unittest.TestCase):
    """Each function with one wrong parameter; the others are right."""

    seconds = 30
    folder: Path
    chips: cdma.Chips
    recording: cdma.Recording

    @classmethod
    def setUpClass(cls) -> None:
        choose()
        cls.folder = Path(temporary_folder(cls.addClassCleanup))
        cls.chips = cdma.make(cdma.Cell(samples=64))
        cls.recording = cdma.record(cdma.make(cdma.Cell(samples=2_048)), type="cu8")
        cls.recording.save(cls.folder / "small.sigmf-meta")

    def calls(self) -> dict[Callable[..., Any], dict[str, Any]]:
        """Returns each function with parameters that are right."""
        frames = [(1200, "16:f00d")]
        return {
            cdma.find: {"chips": self.chips},
            cdma.survey: {"chips": self.chips},
            cdma.follow: {"chips": self.chips},
            cdma.make: {"cell": cell()},
            cdma.read_script: {"path": Path(EXAMPLES, "lesson.script")},
            cdma.load: {"path": Path(EXAMPLES, "pilot_in_noise.is95")},
            cdma.save: {"chips": self.chips, "path": self.folder / "saved.is95"},
            cdma.bits: {"text": "0:"},
            cdma.record: {"chips": self.chips},
            cdma.lock: {"recording": self.recording},
            cdma.import_capture: {"recording": self.recording},
            cdma.listen: {"source": self.folder / "small.sigmf-meta"},
            cdma.code_domain: {"source": self.chips},
            cdma.explain: {"chips": self.chips, "channel": "traffic", "esn": 1, "row": 5},
            cdma.margin: {"cell": cell()},
            cdma.plot.correlation: {"chips": self.chips, "span": 64},
            cdma.use_program: {},
            cdma.Cell.from_script: {},
            cdma.Cell: {},
            cell().add_sync: {},
            cell().add_paging: {"channel": 1, "pages": ["10:ffc0"]},
            cell().add_traffic: {"row": 12, "esn": 1, "frames": frames},
            cdma.follow(self.chips, span=64).table: {},
        }

    def test_wrong_types(self) -> None:
        """A wrong value is a ParameterError of its parameter, and nothing else."""
        count = 0
        for function, right in self.calls().items():
            for name in inspect.signature(function).parameters:
                for value in WRONG if name not in LEFT_OUT else ():
                    if name in LISTS and isinstance(value, set):
                        continue
                    with self.subTest(function.__name__, parameter=name, value=repr(value)):
                        with self.assertRaises(cdma.ParameterError) as caught:
                            function(**{**right, name: value})
                        self.assertEqual(caught.exception.parameter, name)
                        count += 1
        self.assertGreater(count, 1_000)


if __name__ == "__main__":
    unittest.main()
