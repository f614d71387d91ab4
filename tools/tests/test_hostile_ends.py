"""The endings of tools that `tools/hostile --tools` draws: each kind passes, and a tool that ends wrongly is detected.
"""

import random
import unittest
import unittest.mock
from collections.abc import Callable
from typing import Any

from tools.tests.helping import needs, run_tool, temporary_folder

needs("numpy", "scipy", "matplotlib", "distributed")

from cdma_tools import hostile_ends
from cdma_tools.hostile_ends import KINDS, growing_file, interrupted, pipes_and_devices, same_file, sockets
from cdma_tools.hostile_tools import Room, interrupts_of
from cdma_tools.starting import COMMANDS

Kind = Callable[[str, random.Random], tuple[str, str]]


class Ends(unittest.TestCase):
    """Runs in separate folders."""

    seconds = 20

    def fault(self, kind: Kind, seed: int, instead: str = "") -> str:
        """Returns the fault of a run drawn from a seed, or of a shell line instead of the tool."""
        folder = temporary_folder(self.addCleanup)
        draw = random.Random(seed)
        Room(folder, draw, b"cell pn=0\n")
        if not instead:
            return kind(folder, draw)[1]
        words = ["/bin/sh", "-c", instead]
        with unittest.mock.patch.object(hostile_ends, "launcher_of", lambda _: words):
            return kind(folder, draw)[1]

    def test_each_kind_passes(self) -> None:
        self.assertEqual({kind.__name__ for kind in KINDS} | {"sockets"}, {
            "same_file", "growing_file", "pipes_and_devices", "interrupted", "sockets",
        })  # fmt: skip
        for kind in (same_file, growing_file, pipes_and_devices, interrupted):
            for seed in range(3):
                with self.subTest(kind.__name__, seed=seed):
                    self.assertEqual(self.fault(kind, seed), "")

    def test_sockets(self) -> None:
        self.assertEqual(self.fault(sockets, 1), "")
        server = "exec /usr/bin/python3 -c 'import socket, time; s = socket.create_server((chr(48), 0)); time.sleep(60)'"
        self.assertEqual(self.fault(sockets, 1, server), "it listens at 0.0.0.0")

    def test_wrong_ends_are_seen(self) -> None:
        said = "echo Traceback >&2; exit 1"
        for kind in (same_file, growing_file, pipes_and_devices, interrupted):
            self.assertIn("a traceback or a warning", self.fault(kind, 1, said), kind.__name__)
            self.assertIn("status 77", self.fault(kind, 1, "exit 77"), kind.__name__)
        state = "echo 'Python runtime state: {}' >&2; echo Traceback >&2; exit 1"
        self.assertEqual(self.fault(interrupted, 1, state.format("core initialized")), "")
        self.assertIn("a traceback", self.fault(interrupted, 1, state.format("initialized")))
        place = "printf 'Traceback\\n  File \"tools/lines\", line {}, in <module>\\nKeyboardInterrupt\\n' >&2; exit 1"
        self.assertEqual(self.fault(interrupted, 1, place.format(0)), "")
        self.assertIn("a traceback", self.fault(interrupted, 1, place.format(8)))
        lost = "echo lost > same.png; echo same.png >&2; exit 1"
        self.assertRegex(self.fault(same_file, 1, lost), "an input was changed|not refused")
        self.assertIn("not refused", self.fault(same_file, 1, "exit 0"))
        self.assertIn("was changed", self.fault(growing_file, 5, "echo x >> lines.txt"))
        left = "trap 'exit 130' INT TERM; echo x > .part-1; echo 'x: broken off' >&2; while :; do sleep 0.01; done"
        self.assertNotEqual(self.fault(interrupted, 3, left), "")

    def test_a_time_in_place_of_a_count(self) -> None:
        status, wrote, said = run_tool("hostile", "--tools", "--seconds", 1, "--seed", 5)
        self.assertEqual((status, said), (0, ""), wrote)
        self.assertRegex(wrote.decode(), r"\n\d+ runs of tools, seed 5, 0 faults\n$")
        for words in (
            ["--seconds", "1"], ["--interrupts", "1"], ["--tools", "--seconds", "1", "--count", "1"],
            ["--tools", "--seconds", "1", "--interrupts", "1"],
        ):  # fmt: skip
            self.assertEqual(run_tool("hostile", *words)[0], 2)

    def test_each_line_is_interrupted(self) -> None:
        """Each part of the time that a run takes has a moment, and each tool that an analyst runs has a line."""
        waited: list[float] = []

        def interrupted_after(line: str, *given: Any) -> tuple[str, str]:
            waited.append(given[-1])
            return line, "wrong" if len(waited) == 3 else ""

        with (
            unittest.mock.patch.object(hostile_ends, "lasting", lambda *_: 5.0),
            unittest.mock.patch.object(hostile_ends, "interrupted_after", interrupted_after),
        ):
            ran = interrupts_of(temporary_folder(self.addCleanup), b"cell\n", 1, 5, 0)
        self.assertEqual([int(wait) for wait in waited], [0, 1, 2, 3, 4])
        self.assertEqual([bool(one.fault) for one in ran], [False, False, True, False, False])
        tools = {line.split()[0] for line in hostile_ends.LINES}
        self.assertEqual({module for module, _, name in COMMANDS if name} - tools, set())


if __name__ == "__main__":
    unittest.main()
