"""The progress bar: a bar on a terminal, and nothing elsewhere."""

import contextlib
import importlib.util
import io
import signal
import sys
import unittest
from collections.abc import Iterator
from typing import Any
from unittest import mock

from cdma_tools import progress


class Terminal(io.StringIO):
    """Standard error that is a terminal."""

    def isatty(self) -> bool:
        return True


class Bars(unittest.TestCase):
    def shown(self, terminal: io.StringIO) -> str:
        """Returns what both ways of using a bar write."""
        with contextlib.redirect_stderr(terminal):
            self.assertEqual(list(progress.bar([3, 1, 2], text="cases")), [3, 1, 2])
            with progress.bar(total=2_000, text="recording", unit="chips") as bar:
                bar.update(1_000)
                bar.set_description("second pass")
                bar.update(1_000)
        return terminal.getvalue()

    def test_nothing_where_there_is_no_terminal(self) -> None:
        self.assertEqual(self.shown(io.StringIO()), "")

    def test_nothing_without_tqdm(self) -> None:
        with mock.patch.dict("sys.modules", {"tqdm": None}):
            self.assertEqual(self.shown(Terminal()), "")

    @unittest.skipUnless(importlib.util.find_spec("tqdm"), "no tqdm: install the package python3-tqdm")
    def test_a_bar_on_a_terminal(self) -> None:
        text = self.shown(Terminal())
        self.assertIn("cases", text)
        self.assertIn("recording", text)
        self.assertNotIn("\n", text)


@contextlib.contextmanager
def interrupted_at(count: int) -> Iterator[list[int]]:
    """Interrupts this process when `count` lines of tqdm have begun; `held` gets an entry for each of them."""
    lines: list[int] = []

    def trace(frame: Any, event: str, _: object) -> Any:
        if not frame.f_code.co_filename.endswith("tqdm/std.py"):
            return None
        if event == "line":
            lines.append(frame.f_lineno)
            if len(lines) == count:
                signal.raise_signal(signal.SIGINT)
        return trace

    before = signal.signal(signal.SIGINT, signal.default_int_handler)
    sys.settrace(trace)
    try:
        yield lines
    finally:
        sys.settrace(None)
        signal.signal(signal.SIGINT, before)


@unittest.skipUnless(importlib.util.find_spec("tqdm"), "no tqdm: install the package python3-tqdm")
class InterruptedBars(unittest.TestCase):
    """An interrupt at each line with which tqdm begins a bar."""

    def test_each_line(self) -> None:
        with interrupted_at(0) as lines, contextlib.redirect_stderr(Terminal()):
            with progress.bar(total=10) as bar:
                bar.update(1)
        self.assertGreater(len(lines), 50)
        faults: list[Any] = []
        with mock.patch.object(sys, "unraisablehook", faults.append):
            for count in range(1, len(lines), 7):
                with self.subTest(count), contextlib.redirect_stderr(Terminal()):
                    with self.assertRaises(KeyboardInterrupt), interrupted_at(count):
                        with progress.bar(total=10) as bar:
                            bar.update(1)
        self.assertEqual([str(fault.exc_value) for fault in faults], [])


if __name__ == "__main__":
    unittest.main()
