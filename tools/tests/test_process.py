"""What the process does with its arguments and its streams, by the built program.

The arguments are not text, or are many; lines arrive while the input is still open, and text that was decoded before a
file breaks off is written.
"""

import os
import re
import selectors
import subprocess
import time
import unittest

from tools.tests.helping import NO_PROGRAM, PROGRAM, example, run_program

HEADER = 16
SAMPLE = 4
SPAN = 2_048
PIECE = 4_096
SECONDS = 60.0
LINE_SECONDS = 20.0
AT = re.compile(rb" at=(\d+) ")
BAD_WORDS = (2, b"", b"bad words\n")
# Each option of the command as two arguments.
MANY = (
    "follow --span 64 --workers 2 --fingers 1 --paging 7 --esn 8badf00d --row 63 --offset 15 --pilots 1 --messages 1 "
    "--frames 1 --raw 1"
).split()


def ended(args: list[bytes], data: bytes = b"") -> tuple[int, bytes, bytes]:
    """Returns how a run ends, its standard output and its standard error."""
    assert PROGRAM is not None
    ran = subprocess.run([os.fsencode(PROGRAM), *args], input=data, capture_output=True, timeout=SECONDS)
    return ran.returncode, ran.stdout, ran.stderr


def known_at(line: bytes) -> int:
    """Returns the number of samples after which a line is known."""
    found = AT.search(line)
    return int(found[1]) if found else SPAN


def heard_by(samples: int) -> int:
    """Returns how many samples are processed at once with this one: the span, then whole pieces."""
    return SPAN + -(-max(0, samples - SPAN) // PIECE) * PIECE


class Live:
    """A run whose input is fed piece by piece, and whose lines are read as they arrive."""

    def __init__(self, args: list[str]) -> None:
        assert PROGRAM is not None
        self.run = subprocess.Popen(
            [PROGRAM, *args], stdin=subprocess.PIPE, stdout=subprocess.PIPE, stderr=subprocess.DEVNULL
        )
        assert self.run.stdin is not None and self.run.stdout is not None
        self.input, self.output = self.run.stdin, self.run.stdout
        self.selector = selectors.DefaultSelector()
        self.selector.register(self.output, selectors.EVENT_READ)

    def feed(self, data: bytes) -> None:
        self.input.write(data)
        self.input.flush()

    def read(self, count: int) -> bytes:
        """Returns the next bytes of the output, fewer if they don't arrive in time."""
        text, until = b"", time.monotonic() + LINE_SECONDS
        while len(text) < count and time.monotonic() < until:
            if self.selector.select(until - time.monotonic()):
                more = os.read(self.output.fileno(), count - len(text))
                if not more:
                    break
                text += more
        return text

    def end(self) -> tuple[int, bytes]:
        """Closes the input; returns the status and the remaining output."""
        self.input.close()
        rest = self.output.read()
        return self.run.wait(SECONDS), rest

    def close(self) -> None:
        self.run.kill()
        self.run.wait()
        self.selector.close()
        self.output.close()
        try:
            self.input.close()
        except BrokenPipeError:
            pass


@unittest.skipUnless(PROGRAM, NO_PROGRAM)
class Arguments(unittest.TestCase):
    """What the process gets on its command line."""

    def test_arguments_that_are_no_text(self) -> None:
        """If a byte is not UTF-8 the arguments name no job: the status is not out of memory."""
        for args in ([b"\xff"], [b"find", b"\xff"], [b"find", b"--span", b"6\xff"], [b"find", b"--\xff=64"], [b"", b"\xff"]):
            with self.subTest(args):
                self.assertEqual(ended(args), BAD_WORDS)

    def test_each_of_many_arguments_is_read(self) -> None:
        """A fault at any place among them is reported, and nothing else is."""
        args = [os.fsencode(arg) for arg in MANY]
        self.assertEqual(ended(args), (3, b"", b"bad file: short at 0\n"))
        for place in range(len(args)):
            with self.subTest(place):
                self.assertEqual(ended([*args[:place], b"--", *args[place:]]), BAD_WORDS)
                self.assertEqual(ended([*args[:place], b"\xff", *args[place + 1 :]]), BAD_WORDS)
        self.assertEqual(ended([*args, b"--raw", b"1"]), BAD_WORDS)

    def test_nothing_is_written_where_no_job_is_named(self) -> None:
        """Nor if standard output has no room, which would end a run that writes there."""
        assert PROGRAM is not None
        rows: list[list[str]] = [[], ["fin"], ["find", "--span", "63"], ["trial"]]
        for args in rows:
            with self.subTest(args), open("/dev/full", "wb") as full:
                self.assertEqual(ended([os.fsencode(arg) for arg in args]), BAD_WORDS)
                ran = subprocess.run(
                    [PROGRAM, *args], stdin=subprocess.DEVNULL, stdout=full, stderr=subprocess.PIPE, timeout=SECONDS
                )
                self.assertEqual((ran.returncode, ran.stderr), (2, b"bad words\n"))


@unittest.skipUnless(PROGRAM, NO_PROGRAM)
class Streams(unittest.TestCase):
    """What is written, and when, if the input comes through a pipe."""

    file: bytes

    @classmethod
    def setUpClass(cls) -> None:
        status, cls.file = run_program("make", data=example("second_of_paging.script"))
        assert status == 0, status

    def live(self, *args: str) -> Live:
        live = Live(list(args))
        self.addCleanup(live.close)
        return live

    def expect_in_time(self, *args: str) -> None:
        """Each line comes before more samples are given than those processed at once with what it reports."""
        status, text = run_program(*args, data=self.file)
        self.assertIn(status, (0, 1))
        self.assertTrue(text)
        live, given = self.live(*args), 0
        for line in text.splitlines(keepends=True):
            wanted = HEADER + SAMPLE * heard_by(known_at(line))
            live.feed(self.file[given:wanted])
            given = max(given, wanted)
            self.assertEqual(live.read(len(line)), line)
        live.feed(self.file[given:])
        self.assertEqual(live.end(), (status, b""))

    def test_lines_come_in_time(self) -> None:
        for line in ("find", "survey --top 3", "follow", "follow --raw 9 --fingers 3", "idle --key 00000000"):
            with self.subTest(line):
                self.expect_in_time(*line.split())

    def test_text_that_was_heard_before_a_file_breaks_off(self) -> None:
        """Everything known from the whole pieces is written, and nothing from an incomplete sample."""
        whole = run_program("follow", data=self.file)[1]
        for samples in (SPAN, SPAN + 80 * PIECE, SPAN + 200 * PIECE):
            with self.subTest(samples):
                known = b"".join(line for line in whole.splitlines(keepends=True) if known_at(line) <= samples)
                live = self.live("follow")
                live.feed(self.file[: HEADER + SAMPLE * samples + 1])
                self.assertEqual(live.read(len(known)), known)
                self.assertEqual(live.end(), (3, b""))


if __name__ == "__main__":
    unittest.main()
