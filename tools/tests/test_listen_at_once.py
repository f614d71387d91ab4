"""Tests of tasks of a listening that are done at once, each by its own process, and of carriers of a file by these."""

import contextlib
import errno
import io
import os
import select
import signal
import subprocess
import sys
import time
import unittest
from collections.abc import Callable, Sequence
from functools import partial

from tools.tests.helping import PYTHON, ROOT, is_gone, needs, temporary_folder

needs("numpy", "scipy")

from cdma_tools.errors import Refused, WrongArguments
from cdma_tools.listening.at_once import Show, Task, done_at_once
from cdma_tools.listening.everything import Sharing

SECONDS = 120  # that something may take on a busy machine
TOOL = [PYTHON, "-B", os.path.join(ROOT, "tools", "listen")]


def wrote(line: str) -> None:
    """Writes a line to standard output as a listening does."""
    sys.stdout.buffer.write(line.encode() + b"\n")
    sys.stdout.buffer.flush()


class Gate:
    """A gate between processes, closed at first."""

    def __init__(self) -> None:
        self.reader, self.writer = os.pipe()

    def open(self) -> None:
        """Lets everyone through from here on."""
        os.write(self.writer, b"x")

    def wait(self) -> None:
        """Waits until the gate is open; fails after long."""
        assert select.select([self.reader], [], [], SECONDS)[0], "nobody opened the gate"


class Tasks(unittest.TestCase):
    """Tasks that need no recording."""

    seconds = 5

    def run_tasks(self, does: Sequence[Callable[[Show], bool]], most: int) -> tuple[list[bool], bytes]:
        """Returns what tasks return, and what was written."""
        output = io.TextIOWrapper(io.BytesIO())
        with contextlib.redirect_stdout(output):
            heard = done_at_once([Task(f"task {number}: ", do) for number, do in enumerate(does)], most)
        output.flush()
        return heard, output.buffer.getvalue()  # type: ignore[attr-defined]

    def test_lines_come_in_order(self) -> None:
        """The first task ends after the others have, and its lines come first; each returns its own result."""
        gate = Gate()

        def first(_: Show) -> bool:
            wrote("first begins")
            gate.wait()
            wrote("first ends")
            return False

        def second(_: Show) -> bool:
            wrote("second")
            return True

        def third(_: Show) -> bool:
            wrote("third")
            gate.open()
            return False

        heard, lines = self.run_tasks((first, second, third), 3)
        self.assertEqual(heard, [False, True, False])
        self.assertEqual(lines.decode().splitlines(), ["first begins", "first ends", "second", "third"])

    def test_lines_come_at_once(self) -> None:
        """Lines of the first task are passed on before it ends."""
        gate, (reader, writer) = Gate(), os.pipe()

        def first(_: Show) -> bool:
            wrote("a line")
            gate.wait()
            return True

        with open(writer, "w", encoding="ascii") as output, open(reader, "rb") as taken:
            opener = subprocess.Popen(
                [PYTHON, "-c", "import os, sys; os.read(0, 7); os.write(1, b'x')"], stdin=taken, stdout=gate.writer
            )
            with contextlib.redirect_stdout(output):
                self.assertEqual(done_at_once([Task("", first), Task("", lambda _: False)], 2), [True, False])
            self.assertEqual(opener.wait(), 0)

    def test_some_at_once(self) -> None:
        """Of five tasks with two at once there are never three, and sometimes two."""
        path = os.path.join(temporary_folder(self.addCleanup), "log")

        def do(_: Show) -> bool:
            for word in (b"+", b"-"):
                with open(path, "ab", buffering=0) as log:
                    log.write(word)
                time.sleep(0.2)
            return True

        self.assertEqual(self.run_tasks([do] * 5, 2)[0], [True] * 5)
        with open(path, "rb") as log:
            words = log.read()
        depths = [words[:end].count(b"+") - words[:end].count(b"-") for end in range(1, len(words) + 1)]
        self.assertEqual((len(words), max(depths)), (10, 2), words)

    def test_one_at_once_is_this_process(self) -> None:
        numbers = list[int]()

        def do(_: Show) -> bool:
            numbers.append(os.getpid())
            return True

        heard, _ = self.run_tasks([do] * 3, 1)
        self.assertEqual((heard, numbers), ([True] * 3, [os.getpid()] * 3))

    def test_a_fault_ends_all(self) -> None:
        """Whichever task fails, its fault is raised as it was, and the other processes end."""
        full = OSError(errno.ENOSPC, "No space left on device", "x.txt")
        for fault in (WrongArguments("no"), Refused("none"), MemoryError(), full):
            (reader, writer), begun = os.pipe(), Gate()

            def lasts(_: Show, writer: int = writer, begun: Gate = begun) -> bool:
                os.write(writer, f"{os.getpid()}\n".encode())
                begun.open()
                time.sleep(SECONDS)
                return True

            def fails(_: Show, begun: Gate = begun, fault: Exception = fault) -> bool:
                begun.wait()
                raise fault

            with self.subTest(fault=fault), self.assertRaises(type(fault)) as why:
                self.run_tasks((lasts, fails), 2)
            self.assertEqual(str(why.exception), str(fault))
            with self.assertRaises(ProcessLookupError):
                os.kill(int(os.read(reader, 20)), 0)

    def test_a_process_that_is_killed(self) -> None:
        """The other tasks end as ever, and then the fault is raised; a line that isn't whole is left out."""

        def killed(_: Show) -> bool:
            wrote("a whole line")
            sys.stdout.buffer.write(b"a part of")
            sys.stdout.buffer.flush()
            os.kill(os.getpid(), signal.SIGKILL)
            return True

        def ends(_: Show) -> bool:
            time.sleep(0.3)
            wrote("another line")
            return True

        output = io.TextIOWrapper(io.BytesIO())
        with self.assertRaisesRegex(Refused, "^task 0: its process was ended by SIGKILL$"):
            with contextlib.redirect_stdout(output):
                done_at_once([Task("task 0: ", killed), Task("task 1: ", ends)], 2)
        wrote_bytes = output.buffer.getvalue()  # type: ignore[attr-defined]
        self.assertEqual(wrote_bytes, b"a whole line\nanother line\n")

    def test_a_closed_pipe_ends_all(self) -> None:
        reader, writer = os.pipe()
        os.close(reader)

        def writes(_: Show) -> bool:
            while True:
                wrote("x" * 1_000)
                time.sleep(0.01)

        with open(writer, "w", encoding="ascii") as output:
            with self.assertRaises(BrokenPipeError), contextlib.redirect_stdout(output):
                done_at_once([Task("", writes)] * 2, 2)
            nothing = os.open(os.devnull, os.O_WRONLY)  # takes what the stream still holds
            os.dup2(nothing, writer)
            os.close(nothing)

    def test_processes_of_a_carrier(self) -> None:
        """Up to as many carriers as processes are given are listened to at once, and the processes are shared."""
        for workers, count, wanted in ((1, 3, (1, 1)), (2, 3, (2, 1)), (8, 3, (3, 2)), (4, 1, (1, 4))):
            at_once, shared = Sharing(600.0, workers, None).of_carriers(count)
            self.assertEqual((at_once, shared.workers), wanted)
        processors = len(os.sched_getaffinity(0))
        at_once, shared = Sharing(600.0, None, None).of_carriers(processors + 1)
        self.assertEqual((at_once, shared.workers), (processors, 1))


class Interrupted(unittest.TestCase):
    """A listening to three carriers of a file that lasts: how it ends, and that nothing of it stays."""

    seconds = 15

    def setUp(self) -> None:
        self.folder = temporary_folder(self.addCleanup)
        self.path = os.path.join(self.folder, "long.cu8")
        with open(self.path, "wb") as file:
            file.truncate(1 << 30)

    def begun(self, *words: str) -> subprocess.Popen[bytes]:
        """A listening in a session of its own, once its three processes have begun."""
        shifts = [word for hertz in (-1_250_000, 0, 1_250_000) for word in ("--shift", str(hertz))]
        run = self.started("--workers", "3", *shifts, *words)
        self.workers = self.waited(run, "--ppid", 3)
        return run

    def started(self, *words: str) -> subprocess.Popen[bytes]:
        """A listening in a session of its own, with a folder for temporary files."""
        made = os.path.join(self.folder, "made")
        os.makedirs(made, exist_ok=True)
        run = subprocess.Popen(
            [*TOOL, "--type", "cu8", "--rate", "4M", "--program", "/bin/true", *words, self.path],
            stdout=subprocess.PIPE, stderr=subprocess.PIPE, start_new_session=True, env={**os.environ, "TMPDIR": made},
            preexec_fn=partial(signal.signal, signal.SIGINT, signal.SIG_DFL),
        )  # fmt: skip
        self.addCleanup(run.kill)
        return run

    def waited(self, run: subprocess.Popen[bytes], chosen: str, count: int) -> list[int]:
        """The processes that a listening has started, or those of its session, once there are at least `count`."""
        until = time.monotonic() + SECONDS
        while True:
            told = subprocess.run(["ps", chosen, str(run.pid), "-o", "pid="], capture_output=True, text=True)
            if len(found := [int(word) for word in told.stdout.split()]) >= count:
                return found
            self.assertIsNone(run.poll())
            self.assertLess(time.monotonic(), until)
            time.sleep(0.05)

    def test_an_interrupt_of_workers(self) -> None:
        """An interrupt that workers of this machine get too ends all with one line, while they begin and later."""
        # The tool and Python's tracker of resources are there before the two workers.
        for number, count in ((signal.SIGTERM, 2), (signal.SIGINT, 4)):
            run = self.started("--part", "10", "--workers", "2")
            self.waited(run, "-s", count)
            os.killpg(run.pid, number)
            wrote_bytes, said = run.communicate(timeout=SECONDS)
            self.assertEqual((run.returncode, wrote_bytes, said), (130, b"", b"listen: broken off\n"))
            self.assertTrue(is_gone(run.pid))
            self.assertEqual(os.listdir(os.path.join(self.folder, "made")), [])

    def test_an_interrupt(self) -> None:
        """Ctrl-C, or SIGTERM, ends all with one line and status 130, whether all processes get it or only the first."""
        for number in (signal.SIGINT, signal.SIGTERM):
            for are_all in (False, True):
                run = self.begun()
                for other in self.workers if are_all else ():
                    os.kill(other, number)
                run.send_signal(number)
                wrote_bytes, said = run.communicate(timeout=SECONDS)
                self.assertEqual((run.returncode, wrote_bytes), (130, b""))
                self.assertEqual(said, b"listen: broken off\n")
                self.assertTrue(all(is_gone(other) for other in self.workers))
                self.assertEqual(os.listdir(os.path.join(self.folder, "made")), [])

    def test_an_early_interrupt(self) -> None:
        """An interrupt that comes while a process of a task begins ends it in order, without a word."""
        told = """if True:
            from cdma_tools.listening import at_once
            from cdma_tools.progress import Silent

            def interrupted():
                raise KeyboardInterrupt

            at_once.hear_only_parent = interrupted
            try:
                at_once.AtOnce([at_once.Task("", bool)] * 2, 2, Silent()).run()
            except at_once.Refused as why:
                print(why)
        """
        ran = subprocess.run([PYTHON, "-c", told], cwd=ROOT, capture_output=True, text=True, timeout=SECONDS)
        self.assertEqual((ran.stdout, ran.stderr), ("its process was status 0\n", ""))

    def test_a_kill(self) -> None:
        """If the first process is killed the others end too, and undo what they have begun: folders of cells here."""
        run = self.begun("--cells", "2")
        run.kill()
        run.communicate(timeout=SECONDS)
        self.assertTrue(all(is_gone(other) for other in self.workers))
        self.assertEqual(os.listdir(os.path.join(self.folder, "made")), [])


if __name__ == "__main__":
    unittest.main()
