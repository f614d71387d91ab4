"""Tasks of a listening, such as the carriers of a file, that are done at once, each by a process of its own.

The lines that a task writes to standard output go to a temporary file. The process that began the tasks passes them on,
those of the first task first: the output is that of one task after the other. A process that is begun here ends if the
one that began it is interrupted or killed.
"""

import io
import os
import signal
import sys
import tempfile
import threading
import time
from collections.abc import Callable, Sequence
from dataclasses import dataclass
from functools import partial
from multiprocessing import get_context
from multiprocessing.connection import Connection, wait
from typing import Any

from cdma_tools.errors import Refused, WrongArguments
from cdma_tools.interrupts import INTERRUPTS, blocked_interrupts, noted_interrupts
from cdma_tools.listening.output import StandardOutput
from cdma_tools.progress import Silent, bar
from cdma_tools.receiver_run import ended_text
from cdma_tools.starting import pass_over_interrupts
from cdma_tools.workers import hear_only_parent

FORK = get_context("fork")
# Seconds from one look for lines to the next, and in which a process must end that was interrupted.
LOOK_AGAIN, ENDING = 0.1, 30.0
PIECE = 1 << 20  # bytes of lines that are passed on at once, more than any line has

Show = Callable[..., Any]  # makes a bar, as `progress.bar` does


@dataclass(frozen=True)
class Task:
    """What is done: its beginning of remarks, and what returns whether a pilot was found, by a maker of bars."""

    title: str
    do: Callable[[Show], bool]


@dataclass(frozen=True)
class Steps:
    """Steps of a bar: those that are still to come, and those that are done."""

    more: float
    done: float


@dataclass(frozen=True)
class Result:
    """How a task ended: what it returned, or the fault that ended it."""

    is_heard: bool
    fault: Exception | None = None


class ToldBar(Silent):
    """A bar whose steps another process shows."""

    def __init__(self, pipe: Connection, *, total: float | None = None, text: str = "", unit: str = "") -> None:
        """Reports the steps to come, if they are known; the text is not shown."""
        super().__init__()
        self.pipe, self.is_counted = pipe, total is not None
        if total is not None:
            pipe.send(Steps(total, 0))

    def update(self, count: float = 1) -> None:
        """Reports that steps are done."""
        if self.is_counted:
            self.pipe.send(Steps(0, count))


def end_with_parent(life: Connection) -> None:
    """Interrupts this process when no process has the other end of a pipe any more; runs in a thread of its own."""
    wait([life])
    os.kill(os.getpid(), signal.SIGINT)


def work(task: Task, lines: io.FileIO, pipe: Connection, life: Connection, held: Connection) -> None:
    """Does a task in a process of its own. `held` is the end of the pipe `life` that only the parent may have.

    An interrupt may have come before the process could take it, so it breaks off all of this, as does the parent's end.
    """
    try:
        hear_only_parent()
        held.close()
        threading.Thread(target=end_with_parent, args=(life,), daemon=True).start()
        sys.stdout = io.TextIOWrapper(io.BufferedWriter(lines), write_through=True)
        pipe.send(result_of(task, pipe))
    except (KeyboardInterrupt, BrokenPipeError):
        return
    finally:
        pass_over_interrupts()


def result_of(task: Task, pipe: Connection) -> Result:
    """Does a task, and returns how it ended; its steps go into a pipe."""
    try:
        is_heard = task.do(partial(ToldBar, pipe))
        sys.stdout.flush()
    except (Refused, WrongArguments, MemoryError, OSError) as why:
        return Result(False, why)
    return Result(is_heard)


class Working:
    """A task that a process does."""

    def __init__(self, task: Task, life: Connection, held: Connection) -> None:
        """Starts it."""
        self.task = task
        self.file = tempfile.TemporaryFile(prefix="cdma-lines-", buffering=0)
        self.passed = 0  # bytes of lines
        self.result: Result | None = None
        self.is_over = False
        self.pipe, told = FORK.Pipe(duplex=False)
        words = task, self.file, told, life, held
        with blocked_interrupts():
            self.process = FORK.Process(target=work, args=words)
            self.process.start()
        told.close()

    def take(self) -> Steps | None:
        """Takes what the process reports, and returns steps that it did; None once it is over."""
        try:
            told = self.pipe.recv()
        except EOFError:
            self.process.join()
            self.is_over = True
            return None
        if isinstance(told, Steps):
            return told
        self.result = told
        return Steps(0, 0)

    def pass_on(self, output: StandardOutput) -> None:
        """Writes the whole lines that have come to an output."""
        while data := os.pread(self.file.fileno(), PIECE, self.passed):
            whole = data[: data.rfind(b"\n") + 1]
            if not whole:
                return
            output.write(whole)
            self.passed += len(whole)

    def heard(self) -> bool:
        """Returns what the task returned; raises the fault that ended it."""
        if self.result is None:
            raise Refused(f"{self.task.title}its process was {ended_text(self.process.exitcode or 0)}")
        if self.result.fault is not None:
            raise self.result.fault
        return self.result.is_heard


class AtOnce:
    """Tasks, of which some are done at once."""

    def __init__(self, tasks: Sequence[Task], most: int, shown: Any) -> None:
        """Nothing is begun yet; up to `most` tasks are done at once, and `shown` is their bar."""
        self.tasks, self.most, self.shown = tasks, most, shown
        self.begun: list[Working] = []
        self.place = 0  # of the task whose lines are passed on
        self.output = StandardOutput()
        self.life, self.held = FORK.Pipe(duplex=False)
        self.steps = 0.0

    @property
    def running(self) -> list[Working]:
        """Returns the tasks that are being done."""
        return [working for working in self.begun if not working.is_over]

    def run(self) -> list[bool]:
        """Does all, and returns what they returned. The first fault of one ends all."""
        try:
            while self.running or len(self.begun) < len(self.tasks):
                while len(self.begun) < len(self.tasks) and len(self.running) < self.most:
                    self.begun.append(Working(self.tasks[len(self.begun)], self.life, self.held))
                self.look()
                self.pass_on()
        finally:
            self.end()
        return [working.heard() for working in self.begun]

    def look(self) -> None:
        """Takes what the processes report, after a moment at the latest."""
        by_pipe = {working.pipe: working for working in self.running}
        for pipe in wait(list(by_pipe), LOOK_AGAIN):
            assert isinstance(pipe, Connection)
            working = by_pipe[pipe]
            if steps := working.take():
                self.steps += steps.more
                self.shown.total = self.steps
                self.shown.update(steps.done)
            elif working.result is not None and working.result.fault is not None:
                raise working.result.fault

    def pass_on(self) -> None:
        """Writes the lines of the tasks that are over, up to the first that isn't, and of that one."""
        while self.place < len(self.begun):
            working = self.begun[self.place]
            is_over = working.is_over  # before its last lines are read
            working.pass_on(self.output)
            if not is_over:
                return
            self.place += 1

    def end(self) -> None:
        """Ends all that is still being done."""
        with noted_interrupts(*INTERRUPTS):
            until = time.monotonic() + ENDING
            for working in self.running:
                assert working.process.pid is not None
                os.kill(working.process.pid, signal.SIGINT)
            for working in self.running:
                working.process.join(max(0.0, until - time.monotonic()))
                working.process.kill()
                working.process.join()
            for pipe in (self.life, self.held, *(working.pipe for working in self.begun)):
                pipe.close()
            for working in self.begun:
                working.file.close()


def done_at_once(tasks: Sequence[Task], most: int) -> list[bool]:
    """Returns what tasks return, of which up to `most` are done at once; with one at once this process does them."""
    if min(most, len(tasks)) <= 1:
        return [task.do(bar) for task in tasks]
    with bar(total=0, text="parts") as shown:
        return AtOnce(tasks, most, shown).run()
