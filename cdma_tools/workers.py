"""Processes that share work, and end with Ctrl-C without a word."""

import contextlib
import functools
import os
import signal
from collections.abc import Callable, Iterable, Iterator
from concurrent.futures import ProcessPoolExecutor
from concurrent.futures.process import BrokenProcessPool
from contextlib import AbstractContextManager
from multiprocessing import resource_tracker
from typing import Any, TypeVar

from cdma_tools.arguments import Parser, whole_within
from cdma_tools.errors import Refused
from cdma_tools.interrupts import INTERRUPTS, noted_interrupts
from cdma_tools.starting import INTERRUPTED, break_off

Item = TypeVar("Item")
Made = TypeVar("Made")

MOST_JOBS = 64


def end(*_: object) -> None:
    """Ends this process at once."""
    os._exit(INTERRUPTED)


def hear_interrupts() -> None:
    """Lets Ctrl-C or SIGTERM end this process at once; what it runs gets the signal itself."""
    signal.signal(signal.SIGINT, end)
    signal.signal(signal.SIGTERM, end)


@contextlib.contextmanager
def held_interrupts(*numbers: signal.Signals) -> Iterator[None]:
    """Holds interrupts back until this context is left, Ctrl-C if none are named; processes started in it don't get
    them at all."""
    numbers = numbers or (signal.SIGINT,)
    resource_tracker.ensure_running()  # which would make the thread that first starts a process receive Ctrl-C again
    with noted_interrupts(*numbers):
        signal.pthread_sigmask(signal.SIG_BLOCK, numbers)
        try:
            yield
        finally:
            signal.pthread_sigmask(signal.SIG_UNBLOCK, numbers)


@contextlib.contextmanager
def in_order(cluster: AbstractContextManager[Any]) -> Iterator[Any]:
    """The client of a cluster of processes of this machine, which leave interrupts to this process.

    An interrupt takes the cluster down in order, even one that all processes get, or one while it begins.
    """
    with contextlib.ExitStack() as stack:
        with held_interrupts(*INTERRUPTS):
            client = stack.enter_context(cluster)
            client.run(pass_over_interrupts)
        yield client


def hear_only_parent() -> None:
    """Lets only the process that forked this one interrupt it, by SIGINT.

    A terminal and timeout(1) send a signal to the whole group, and a service manager to all processes: the parent gets
    it too, and passes it on.
    """
    os.setpgid(0, 0)
    signal.signal(signal.SIGTERM, signal.SIG_IGN)
    signal.signal(signal.SIGINT, break_off)
    signal.pthread_sigmask(signal.SIG_UNBLOCK, INTERRUPTS)


def pass_over_interrupts() -> None:
    """Ignores Ctrl-C in this process, though it ends what the process runs."""
    signal.signal(signal.SIGINT, lambda *_: None)
    signal.pthread_sigmask(signal.SIG_UNBLOCK, {signal.SIGINT})


@contextlib.contextmanager
def quietly(cluster: AbstractContextManager[Any], clean: Callable[[], None]) -> Iterator[Any]:
    """The client of a cluster of processes of this machine, which Ctrl-C leaves to this process to end, unsaid.

    SIGTERM ends this process at once, once `clean` has removed what would stay: a cluster can't be taken down whose
    processes have had the signal too.
    """

    def end_at_once(number: int, _: object) -> None:
        clean()
        signal.signal(number, signal.SIG_DFL)
        os.kill(os.getpid(), number)

    with contextlib.ExitStack() as stack:
        stack.callback(signal.signal, signal.SIGTERM, signal.signal(signal.SIGTERM, end_at_once))
        with held_interrupts():
            client = stack.enter_context(cluster)
            client.run(pass_over_interrupts)
        yield client


def mapped(function: Callable[[Item], Made], items: Iterable[Item], jobs: int, chunk: int = 1) -> Iterator[Made]:
    """Yields the result of a function for each item, in order, by `jobs` processes, each of which takes a chunk at
    once."""
    executor = ProcessPoolExecutor(jobs, initializer=hear_interrupts)
    try:
        yield from executor.map(function, items, chunksize=chunk)
    except BrokenProcessPool:
        raise Refused("a worker process was killed") from None
    finally:
        executor.shutdown(cancel_futures=True)


def taking_back(function: Callable[[Item], Made], item: Item) -> Made:
    """Returns the result of a function for an item; the function undoes what it has begun if it is interrupted."""
    try:
        for number in (signal.SIGINT, signal.SIGTERM):
            signal.signal(number, break_off)
        return function(item)
    finally:
        hear_interrupts()


def mapped_in_turn(function: Callable[[Item], Made], items: Iterable[Item], jobs: int) -> Iterator[Made]:
    """Returns the results of a function for each item, in order: in this process, or by `jobs` processes if more than
    one, which undo what they have begun if they are interrupted."""
    if jobs == 1:
        return map(function, items)
    return mapped(functools.partial(taking_back, function), items, jobs)


def add_jobs_option(parser: Parser, what: str, jobs: int = 0) -> None:
    """Adds the option --jobs, the number of things done at once, by default `jobs`, or one per processor if that is 0.
    """
    processors = min(os.cpu_count() or 1, MOST_JOBS)
    parser.add_argument(
        "--jobs",
        type=whole_within(1, MOST_JOBS),
        default=jobs or processors,
        metavar="N",
        help=f"{what} at once (default {jobs or 'one per processor'})",
    )
