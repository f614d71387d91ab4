"""Signals: interrupts, Ctrl-C and SIGTERM, that wait or that end something in order, and hang-ups."""

import contextlib
import signal
import threading
from collections.abc import Callable, Iterator

INTERRUPTS = (signal.SIGINT, signal.SIGTERM)


@contextlib.contextmanager
def noted_interrupts(*numbers: signal.Signals) -> Iterator[None]:
    """Holds interrupting signals back until this context is left; processes started in it get them as usual.

    Python handles signals in its main thread; in another thread nothing is held back.
    """
    if threading.current_thread() is not threading.main_thread():
        yield
        return
    heard: list[bool] = []
    before = {
        number: signal.signal(number, lambda *_: heard.append(True))
        for number in numbers
        if signal.getsignal(number) is not signal.SIG_IGN
    }
    try:
        yield
    finally:
        for number, handler in before.items():
            signal.signal(number, handler)
    if heard:
        raise KeyboardInterrupt


@contextlib.contextmanager
def blocked_interrupts() -> Iterator[None]:
    """Lets interrupts wait until this context is left, whatever takes them by then; so do processes begun in it."""
    before = signal.pthread_sigmask(signal.SIG_BLOCK, INTERRUPTS)
    try:
        yield
    finally:
        signal.pthread_sigmask(signal.SIG_SETMASK, before)


@contextlib.contextmanager
def first_interrupt(call: Callable[[], None]) -> Iterator[None]:
    """Calls something at the first interrupt; a second one interrupts as ever.

    What is called may interrupt any statement, so it may only set a value.
    """
    before = {number: signal.getsignal(number) for number in INTERRUPTS}

    def take(*_: object) -> None:
        for number, handler in before.items():
            signal.signal(number, handler)
        call()

    for number, handler in before.items():
        if handler is not signal.SIG_IGN:
            signal.signal(number, take)
    try:
        yield
    finally:
        for number, handler in before.items():
            signal.signal(number, handler)


@contextlib.contextmanager
def each_hang_up(call: Callable[[], None]) -> Iterator[None]:
    """Calls something at each SIGHUP, unless that is passed over, as below nohup; it may only set a value."""
    before = signal.getsignal(signal.SIGHUP)
    if before is not signal.SIG_IGN:
        signal.signal(signal.SIGHUP, lambda *_: call())
    try:
        yield
    finally:
        signal.signal(signal.SIGHUP, before)
