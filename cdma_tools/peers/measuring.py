"""Ours and the libraries' in turns on the same numbers, the least of many, and the table."""

from __future__ import annotations

import os
import sys
import tempfile
import time
from collections.abc import Callable, Sequence

import numpy

from cdma_tools.errors import Refused
from cdma_tools.peers.libraries import (
    DECODERS,
    GNU_RADIO,
    SEARCHES,
    Library,
    Missing,
    built,
    python_of_gnu_radio,
    resampled,
    turn_of,
)
from cdma_tools.peers.inputs import BITS, RATE, SECONDS, SPAN, Sending, pulse_taps, recording, search_text, sent
from cdma_tools.radio.air import CHIP_RATE
from cdma_tools.radio.front import GUARD, Front
from cdma_tools.recordings import Recording
from cdma_tools.sample_file import SampleFile

ROUNDS = 15
TURNS = 300
STATES = 256
Timed = Callable[[], float]
WIDTH = 24


def in_turns(timed: dict[str, Timed], rounds: int) -> dict[str, float]:
    """Returns the least seconds of each of several works, done in turns for `rounds` rounds."""
    least: dict[str, float] = {}
    for _ in range(rounds):
        for name, work in timed.items():
            least[name] = min(work(), least.get(name, float("inf")))
    return least


def row(name: str, milliseconds: float, nanoseconds: float, told: str) -> None:
    """A line of the table."""
    print(f"{name:<{WIDTH}}{milliseconds:>10.4f}{nanoseconds:>12.3f}  {told}")


def checked(library: Library, program: str, data: bytes, wanted: str) -> Timed:
    """The work of a library, whose result has to be the wanted one."""

    def work() -> float:
        """A run's processor seconds of a turn."""
        seconds, result = turn_of(program, TURNS, data)
        if result != wanted:
            raise Refused(f"{library.name} finds another result: {result[:60]} instead of {wanted[:60]}")
        return seconds

    return work


def works_of(libraries: Sequence[Library], folder: str, data: bytes, wanted: str) -> dict[str, Timed]:
    """Returns the works of the installed libraries, and reports why the others aren't measured."""
    works: dict[str, Timed] = {}
    for library in libraries:
        try:
            works[library.name] = checked(library, built(library, folder), data, wanted)
        except Missing as why:
            print(f"{library.name:<{WIDTH}} not measured: {why}")
    return works


def print_decoders(folder: str, ours: Timed | None, rounds: int) -> None:
    """The best codeword of 192 bits between zeros."""
    print(f"{'decoder, ' + str(BITS) + ' bits':<{WIDTH}}{'ms':>10}{'ns a state':>12}  what it has not")
    sending: Sending = sent()
    works = works_of(DECODERS, folder, sending.text(), "".join(map(str, sending.bits)))
    if ours:
        works = {"ours": ours, **works}
    else:
        print(f"{'ours':<{WIDTH}} not measured: the tests of receiver_tests aren't built")
    lacks = {library.name: library.lacks for library in DECODERS}
    for name, seconds in in_turns(works, rounds).items():
        row(name, 1e3 * seconds, 1e9 * seconds / (STATES * BITS), lacks.get(name, ""))


def print_searches(folder: str, ours: Timed, path: str, wanted: str, rounds: int) -> None:
    """The best of all phases in a sample file's first samples; ours finds the wanted one."""
    print(f"{'search, ' + str(SPAN) + ' samples':<{WIDTH}}{'ms':>10}{'ns a phase':>12}  what it has not")
    file = SampleFile(path)
    data = search_text(file.read(0, SPAN).astype(complex))
    file.close()
    works = {"ours, exact": ours, **works_of(SEARCHES, folder, data, wanted)}
    lacks = {library.name: library.lacks for library in SEARCHES}
    for name, seconds in in_turns(works, rounds).items():
        row(name, 1e3 * seconds, 1e9 * seconds / 32_768, lacks.get(name, ""))


def front_seconds(path: str) -> float:
    """The processor seconds in which the lock's front takes a recording to one sample a chip."""
    source = Recording(path, "cf32_le", float(RATE), 0)
    try:
        front = Front(source)
        count = int(front.length) - 2 * GUARD
        begin = time.process_time()
        made = front.steady(float(GUARD), count, 1)
        seconds = time.process_time() - begin
    finally:
        source.close()
    if len(made) != count:
        raise Refused(f"the front made {len(made)} chips of {count}")
    return seconds


def gnu_radio_work(folder: str, path: str) -> Timed:
    """Returns the work of GNU Radio's resampler over a recording; raises Missing if it isn't installed."""
    python, taps = python_of_gnu_radio(), os.path.join(folder, "taps")
    chips = os.path.join(folder, "chips")
    pulse_taps().tofile(taps)
    wanted = SECONDS * CHIP_RATE

    def work() -> float:
        """A run's processor seconds."""
        seconds = resampled(python, path, taps, CHIP_RATE / RATE, chips)
        made = os.path.getsize(chips) // 8
        if abs(made - wanted) > wanted / 1_000:
            raise Refused(f"GNU Radio's resampler made {made} chips of {wanted}")
        return seconds

    return work


def print_resamplers(folder: str, rounds: int) -> None:
    """Two seconds of a recording to one sample a chip, through the pulse."""
    print(f"{'resampler, ' + str(SECONDS) + ' s':<{WIDTH}}{'ms':>10}{'ns a sample':>12}  what it has not")
    path = os.path.join(folder, "recording")
    numpy.asarray(recording()).tofile(path)
    works: dict[str, Timed] = {"ours": lambda: front_seconds(path)}
    lacks = {GNU_RADIO: "one ratio, no carrier, no drifting clock, no choice of instants"}
    try:
        works[GNU_RADIO] = gnu_radio_work(folder, path)
    except Missing as why:
        print(f"{GNU_RADIO:<{WIDTH}} not measured: {why}")
    for name, seconds in in_turns(works, rounds).items():
        row(name, 1e3 * seconds, 1e9 * seconds / (RATE * SECONDS), lacks.get(name, ""))


def print_peers(decoder: Timed | None, search: Timed, samples: str, phase: str, rounds: int = ROUNDS) -> None:
    """The three tables: decoders, searches over a sample file whose phase is known, resamplers."""
    with tempfile.TemporaryDirectory(prefix="peers-") as folder:
        print_decoders(folder, decoder, rounds)
        print_searches(folder, search, samples, phase, rounds)
        print_resamplers(folder, max(1, rounds // 3))
        sys.stdout.flush()
