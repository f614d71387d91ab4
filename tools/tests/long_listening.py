"""Listens for minutes or hours, run by hand: received lines against those of the script, memory and speed.

    CDMA_REPLAY=PROGRAM python3 -B -m tools.tests.long_listening --seconds 3495

A recording is made piece by piece, of 8-bit samples at about 2.46 million a second, and goes through a pipe to
tools/listen, so nothing of it is kept. Its carrier drifts by 1 Hz a second, the radio's clock is 4 millionths off, and
in each 100 seconds the signal fades for 0.6 seconds and 4,000 samples are lost. Lines are kept in a file, and compared
when the recording is over; for an hour they take 70 MB, and the comparison 1 GB of memory.

The printed line has the numbers of expected, missing and extra lines, and how many of these lie outside fades and
losses. Then it has the processor's seconds of tools/listen with all its runs of follow, how many times faster than real
time that is, and the peak memory of tools/listen without these runs.

Exit status: 0 if everything missing was lost or faded, 1 otherwise, 2 wrong arguments, 130 after Ctrl-C.
"""

import argparse
import contextlib
import os
import re
import subprocess
import sys
import tempfile
from collections.abc import Iterator
from dataclasses import dataclass

import numpy
from numpy.typing import NDArray
from scipy import fft

from cdma_tools.radio.air import ratio_of
from cdma_tools.radio.channel import PHASES, REACH, pulse_table
from cdma_tools.radio.second_pass import ramps
from tools.tests.helping import NO_PROGRAM, PROGRAM, PYTHON, ROOT
from tools.tests.listening_cell import (
    CHIP_RATE, FRAME, HANDSET, PIECE, Compared, Required, Sent, compared, made_chips, script_of,
)  # fmt: skip

SEED, PRAT = 1, 1
# A piece's script begins at a chip below 2^32, so a recording ends there.
LEAST_SECONDS, MOST_SECONDS = 20, (1 << 32) // CHIP_RATE
# Samples a second, two per chip, and the rate given to the tool: 4 millionths lower.
RATE, TOLD_RATE = 2 * CHIP_RATE, round(2 * CHIP_RATE * (1 - 4e-6))
CARRIER, DRIFT = 3_000.0, 1.0  # Hz, and Hz a second
# The delay of the samples against the chips, as a fraction of a chip.
DELAY = 0.3
# dB of all the cell's power over the noise in a chip's band; parts of a cell and of the noise together, of 8 bits.
SIGNAL, LEVEL = 0.0, 30.0
# The period in seconds; within it when the signal fades, when samples are lost, and how many.
EVERY, FADE, LOSS, LOST = 100.0, (9.0, 9.6), 14.0, 4_000
# Chips that are made at once, rows of chips in which the carrier is steady, and samples of noise that are drawn.
AT_ONCE, ROW, DRAWN = 1 << 15, 512, 1 << 23
BEFORE = 2 * REACH  # chips that the pulse reaches back
SIZE = fft.next_fast_len(AT_ONCE + BEFORE)  # chips of a transform


def pulse() -> NDArray[numpy.float32]:
    """Returns the pulse at two samples a chip, delayed by a fraction of a chip."""
    table = pulse_table(False)
    late = PHASES - int(DELAY * PHASES)
    rows = [table[late - PHASES // 2], table[late]]
    return numpy.stack([row[::-1] for row in rows], axis=1).reshape(-1)


def is_faded(chip: int) -> bool:
    """Returns whether the signal is faded at a chip."""
    return FADE[0] <= chip / CHIP_RATE % EVERY < FADE[1]


def is_lost(first: int, count: int) -> bool:
    """Returns whether a loss begins within `count` chips from chip `first` on."""
    since = (first / CHIP_RATE - LOSS) % EVERY
    return since == 0 or since + count / CHIP_RATE > EVERY


class Radio:
    """Makes samples of chips, block by block."""

    def __init__(self, power: float) -> None:
        """Takes a cell whose chips have a power."""
        self.response = fft.fft(pulse(), 2 * SIZE)
        draws = numpy.random.default_rng(SEED)
        noise = draws.standard_normal((DRAWN + 2 * AT_ONCE, 2), dtype=numpy.float32).view(numpy.complex64)[:, 0]
        # Noise of a density that has this power in the band of a chip rate, over a band of twice that.
        share = 1 / ratio_of(SIGNAL)
        self.gain = numpy.float32(LEVEL / numpy.sqrt((1 + 2 * share) * power / 2))
        self.noise = noise * numpy.float32(self.gain * numpy.sqrt(share * power))
        self.draws = draws
        self.before = numpy.zeros(BEFORE, dtype=numpy.complex64)

    def samples(self, first: int, chips: NDArray[numpy.complex64]) -> NDArray[numpy.uint8]:
        """Returns the samples, i and q in turn, of chips from `first` on."""
        whole = numpy.concatenate([self.before, chips])
        self.before = whole[-BEFORE:]
        # Of two samples a chip the spectrum of chips is there twice.
        spectrum = numpy.tile(fft.fft(whole, SIZE), 2) * self.response
        shaped = fft.ifft(spectrum, overwrite_x=True)[2 * BEFORE :][: 2 * len(chips)]
        begins = (first + ROW * numpy.arange(len(chips) // ROW)) / CHIP_RATE
        turns = (CARRIER + DRIFT / 2 * begins) * begins % 1.0
        shaped *= ramps(turns, (CARRIER + DRIFT * begins) / RATE, 2 * ROW).reshape(-1)
        shaped *= self.gain * numpy.float32(0.01 if is_faded(first) else 1.0)
        place = int(self.draws.integers(DRAWN))
        shaped += self.noise[place : place + len(shaped)]
        parts = shaped.view(numpy.float32)
        parts += numpy.float32(128.0)
        return numpy.clip(parts, 0, 255, out=parts).astype(numpy.uint8)


def pieces(program: str, seconds: int) -> Iterator[tuple[int, NDArray[numpy.complex64]]]:
    """Yields the cell's chips in pieces, each with the number of its first chip."""
    count = seconds * CHIP_RATE // AT_ONCE * AT_ONCE
    for start in range(0, count, PIECE):
        parts = made_chips(program, script_of(SEED, PRAT, start, min(PIECE, count - start)))
        for first in range(0, len(parts) // 2, AT_ONCE):
            some = parts[2 * first : 2 * (first + AT_ONCE)].astype(numpy.float32)
            yield start + first, some.view(numpy.complex64)


def recording(program: str, seconds: int) -> Iterator[bytes]:
    """The bytes of the recording."""
    radio: Radio | None = None
    for first, chips in pieces(program, seconds):
        if radio is None:
            radio = Radio(float(numpy.mean(numpy.abs(chips) ** 2)))
        made = radio.samples(first, chips)
        yield made[2 * LOST if is_lost(first, len(chips)) else 0 :].tobytes()


@dataclass(frozen=True)
class Ran:
    """What a run of tools/listen wrote into a file, and what it took."""

    status: int
    said: str
    seconds: float  # of the processor, with all runs of follow
    megabytes: float


def listened(program: str, seconds: int, path: str) -> Ran:
    """Runs tools/listen on the recording, and writes its lines to a file."""
    words = ["--program", program, "--type", "cu8", "--rate", str(TOLD_RATE), "-", *HANDSET]
    command = [PYTHON, "-B", os.path.join(ROOT, "tools", "listen"), *words]
    environment = dict(os.environ, OMP_NUM_THREADS="1", OPENBLAS_NUM_THREADS="1")
    with open(path, "wb") as file, tempfile.TemporaryFile() as said:
        ran = subprocess.Popen(command, stdin=subprocess.PIPE, stdout=file, stderr=said, env=environment)
        assert ran.stdin is not None
        memory = 0.0
        with contextlib.suppress(BrokenPipeError):  # it has ended: its status and its standard error say why
            for data in recording(program, seconds):
                ran.stdin.write(data)
                memory = max(memory, most_memory(ran.pid))
            ran.stdin.close()
        _, status, used = os.wait4(ran.pid, 0)
        ran.returncode = os.waitstatus_to_exitcode(status)
        said.seek(0)
        return Ran(ran.returncode, said.read().decode(), used.ru_utime + used.ru_stime, memory)


def most_memory(process: int) -> float:
    """Returns the peak memory of a process in MB."""
    with open(f"/proc/{process}/status", encoding="ascii", errors="replace") as file:
        found = re.search(r"(?m)^VmHWM:\s*(\d+) kB", file.read())
    return int(found[1]) * 1_024 / 1e6 if found else 0.0


def is_spoilt(begin: float, end: float) -> bool:
    """Returns whether a fade or a loss lies within these seconds, or within a tenth of a second of them."""
    spans = [FADE, (LOSS, LOSS + AT_ONCE / CHIP_RATE)]
    first = int(begin / EVERY)
    return any(
        begin < high + 0.1 + EVERY * number and low - 0.1 + EVERY * number < end
        for low, high in spans
        for number in range(first, int(end / EVERY) + 1)
    )


def unexplained(result: Compared, lines: list[Required]) -> int:
    """Returns the number of missing or extra lines that no fade and no loss explains."""
    begins = {line.at: line.begin for line in lines}
    missing = {at for at, _ in result.missing}
    count = sum(
        number
        for (at, _), number in result.missing.items()
        if not is_spoilt(begins[at] / CHIP_RATE, (at + 2 * FRAME) / CHIP_RATE)
    )
    return count + sum(number for (at, _), number in result.excess.items() if at not in missing)


def parser() -> argparse.ArgumentParser:
    """The command line."""
    words = argparse.ArgumentParser(description=__doc__, formatter_class=argparse.RawDescriptionHelpFormatter)
    words.add_argument("--seconds", type=int, default=600, help=f"of the recording, {LEAST_SECONDS} to {MOST_SECONDS} [600]")
    words.add_argument("--lines", metavar="FILE", help="keep the lines here")
    return words


def told(ran: Ran, lines: list[str], seconds: int) -> int:
    """Prints how a run went, and returns the exit status."""
    if not any(line.startswith("sync ") for line in lines):
        print(f"status {ran.status}: no sync message was received")
        return 1
    sent, count = Sent(script_of(SEED, PRAT, 0, PIECE)), seconds * CHIP_RATE
    result = compared(sent, lines, count)
    odd = unexplained(result, sent.lines(count))
    print(
        f"status {ran.status}: expected {result.owed.total()}, missing {result.missing.total()}, extra"
        f" {result.excess.total()}, of these unexplained {odd}, in order {result.is_sorted}; {ran.seconds:.1f} s of a"
        f" processor, {seconds / ran.seconds:.1f} times real time, {ran.megabytes:.0f} MB"
    )
    return int(ran.status != 0 or odd > 0 or not result.is_sorted)


def main(arguments: list[str] | None = None) -> int:
    """Runs it, and returns its exit status."""
    words = parser()
    options = words.parse_args(arguments)
    if not PROGRAM:
        words.error(NO_PROGRAM)
    if not LEAST_SECONDS <= options.seconds <= MOST_SECONDS:
        words.error(f"--seconds {options.seconds} isn't one of {LEAST_SECONDS} to {MOST_SECONDS}")
    try:
        with tempfile.TemporaryDirectory() as folder:
            path = options.lines or os.path.join(folder, "lines.txt")
            ran = listened(PROGRAM, options.seconds, path)
            with open(path, encoding="ascii") as file:
                lines = file.read().splitlines()
    except OSError as why:
        words.error(str(why))
    except KeyboardInterrupt:
        return 130
    sys.stderr.write(ran.said)
    return told(ran, lines, options.seconds)


if __name__ == "__main__":
    sys.exit(main())
