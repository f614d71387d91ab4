"""What the tests of the radio tools share: cells and recordings that are made without the program."""

import functools
import os
import subprocess
import unittest
from typing import Any, ClassVar

import numpy
from numpy.typing import NDArray

from cdma_tools.commands.make_capture import I_LAGS, Q_LAGS, signs
from tools.tests.helping import HEADER, PYTHON, TOOLS, run_inside, temporary_folder

CHIP_RATE = 1_228_800
PERIOD = 32_768
PHASE = 12_345
# Amplitudes of a cell's Walsh rows: a pilot of -3.6 dB of the whole, as in base stations or a little more.
GAINS = {0: 100, 32: 40, 1: 80, 10: 70}


@functools.cache
def code() -> NDArray[numpy.complex128]:
    """Returns the pilot's code, by the recursions of make_capture. Callers must not change it."""
    made = numpy.array(signs(I_LAGS)) + 1j * numpy.array(signs(Q_LAGS))
    made.flags.writeable = False
    return made


def cell_chips(
    count: int, seed: int = 1, phase: int = PHASE, gains: dict[int, int] = GAINS
) -> NDArray[numpy.complex128]:
    """Returns chips of a cell whose first chip has a code phase: a pilot, and rows of random symbols."""
    draws = numpy.random.default_rng(seed)
    chip = phase + numpy.arange(count)
    level = numpy.zeros(count)
    for row, gain in gains.items():
        signs_of_row = numpy.array([1 - 2 * (bin(row & place).count("1") % 2) for place in range(64)])
        symbols = 1 - 2 * draws.integers(0, 2, count // 64 + 2) if row else numpy.ones(count // 64 + 2)
        level += gain * signs_of_row[chip % 64] * symbols[(chip - phase // 64 * 64) // 64]
    return level * code()[chip % PERIOD]


def whole_cell(
    count: int, seed: int = 1, phase: int = PHASE, gains: dict[int, int] = GAINS
) -> NDArray[numpy.complex128]:
    """Returns chips of a cell whose sync channel has symbols of 256 chips, as in the standard (7.1.3.1.4)."""
    chip = phase + numpy.arange(count)
    symbols = 1 - 2 * numpy.random.default_rng(32 + seed).integers(0, 2, chip[-1] // 256 + 1)
    signs = 1 - 2 * (chip % 64 // 32)
    others = {row: gain for row, gain in gains.items() if row != 32}
    sync = gains.get(32, 0) * signs * symbols[chip // 256]
    return cell_chips(count, seed, phase, others) + sync * code()[chip % PERIOD]


def write_cell(path: str, chips: NDArray[numpy.complex128]) -> str:
    """Writes a sample file of version 1."""
    parts = numpy.stack([chips.real, chips.imag], axis=1)
    with open(path, "wb") as file:
        file.write(HEADER.pack(b"IS95", 1, 0, len(chips)) + parts.astype(">i2").tobytes())
    return path


def read_chips(path: str) -> NDArray[numpy.complex128]:
    """The samples of a sample file of version 1."""
    with open(path, "rb") as file:
        data = file.read()
    parts = numpy.frombuffer(data[HEADER.size :], dtype=">i2").astype(float)
    return parts[0::2] + 1j * parts[1::2]


def signal_to_noise(received: NDArray[numpy.complex128], sent: NDArray[numpy.complex128], window: int = 1_536) -> float:
    """Returns the ratio in dB of the sent chips to the deviation from them, with a gain fitted over each window."""
    count = min(len(received), len(sent)) // window * window
    got, wanted = received[:count].reshape(-1, window), sent[:count].reshape(-1, window)
    power = numpy.sum(numpy.abs(wanted) ** 2, axis=1)
    gain = numpy.sum(got * wanted.conj(), axis=1) / power
    noise = numpy.sum(numpy.abs(got - gain[:, None] * wanted) ** 2)
    return float(10 * numpy.log10(numpy.sum(numpy.abs(gain) ** 2 * power) / noise))


def figures(said: str) -> dict[str, str]:
    """Returns the name=value pairs of the one line of a lock."""
    lines = [line for line in said.splitlines() if line.startswith("carrier_hz=")]
    assert len(lines) == 1, said
    return dict(word.split("=", 1) for word in lines[0].split())


def run_main(name: str, *words: Any) -> tuple[int, str, str]:
    """Runs a tool within this process; returns its status, its output and its standard error."""
    status, wrote, said = run_inside(name, *words)
    return status, wrote.decode(), said


class Recordings(unittest.TestCase):
    """A folder with a cell of some length, and the two tools."""

    CHIPS = 500_000
    folder: ClassVar[str]
    sent: ClassVar[NDArray[numpy.complex128]]
    cell: ClassVar[str]
    said: str  # of the last lock

    @classmethod
    def setUpClass(cls) -> None:
        cls.folder = temporary_folder(cls.addClassCleanup)
        cls.sent = cell_chips(cls.CHIPS)
        cls.cell = write_cell(cls.at("cell.is95"), cls.sent)

    @classmethod
    def at(cls, name: str) -> str:
        return os.path.join(cls.folder, name)

    def run_tool(self, name: str, *words: Any, data: bytes = b"") -> tuple[int, bytes, str]:
        """Runs a tool; returns its status, its output and its standard error."""
        command = [PYTHON, "-B", os.path.join(TOOLS, name), *map(str, words)]
        ran = subprocess.run(command, input=data, capture_output=True, timeout=300)
        return ran.returncode, ran.stdout, ran.stderr.decode()

    def recorded(self, *words: Any, cells: tuple[str, ...] | None = None, name: str = "in.sigmf-meta") -> str:
        """Makes a recording of the cell with the arguments of tools/channel."""
        status, wrote, said = run_main("channel", *words, *(cells or (self.cell,)), self.at(name))
        self.assertEqual((status, wrote), (0, ""), said)
        return self.at(name)

    def locked(self, recording: str, *words: Any, name: str = "out.is95") -> dict[str, str]:
        """Returns the figures of a lock, and keeps its remarks."""
        status, wrote, self.said = run_main("import_capture", "--lock", *words, recording, self.at(name))
        self.assertEqual((status, wrote), (0, ""), self.said)
        return figures(self.said)

    def refused(self, why: str, recording: str, *words: Any, status: int = 1) -> str:
        """Asserts that a lock is refused for this reason, and leaves no file."""
        before = set(os.listdir(self.folder))
        ended, wrote, said = run_main("import_capture", "--lock", *words, recording, self.at("none.is95"))
        self.assertEqual((ended, wrote), (status, ""), said)
        self.assertRegex(said, why)
        self.assertNotIn("Traceback", said)
        self.assertEqual(set(os.listdir(self.folder)), before)
        return said

    def aligned(self, path: str, found: dict[str, str]) -> tuple[NDArray[numpy.complex128], NDArray[numpy.complex128]]:
        """Returns the chips of a file, and the chips that the cell sent at the same places."""
        chips = read_chips(path)
        first = (int(found["phase"]) - PHASE) % PERIOD
        first -= PERIOD if first > PERIOD // 2 else 0
        return chips[max(0, -first) :], self.sent[max(0, first) :]
