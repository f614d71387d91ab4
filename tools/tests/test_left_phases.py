"""The number of phases that a worker of the search leaves, counted here by the rule, with every bound computed.

These are the numbers in the tests of `receiver_tests`, which ask the search for what its gate gets.
"""

import os
import re
import unittest
from typing import Any

from tools.tests.helping import ROOT, needs

needs("numpy")

import numpy as np  # noqa: E402
from numpy.typing import NDArray  # noqa: E402

from cdma_model.codes import PERIOD, POINTS, points  # noqa: E402

TESTS = os.path.join(ROOT, "crates", "receiver_tests", "src", "search_tests.rt")
MOST = 2_048
CHUNK = 64
BLOCK = 1_024
NOISE = re.compile(r"static NOISE: [^=]* = \[(.*?)\];", re.DOTALL)
ROW = re.compile(r"\((\d+), (\d+), (\d+)\)")
QUARTERS = re.compile(r"\[\(0, 8192\), \(1, 8192\), \(2, 8192\), \(3, (\d+)\)\]")


def noise(seed: int, count: int) -> NDArray[Any]:
    """Returns the first samples of the noise of a seed, as the tests draw it."""
    state, drawn = seed, []
    for _ in range(2 * count):
        state = (1_664_525 * state + 1_013_904_223) % 2**32
        drawn.append((state >> 16) % 201 - 100)
    return np.array(drawn[::2]) + 1j * np.array(drawn[1::2])


def bounds_and_energies(samples: NDArray[Any]) -> tuple[NDArray[Any], NDArray[Any]]:
    """Returns the least bound of each phase before any chunk of 64 samples, and its energy: whole numbers below 2^53.
    """
    starts = np.arange(0, len(samples), CHUNK)
    tails = np.array([np.sum(np.abs(samples[at:].real) + np.abs(samples[at:].imag)) for at in starts])
    code = np.concatenate([POINTS, POINTS]).conj()
    windows = np.lib.stride_tricks.sliding_window_view(code, len(samples))
    least, energies = [], []
    for first in range(0, PERIOD, BLOCK):
        parts = np.add.reduceat(windows[first : first + BLOCK] * samples, starts, axis=1)
        sums = np.cumsum(parts, axis=1)
        before = np.concatenate([np.zeros((BLOCK, 1)), sums[:, :-1]], axis=1)
        bounds = (np.abs(before.real) + tails) ** 2 + (np.abs(before.imag) + tails) ** 2
        least.append(bounds.min(axis=1))
        energies.append(sums[:, -1].real ** 2 + sums[:, -1].imag ** 2)
    return np.concatenate(least), np.concatenate(energies)


def left_by_one(samples: NDArray[Any], first: int = 0) -> int:
    """Returns the number of phases left by one worker that tries them in order from this one on, and publishes first.
    """
    least, energies = bounds_and_energies(samples)
    published, left = 0.0, 0
    for phase in range(first, PERIOD):
        if least[phase] < published:
            left += 1
        else:
            published = max(published, energies[phase])
    return left


class LeftPhases(unittest.TestCase):
    def setUp(self) -> None:
        with open(TESTS) as file:
            self.text = file.read()

    def test_noise(self) -> None:
        table = NOISE.search(self.text)
        assert table is not None
        rows = [tuple(map(int, row)) for row in ROW.findall(table[1])]
        self.assertEqual(len(rows), 3)
        for seed, count, left in rows:
            with self.subTest(seed=seed, count=count):
                self.assertEqual(left_by_one(noise(seed, count)), left)

    def test_last_of_four_workers(self) -> None:
        """The code at the last phase: the fourth worker reaches it last, and the others leave all of their phases."""
        samples = 100 * points(PERIOD - 1, MOST)
        least, energies = bounds_and_energies(samples)
        first = 3 * PERIOD // 4
        self.assertLess(least[:first].max(), energies[-1])
        self.assertEqual([str(left_by_one(samples, first))], QUARTERS.findall(self.text))


if __name__ == "__main__":
    unittest.main()
