"""The search for pilots: the energy of every phase, the phases near the best one, the survey, and a pilot's strength."""

from typing import Any, NamedTuple

import numpy as np
from numpy.typing import NDArray

from cdma_model.codes import PERIOD, POINTS, points

NEAR = 32
"""How many chips round the best phase the other paths are looked for."""

PILOTS = 512
MEASURED = 512
"""Samples over which a pilot of the sets is measured."""


class Found(NamedTuple):
    """Result of a search: the best phase, its energy, and the number of chips by which each path's samples precede it.
    """

    phase: int
    energy: int
    deltas: list[int]


def correlation_bound(samples: NDArray[Any]) -> float:
    """Returns an upper bound on the error of the transforms' sums: some units in the last place for each of 15 steps of
    three transforms, times the greatest value that the sums could have."""
    steps = 3 * (PERIOD.bit_length() - 1)
    return 8 * steps * float(np.finfo(float).eps) * float(np.linalg.norm(samples) * np.linalg.norm(POINTS))


def energies(samples: NDArray[Any]) -> NDArray[Any]:
    """Returns the energy of each of the 32,768 phases over at most 32,768 samples, in whole numbers.

    The sums of samples times conjugate points are whole. They come from a fast transform with an error below a quarter,
    so the nearest whole number is the sum.
    """
    assert correlation_bound(samples) < 0.25
    sums = np.fft.ifft(np.fft.fft(samples.astype(complex), PERIOD).conj() * np.fft.fft(POINTS))
    real, imaginary = np.rint(sums.real), np.rint(sums.imag)
    assert max(np.abs(sums.real - real).max(), np.abs(sums.imag - imaginary).max()) < 0.25
    return real.astype(np.int64) ** 2 + imaginary.astype(np.int64) ** 2


def search(samples: NDArray[Any], fingers: int = 1) -> Found:
    """Returns the best phase of samples, and `fingers` paths near it, by descending energy, then by ascending phase."""
    found = energies(samples)
    best = int(found.argmax())
    near = [(best + delta) % PERIOD for delta in range(-NEAR, NEAR + 1)]
    near.sort(key=lambda phase: (-found[phase], phase))
    return Found(best, int(found[best]), [(phase - best + NEAR) % PERIOD - NEAR for phase in near[:fingers]])


def survey(samples: NDArray[Any], base: int, width: int) -> list[tuple[int, int, int]]:
    """All pilots by greater energy, then by lesser offset: offset, delta, energy."""
    found = energies(samples)
    deltas = np.arange(-width, width + 1)
    ranks = []
    for pilot in range(PILOTS):
        own = found[(base - 64 * pilot + deltas) % PERIOD]
        ranks.append((pilot, int(deltas[own.argmax()]), int(own.max())))
    return sorted(ranks, key=lambda rank: (-rank[2], rank[0]))


def strength(samples: NDArray[Any], phase: int, window: int) -> tuple[int, int]:
    """The greatest energy of 512 samples at the phases of a window, and the least delta that has it.

    `phase` is that of the first sample at delta 0; the deltas are from -window/2 to window/2.
    """
    stretch = points((phase - window // 2) % PERIOD, MEASURED + window)
    sums = np.lib.stride_tricks.sliding_window_view(stretch, MEASURED).conj() @ samples.astype(complex)
    found = sums.real.astype(np.int64) ** 2 + sums.imag.astype(np.int64) ** 2
    best = int(found.argmax())
    return int(found[best]), best - window // 2


def power(samples: NDArray[Any]) -> int:
    """The sum of the squares of samples' parts."""
    whole = samples.astype(complex)
    return int(np.sum(whole.real**2 + whole.imag**2))
