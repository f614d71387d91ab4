"""What a receiver gets from several cells and noise: sums of samples (conformance/README.md)."""

from typing import Any, NamedTuple

import numpy as np
from numpy.typing import NDArray

from cdma_model.cell import samples
from cdma_model.noise import against, rounded
from cdma_model.script import Cell

MULTIPLIER, INCREMENT = 1_664_525, 1_013_904_223
"""The draws of noise: a state of 32 bits times the one, plus the other."""


class TooLoud(Exception):
    """A sum that leaves the range of the samples."""


def draws(seed: int, bound: int, count: int) -> NDArray[Any]:
    """Returns `count` draws of noise from -bound to bound, all states at once: each is a power of the multiplier times
    the seed, plus the increment times the sum of the powers before it, modulo 2^32."""
    powers = np.cumprod(np.full(count, MULTIPLIER, np.uint32), dtype=np.uint32)
    before = np.concatenate([np.ones(1, np.uint32), powers[:-1]])
    states = powers * np.uint32(seed) + np.uint32(INCREMENT) * np.cumsum(before, dtype=np.uint32)
    return ((states >> 16).astype(np.int64) * (2 * bound + 1) >> 16) - bound


class Noise(NamedTuple):
    """Changes of a sum of samples: uniform noise of a seed and a bound, noise of a size against the first cell's
    channel on a row, and a number by which all is then divided."""

    uniform: tuple[int, int] | None = None
    against: tuple[int, int] | None = None
    divide: int = 1


def received(bits: int, cells: list[Cell], places: list[int], noise: Noise = Noise()) -> NDArray[Any]:
    """Returns the first cell's samples, with the others' added from their places on, and noise.

    Raises `TooLoud` if a sum isn't a sample of `bits` bits.
    """
    total = np.concatenate(list(samples(cells[0])))
    for place, cell in zip(places, cells[1:]):
        more = np.concatenate(list(samples(cell)))
        total[place : place + len(more)] += more
    if noise.against:
        total += against(cells[0], *noise.against)
    if noise.uniform:
        parts = draws(*noise.uniform, 2 * len(total))
        total += parts[::2] + 1j * parts[1::2]
    if noise.divide > 1:
        total = rounded(total, noise.divide)
    least, most = -(1 << bits - 1), (1 << bits - 1) - 1
    if min(total.real.min(), total.imag.min()) < least or max(total.real.max(), total.imag.max()) > most:
        raise TooLoud(f"a sum of samples leaves {least} to {most}")
    return total
