"""Seeds, and white Gaussian noise.

A file's noise depends on three whole numbers: the run's seed, the point (its Eb/Nt in thousandths of a decibel) and the
number of the file among the point's. So it is the same on every worker, in any order.
"""

import numpy
from numpy.typing import NDArray

from cdma_tools.errors import Refused

LEAST, GREATEST = -32_768, 32_767
# Parts that are made noisy at once: 8 MiB of floating point.
BLOCK = 1 << 20
# Standard deviations that must fit into the range of samples, so that fewer than one part in 10,000 is clipped.
MARGIN = 4


def sequence(seed: int, point: int, batch: int) -> numpy.random.SeedSequence:
    """Returns the seed sequence of a file's noise: that of the run's seed, spawned by point and batch."""
    return numpy.random.SeedSequence(entropy=seed, spawn_key=(point % (1 << 32), batch))


def generator(seed: int, point: int, batch: int) -> numpy.random.Generator:
    """The generator of a file's noise: PCG64, spawned from the seed by point and batch."""
    return numpy.random.Generator(numpy.random.PCG64(sequence(seed, point, batch)))


def link_seed(seed: int, point: int, batch: int) -> int:
    """The seed of a file's recording: the first 64 bits of the state of its sequence."""
    return int(sequence(seed, point, batch).generate_state(1, numpy.uint64)[0])


def check_room(greatest: int, sigma: float) -> None:
    """Refuses a level of noise that the range of samples would cut, over parts of at most `greatest`."""
    if greatest + MARGIN * sigma > GREATEST:
        raise Refused(
            f"noise of level {sigma:.0f} on values up to {greatest} exceeds the range of samples, {LEAST} to"
            f" {GREATEST}: give the script lower gains"
        )


def noisy(parts: NDArray[numpy.int16], sigma: float, draws: numpy.random.Generator) -> NDArray[numpy.int16]:
    """Parts, i and q in turn, with noise of standard deviation sigma on each: rounded to the nearest whole number
    (halves to the even one), and kept in the range of samples; big-endian, as a sample file has them."""
    made = numpy.empty(len(parts), dtype=">i2")
    for begin in range(0, len(parts), BLOCK):
        piece = parts[begin : begin + BLOCK]
        sums = draws.standard_normal(len(piece))
        sums *= sigma
        sums += piece
        made[begin : begin + BLOCK] = numpy.clip(numpy.rint(sums, out=sums), LEAST, GREATEST, out=sums)
    return made
