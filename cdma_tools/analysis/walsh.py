"""The 64 Walsh rows of a cell's chips: despread by a fast Walsh transform, and spread again (7.1.3.1.8).

A chip of code phase p is x = g c(p) sum_r a_r s_r W_r(p mod 64) + noise, with |c|^2 = 2: g is the pilot's complex gain,
a_r the amplitude of a row against the pilot's, s_r its symbol, 1 or -1. A block is 64 chips that begin at a phase that
64 divides; a row has one value in each.
"""

import functools
from typing import Any

import numpy
from numpy.typing import NDArray

from cdma_tools.radio.air import PERIOD, ROWS, short_code

PILOT_ROW, SYNC_ROW = 0, 32
# Blocks of a symbol of the sync channel, of a power control group of 1.25 ms, and of a frame of 20 ms.
SYNC_BLOCKS, GROUP_BLOCKS, FRAME_BLOCKS = 4, 24, 384
# Chips at whose multiples of phase a run of blocks begins, so that four of them are a symbol of the sync channel.
SYNC_CHIPS = SYNC_BLOCKS * ROWS


def walsh_transform(columns: NDArray[numpy.float32]) -> NDArray[numpy.float32]:
    """The sums sum_p W_r(p) x(p) for the 64 rows r of values x(p), (64, n): six steps of sums and differences."""
    before, after = columns, numpy.empty_like(columns)
    for width in (1, 2, 4, 8, 16, 32):
        pairs = before.reshape(ROWS // (2 * width), 2, width, -1)
        made = after.reshape(pairs.shape)
        numpy.add(pairs[:, 0], pairs[:, 1], out=made[:, 0])
        numpy.subtract(pairs[:, 0], pairs[:, 1], out=made[:, 1])
        before, after = after, numpy.empty_like(columns) if before is columns else before
    return before


def moving(values: NDArray[Any], width: int) -> NDArray[Any]:
    """Returns the mean of `width` neighbors along the first axis, of fewer at the ends, in double precision."""
    kind = numpy.result_type(values, float)
    sums = numpy.concatenate([numpy.zeros_like(values[:1], dtype=kind), numpy.cumsum(values, axis=0, dtype=kind)])
    at = numpy.arange(len(values))
    low, high = numpy.maximum(at - width // 2, 0), numpy.minimum(at + width // 2 + 1, len(values))
    means: NDArray[Any] = (sums[high] - sums[low]) / (high - low).reshape(-1, *[1] * (values.ndim - 1))
    return means


@functools.lru_cache(maxsize=4)
def conjugate_periods(count: int) -> NDArray[numpy.complex64]:
    """The conjugate of the code's points over some periods."""
    return numpy.concatenate([short_code()] * count).conj()


def conjugate_code(phase: int, count: int) -> NDArray[numpy.complex64]:
    """The conjugate of the code's points for a number of chips, of which the first has this phase."""
    begin = phase % PERIOD
    return conjugate_periods(-(-(begin + count) // PERIOD))[begin : begin + count]


def to_whole_symbols(phase: int) -> int:
    """The chips from one of this phase to the next at which a sync symbol, and so a block, begins."""
    return -phase % SYNC_CHIPS


def despread(chips: NDArray[numpy.complex64], phase: int) -> NDArray[numpy.complex64]:
    """The rows of chips, (64, blocks), of which the first has this phase, a multiple of 64: y_r = g a_r s_r + noise.

    The number of chips is a multiple of 64.
    """
    turned = (chips * conjugate_code(phase, len(chips))).reshape(-1, ROWS)
    columns = numpy.ascontiguousarray(turned.T).view(numpy.float32)
    columns *= numpy.float32(1 / (2 * ROWS))
    return walsh_transform(columns).view(numpy.complex64)


def spread(levels: NDArray[numpy.float32], phase: int) -> NDArray[numpy.complex64]:
    """The chips of rows (64, blocks), of which the first has this phase, a multiple of 64."""
    chips = numpy.ascontiguousarray(walsh_transform(levels).T).reshape(-1)
    return chips * conjugate_code(phase, len(chips)).conj()
