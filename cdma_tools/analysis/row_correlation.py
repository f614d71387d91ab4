"""The correlation of a cell's chips with later ones, which come over another path at the same instant.

Chips of a code of a finite period aren't independent: over a period the products c(n) conj c(n + m) W_r(n) W_r(n + m)
of a row's chips within one symbol, where its sign is in both, add up to 2 N rho_r(m). These are 0.004 of what one chip
has for the pilot, and up to 0.013 for other rows. They are the same in every period, so a longer recording doesn't
lessen them. Chips of two symbols, and of two rows, have independent signs and are uncorrelated.
"""

import functools

import numpy
from numpy.typing import NDArray

from cdma_tools.analysis.walsh import PILOT_ROW, SYNC_BLOCKS, SYNC_ROW, walsh_transform
from cdma_tools.radio.air import PERIOD, ROWS, short_code


def within_symbols(
    products: NDArray[numpy.complex128], signs: NDArray[numpy.float64], late: int
) -> NDArray[numpy.complex128]:
    """The sums of products of chips `late` apart, for rows of signs (rows, symbol), within symbols of that length."""
    size = signs.shape[1]
    by_place = products.reshape(-1, size).sum(axis=0)
    sums: NDArray[numpy.complex128] = (signs[:, : size - late] * signs[:, late:]) @ by_place[: size - late]
    return sums


@functools.lru_cache(maxsize=1)
def row_correlations(most: int) -> NDArray[numpy.complex128]:
    """rho_r(m) for the 64 rows r and m of 0 to `most`, (64, most + 1); `most` is less than a block."""
    signs = walsh_transform(numpy.eye(ROWS, dtype=numpy.float32)).astype(float)
    code = short_code().astype(complex)
    found = numpy.empty((ROWS, most + 1), dtype=complex)
    for late in range(most + 1):
        products = code * numpy.roll(code, -late).conj() / (2 * PERIOD)
        found[:, late] = within_symbols(products, signs, late)
        found[SYNC_ROW, late] = within_symbols(products, numpy.tile(signs[[SYNC_ROW]], SYNC_BLOCKS), late)[0]
        found[PILOT_ROW, late] = products.sum()  # its sign never changes
    return found


def between(correlation: NDArray[numpy.complex128], delays: NDArray[numpy.int64]) -> NDArray[numpy.complex128]:
    """Returns the matrix rho((t - t') / 2) of delays t and t' in half chips, 0 if they aren't whole chips apart."""
    apart = delays[:, None] - delays
    ahead = correlation[numpy.abs(apart) // 2]
    matrix: NDArray[numpy.complex128] = numpy.where(apart < 0, ahead.conj(), ahead)
    matrix[apart % 2 != 0] = 0
    return matrix
