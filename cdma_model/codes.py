"""The pilot's codes, the long code and its masks, and the Walsh rows (7.1.3.1.8 to 7.1.3.1.10)."""

from typing import Any

import numpy as np
from numpy.typing import NDArray

from cdma_model.bits import Bits, number, parity, spelled

PERIOD = 32_768
"""Chips in a period of the pilot's codes: 2^15, with the inserted 0."""

I_LAGS = (15, 10, 8, 7, 6, 2)
Q_LAGS = (15, 12, 11, 10, 9, 5, 4, 3)


def pilot_chips(lags: tuple[int, ...]) -> Bits:
    """A code's period of chips: the recurrence from a 1 after zeros on, and the inserted 0 (7.1.3.1.9)."""
    chips = [0] * 15 + [1]
    while len(chips) < 15 + PERIOD - 1:
        chips.append(sum(chips[-lag] for lag in lags) % 2)
    return chips[15:] + [0]


POINTS = (1 - 2 * np.array(pilot_chips(I_LAGS))) + 1j * (1 - 2 * np.array(pilot_chips(Q_LAGS)))
"""The code's points: the sign of I's chip, and that of Q's as the imaginary part."""


def points(phase: int, count: int) -> NDArray[Any]:
    """Returns the points of `count` chips from a phase on."""
    return np.take(POINTS, np.arange(phase, phase + count), mode="wrap")


def despread(samples: NDArray[Any], phase: int) -> NDArray[Any]:
    """Samples times the conjugate points of the code, of which the first meets the phase: parts up to 2^16."""
    return samples.astype(complex) * points(phase, len(samples)).conj()


LONG_DEGREE = 42
LONG_POLYNOMIAL = sum(
    1 << power for power in (42, 35, 33, 31, 27, 26, 25, 22, 21, 19, 18, 17, 16, 10, 7, 6, 5, 3, 2, 1, 0)
)


def product(one: int, other: int) -> int:
    """The product of two polynomials below degree 42, modulo the long code's (7.1.3.1.10)."""
    result = 0
    for place in reversed(range(LONG_DEGREE)):
        result <<= 1
        if result >> LONG_DEGREE:
            result ^= LONG_POLYNOMIAL
        if other >> place & 1:
            result ^= one
    return result


def state_after(state: int, chips: int) -> int:
    """Returns the long code's state `chips` chips later, which is it times x to that power."""
    power = 2
    while chips:
        if chips & 1:
            state = product(state, power)
        power = product(power, power)
        chips >>= 1
    return state


def state_before(state: int, chips: int) -> int:
    """Returns the one state that gives this one after `chips` chips."""
    for _ in range(chips):
        state = (state ^ LONG_POLYNOMIAL if state & 1 else state) >> 1
    return state


def octet_products(factor: int) -> list[list[int]]:
    """Returns for each octet of a state, and each value of it, the product with a factor."""
    values = [256, 256, 256, 256, 256, 4]
    return [[product(value << 8 * octet, factor) for value in range(values[octet])] for octet in range(6)]


BY_64_CHIPS = octet_products(state_after(1, 64))


def scrambling_bits(state: int, mask: int, count: int = 384) -> NDArray[Any]:
    """The long code's chips under a mask at the first chip of each symbol: 64 chips apart, from a state on (7.1.3.1.6)."""
    chips = []
    for _ in range(count):
        chips.append(parity(state & mask))
        octets = state.to_bytes(6, "little")
        state = 0
        for table, octet in zip(BY_64_CHIPS, octets):
            state ^= table[octet]
    return np.array(chips)


def paging_mask(channel: int, pilot: int) -> int:
    """The mask of paging channel 1 to 7 of a pilot's base station (7.7.2)."""
    return number(spelled(13, 0b1100011001101) + [0] * 5 + spelled(3, channel) + [0] * 12 + spelled(9, pilot))


SERIAL_ORDER = (0, 31, 22, 13, 4, 26, 17, 8, 30, 21, 12, 3, 25, 16, 7, 29, 20, 11, 2, 24, 15, 6, 28, 19, 10, 1, 23, 14,
                5, 27, 18, 9)  # fmt: skip


def traffic_mask(serial: int) -> int:
    """The public mask of a handset's electronic serial number (7.1.3.1.10)."""
    return number(spelled(10, 0b1100011000) + [serial >> place & 1 for place in SERIAL_ORDER])


WALSH = np.array([[1 - 2 * parity(row & chip) for chip in range(64)] for row in range(64)])
"""The signs of the 64 Walsh rows, chip by chip (7.1.3.1.8)."""
