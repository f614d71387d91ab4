"""What the standard fixes of the signal on the air (TIA/EIA-95-B, 7.1.3.1.9 and 7.1.3.1.10)."""

import functools

import numpy
from numpy.typing import ArrayLike, NDArray

CHIP_RATE = 1_228_800  # chips a second
PERIOD = 32_768  # chips of the pilot's code
ROWS = 64  # Walsh rows, and the chips of each (7.1.3.1.8)

# The recursions of the pilot's two codes: how many chips back the terms lie (7.1.3.1.9).
I_LAGS = (15, 10, 8, 7, 6, 2)
Q_LAGS = (15, 12, 11, 10, 9, 5, 4, 3)

# The baseband filter at 4 taps a chip, its first half; the second half mirrors it (7.1.3.1.10, the table of h(k)).
HALF_PULSE = (
    -0.025288315, -0.034167931, -0.035752323, -0.016733702, 0.021602514, 0.064938487,
    0.091002137, 0.081894974, 0.037071157, -0.021998074, -0.060716277, -0.051178658,
    0.007874526, 0.084368728, 0.126869306, 0.094528345, -0.012839661, -0.143477028,
    -0.211829088, -0.140513128, 0.094601918, 0.441387140, 0.785875640, 1.0,
)  # fmt: skip
TAPS_A_CHIP = 4
# Cycles a chip: the filter's stop band begins at 740 kHz, 0.602, and the taps repeat their response from 2 on.
STOP = 0.8

# The phase equaliser's two constants (7.1.3.1.10, phase characteristics): the damping, and the frequency in Hz.
EQUALISER_DAMPING = 1.36
EQUALISER_HERTZ = 315_000.0


def pulse_spectrum(frequency: ArrayLike) -> NDArray[numpy.float64]:
    """Returns the baseband filter's response at frequencies in cycles per chip, of the same shape.

    It is real, since the 48 taps are symmetric and their middle is time 0, and scaled so that a pulse has energy 1 at
    one sample per chip. From 0.8 cycles per chip on it is taken as 0, in the filter's stop band.
    """
    taps = numpy.array(HALF_PULSE + HALF_PULSE[::-1])
    cycles = numpy.asarray(frequency, dtype=float)
    places = (numpy.arange(len(taps)) - (len(taps) - 1) / 2) / TAPS_A_CHIP
    response = numpy.cos(2 * numpy.pi * cycles[..., None] * places) @ taps
    response /= numpy.sqrt(TAPS_A_CHIP * numpy.sum(taps**2))
    return numpy.where(numpy.abs(cycles) < STOP, response, 0.0)


def equaliser_spectrum(frequency: ArrayLike) -> NDArray[numpy.complex128]:
    """The response of the transmitter's phase equaliser at frequencies in cycles a chip, of the same shape.

    An all-pass, (w^2 + j a w w0 - w0^2) / (w^2 - j a w w0 - w0^2) with a = 1.36 and w0 = 2 pi 315,000, by which a
    base station makes up for the delay that a handset's analogue filter gives to the edges of the band.
    """
    ratio = numpy.asarray(frequency, dtype=float) * (CHIP_RATE / EQUALISER_HERTZ)
    across = 1j * EQUALISER_DAMPING * ratio
    return (ratio**2 + across - 1) / (ratio**2 - across - 1)


def branch_signs(lags: tuple[int, ...]) -> NDArray[numpy.float64]:
    """The 32,768 chips of a branch as signs: a maximal sequence, and a 0 after its run of 14 zeros."""
    taps = sum(1 << (lag - 1) for lag in lags)
    state, chips = 0, bytearray(PERIOD)
    for place in range(PERIOD - 1):
        # Bit lag - 1 of the state is the chip that lies lag chips back.
        chip = (state & taps).bit_count() & 1 if place else 1
        chips[place] = chip
        state = (state << 1 | chip) & 0x7FFF
    return 1.0 - 2.0 * numpy.frombuffer(bytes(chips), dtype=numpy.uint8)


@functools.lru_cache(maxsize=1)
def short_code() -> NDArray[numpy.complex64]:
    """The 32,768 points of the pilot's code, 1 + j, 1 - j and so on; chip 0 is the first after the 15 zeros."""
    code = (branch_signs(I_LAGS) + 1j * branch_signs(Q_LAGS)).astype(numpy.complex64)
    code.flags.writeable = False
    return code


def decibels(ratio: float) -> float:
    """A ratio of powers in dB; of 0 or less, -99, which is below all that can be measured here."""
    return 10 * float(numpy.log10(ratio)) if ratio > 1.3e-10 else -99.0


def ratio_of(level: float) -> float:
    """The ratio of powers that a level in dB is."""
    return 10.0 ** (level / 10)
