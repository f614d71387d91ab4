"""The numbers that our work and the libraries get: a codeword's soft values, samples with the code, a recording."""

from __future__ import annotations

import dataclasses

import numpy
from numpy.typing import NDArray

from cdma_model.coding import TAIL, code_symbols
from cdma_tools.radio.air import CHIP_RATE, PERIOD, pulse_spectrum, short_code

BITS = 192
GREATEST_SOFT = 2_047
# The generator of the decoder's tests in receiver_tests: its state, its step, and the value of a draw.
SEED, FACTOR, ADDED, WRAP = 8, 6_364_136_223_846_793_005, 1_442_695_040_888_963_407, 1 << 64
SHIFT, DRAWN = 24, 1 << 40
SPAN = 2_048
# The rate of a recording, how long it is, and the phases of GNU Radio's filter between two samples.
RATE = 2_400_000
SECONDS = 2
FILTERS = 32
REACH = 6  # chips of the pulse to each side


class Draws:
    """The numbers that the decoder's tests draw."""

    def __init__(self, state: int = SEED) -> None:
        self.state = state

    def next(self) -> int:
        """The next number, below 2 to the 40."""
        self.state = (self.state * FACTOR + ADDED) % WRAP
        return (self.state >> SHIFT) % DRAWN


@dataclasses.dataclass(frozen=True)
class Sending:
    """The bits of a codeword that was sent, without its tail, and the soft values of its symbols."""

    bits: list[int]
    softs: list[int]

    def text(self) -> bytes:
        """The numbers that a decoder reads."""
        return f"{BITS}\n{' '.join(map(str, self.softs))}\n".encode()


def sent() -> Sending:
    """The codeword and the soft values of the test rows_decode_192_bits_between_zeros."""
    draws = Draws()
    bits = [draws.next() % 2 for _ in range(BITS - TAIL)]
    symbols = code_symbols(0, bits + [0] * TAIL)
    return Sending(bits, [(1 + draws.next() % GREATEST_SOFT) * (1 - 2 * int(symbol)) for symbol in symbols])


def pairs(numbers: NDArray[numpy.complex128]) -> str:
    """Complex numbers of whole parts as text."""
    parts = numpy.stack([numbers.real, numbers.imag], axis=1).astype(int)
    return f"{len(parts)}\n" + "\n".join(f"{i} {q}" for i, q in parts.tolist()) + "\n"


def search_text(samples: NDArray[numpy.complex128]) -> bytes:
    """The numbers that a search reads: samples, and the code over its period."""
    return (pairs(samples) + pairs(numpy.asarray(short_code(), dtype=complex))).encode()


def recording() -> NDArray[numpy.complex64]:
    """Two seconds of samples of floating point: noise, which a resampler takes no notice of."""
    draws = numpy.random.default_rng(SEED)
    return draws.standard_normal(2 * RATE * SECONDS, dtype=numpy.float32).view(numpy.complex64)


def pulse_taps() -> NDArray[numpy.float32]:
    """The pulse at FILTERS places between two samples of the recording, as a filter of the sum FILTERS."""
    frequency = numpy.linspace(-1.0, 1.0, 4 * PERIOD // 64 + 1)
    count = int(REACH * RATE * FILTERS / CHIP_RATE)
    places = numpy.arange(-count, count + 1) * CHIP_RATE / (RATE * FILTERS)
    response = pulse_spectrum(frequency)
    taps = numpy.array([float(numpy.cos(2 * numpy.pi * place * frequency) @ response) for place in places])
    return (taps * (FILTERS / taps.sum())).astype(numpy.float32)
