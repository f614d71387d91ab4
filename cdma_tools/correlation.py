"""The correlation of samples with the pilot's code, computed apart from the program (docs/LINK.md)."""

import numpy
from numpy.typing import NDArray

from cdma_tools.errors import Refused
from cdma_tools.radio.air import I_LAGS, PERIOD, Q_LAGS, branch_signs
from cdma_tools.sample_header import FORM, HEADER, MAGIC, Header

Parts = tuple[NDArray[numpy.int64], NDArray[numpy.int64]]
"""The in-phase and the quadrature parts of samples, or of the code's points, as two arrays of one length."""


def codes() -> Parts:
    """The signs of both codes."""
    return branch_signs(I_LAGS).astype(numpy.int64), branch_signs(Q_LAGS).astype(numpy.int64)


def read_samples(data: bytes, span: int) -> Parts:
    """The first samples of a sample file, as many as the span is: both parts of each."""
    if len(data) < HEADER.size:
        raise Refused("it ends within the header of a sample file")
    if data[: len(MAGIC)] != MAGIC or (told := Header(*HEADER.unpack(data[: HEADER.size])[1:])).version not in FORM:
        raise Refused("it is not a sample file of version 1 or 2")
    version, count = told.version, told.count
    if count < span:
        raise Refused(f"it has {count} samples, fewer than the span of {span}")
    form = numpy.dtype(FORM[version])
    body = data[HEADER.size : HEADER.size + 2 * span * form.itemsize]
    if len(body) < 2 * span * form.itemsize:
        raise Refused("it ends before the span's samples")
    parts = numpy.frombuffer(body, dtype=form).astype(numpy.int64)
    return parts[::2], parts[1::2]


def energy_at(samples: Parts, signs: Parts, phase: int) -> int:
    """The energy of the correlation from a phase on, exactly."""
    i, q = samples
    c, d = (numpy.resize(numpy.roll(code, -phase), len(i)) for code in signs)
    re, im = int((i * c + q * d).sum()), int((q * c - i * d).sum())
    return re * re + im * im


def energies(samples: Parts, signs: Parts) -> NDArray[numpy.float64]:
    """Returns the energies at all phases, in the precision of floating point."""
    i, q = samples
    padded = numpy.zeros(PERIOD, dtype=complex)
    padded[: len(i)] = i + 1j * q
    points = signs[0] + 1j * signs[1]
    product = numpy.conj(numpy.fft.fft(padded)) * numpy.fft.fft(points)
    return numpy.asarray(numpy.abs(numpy.fft.ifft(product)) ** 2, dtype=float)


def best_phase(samples: Parts, signs: Parts, near: NDArray[numpy.float64]) -> tuple[int, int]:
    """The greatest energy and minus the phase that has it, the least on a tie; `near` has the energies nearly."""
    top = near.max()
    candidates = numpy.flatnonzero(near >= top * (1 - 1e-9))[:1_000] if top else numpy.zeros(1, dtype=int)
    return max(((energy_at(samples, signs, int(phase)), -int(phase)) for phase in candidates))
