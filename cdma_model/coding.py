"""The convolutional code, repetition, the sent order, checks, the rates of both rate sets, and the best codeword."""

from typing import Any, NamedTuple

import numpy as np
from numpy.typing import NDArray

from cdma_model.bits import Bits, number, parity, spelled

# ---- the convolutional code (7.1.3.1.3.1): bit k of a mask is the power k of D

GENERATORS = (sum(1 << power for power in (0, 1, 2, 3, 5, 7, 8)), sum(1 << power for power in (0, 2, 3, 4, 8)))
"""753 and 561 octal, read from the lowest power on."""


def code_symbols(start: int, bits: Bits) -> NDArray[Any]:
    """Two symbols for each bit, after eight start bits as a number whose bit 0 is the newest."""
    symbols, register = [], start
    for bit in bits:
        register = (register << 1 | bit) & 0x1FF
        symbols += [parity(register & generator) for generator in GENERATORS]
    return np.array(symbols, int)


# ---- the sent order (7.1.3.1.4, 7.1.3.1.5)


def sent_order(width: int, columns: int) -> NDArray[Any]:
    """Returns A(i), the repeated symbol that is sent as symbol i, with rows of 2^width and `columns` columns."""
    return np.array([
        (place % columns << width) + number(spelled(width, place // columns)[::-1])
        for place in range(columns << width)
    ])  # fmt: skip


SYNC_ORDER = sent_order(7, 1) // 2
"""The code symbol that each of a sync frame's 128 symbols sends: each is sent twice."""

DATA_ORDER = sent_order(6, 6)
PAGING_ORDERS = {192: DATA_ORDER, 96: DATA_ORDER // 2}
"""The code symbol that each of a paging frame's 384 symbols sends, by the bits of a frame."""


def gathered(order: NDArray[Any], softs: NDArray[Any], symbols: int) -> NDArray[Any]:
    """Returns for each code symbol the sum of the soft values of those that send it, 0 if none does."""
    sums = np.zeros(symbols, np.int64)
    np.add.at(sums, order, softs)
    return sums


# ---- checks (7.1.3.5, 7.7.1, 7.7.2, 7.7.3)


class Check(NamedTuple):
    """A generator: its degree, and the powers of x below it."""

    degree: int
    powers: tuple[int, ...]


QUALITY_6 = Check(6, (2, 1, 0))
QUALITY_8 = Check(8, (7, 4, 3, 1, 0))
QUALITY_10 = Check(10, (9, 8, 7, 6, 4, 3, 0))
QUALITY_12 = Check(12, (11, 10, 9, 8, 4, 1, 0))
MESSAGE_16 = Check(16, (12, 5, 0))
MESSAGE_30 = Check(30, (29, 21, 20, 15, 13, 12, 11, 8, 7, 6, 2, 1, 0))


def check_bits(check: Check, bits: Bits) -> Bits:
    """The check of bits: a shift register that starts with ones, sent highest coefficient first."""
    generator = sum(1 << power for power in check.powers)
    ones = (1 << check.degree) - 1
    register = ones
    for bit in bits:
        turned = bit ^ register >> check.degree - 1
        register = register << 1 & ones ^ generator * turned
    return spelled(check.degree, register)


# ---- the rates of traffic channels (7.1.3.1.1 to 7.1.3.1.5; rate set 2 by docs/LINK.md)

TAIL = 8
"""Zeros after a traffic frame's bits: they bring the encoder back to state zero."""


class Rate(NamedTuple):
    """A rate: bits a second, information bits, the quality indicator if any, and the code symbol of each sent one."""

    speed: int
    information: int
    check: Check | None
    order: NDArray[Any]

    def bits(self) -> int:
        """The bits of a frame: information, quality indicator and tail."""
        return self.information + (self.check.degree if self.check else 0) + TAIL


KEPT = np.array([6 * (kept // 4) + (0, 1, 3, 5)[kept % 4] for kept in range(384)])
"""Of rate set 2, which of the 576 repeated symbols are kept: of each six the third and the fifth are dropped."""

RATE_SET_1 = (
    Rate(9_600, 172, QUALITY_12, DATA_ORDER),
    Rate(4_800, 80, QUALITY_8, DATA_ORDER // 2),
    Rate(2_400, 40, None, DATA_ORDER // 4),
    Rate(1_200, 16, None, DATA_ORDER // 8),
)
RATE_SET_2 = (
    Rate(14_400, 268, QUALITY_12, KEPT[DATA_ORDER]),
    Rate(7_200, 126, QUALITY_10, KEPT[DATA_ORDER] // 2),
    Rate(3_600, 56, QUALITY_8, KEPT[DATA_ORDER] // 4),
    Rate(1_800, 22, QUALITY_6, KEPT[DATA_ORDER] // 8),
)


def quality(rate: Rate, information: Bits) -> Bits:
    """Returns the quality indicator of a frame's information, empty if the rate has none."""
    return check_bits(rate.check, information) if rate.check else []


def frame_bits(rate: Rate, information: Bits) -> Bits:
    """All bits of a traffic frame."""
    return information + quality(rate, information) + [0] * TAIL


def is_right(rate: Rate, bits: Bits) -> bool:
    """Whether a frame's quality indicator is that of its information; true if the rate has none."""
    return bits[rate.information : rate.bits() - TAIL] == quality(rate, bits[: rate.information])


# ---- the best codeword (own)

REVERSED = np.array([number(spelled(8, state)[::-1]) for state in range(256)])
"""A state's eight bits read from the newest back, as a number: the order of codewords that end in different states."""

BRANCH_SIGNS = np.array([[1 - 2 * parity(state & generator) for state in range(256)] for generator in GENERATORS])
"""The signs of the two symbols of a step into a state, where the bit that leaves the register is 0. Both generators
have the power 8, so both signs turn where it is 1."""

NEVER = -(1 << 62)
"""The score of a state that no codeword reaches: no sum of soft values of one frame comes near it."""


def best_codewords(softs: NDArray[Any], zero_ends: bool) -> tuple[NDArray[Any], NDArray[Any], NDArray[Any]]:
    """Returns the best codeword of each row of soft values, two for each bit: scores, start states, and bits, a row for
    each.

    The step into a state comes from one of two states, which differ in the bit that has just left. Codewords that meet
    there differ last in that bit, so 0 is taken on a tie.
    """
    spans, steps = len(softs), softs.shape[1] // 2
    scores = np.zeros((spans, 256), np.int64)
    if zero_ends:
        scores[:, 1:] = NEVER
    left_one = np.empty((steps, spans, 256), bool)
    for step in range(steps):
        branch = softs[:, 2 * step, None] * BRANCH_SIGNS[0] + softs[:, 2 * step + 1, None] * BRANCH_SIGNS[1]
        zero = np.repeat(scores[:, :128], 2, axis=1) + branch
        one = np.repeat(scores[:, 128:], 2, axis=1) - branch
        left_one[step] = one > zero
        scores = np.maximum(zero, one)
    rows = np.arange(spans)
    best = scores.max(axis=1)
    ends = np.where(scores == best[:, None], REVERSED, 256).argmin(axis=1)
    state = np.zeros(spans, int) if zero_ends else ends
    total = scores[rows, state]
    bits = np.empty((spans, steps), int)
    for step in reversed(range(steps)):
        bits[:, step] = state & 1
        state = state >> 1 | left_one[step, rows, state] << 7
    return total, state, bits
