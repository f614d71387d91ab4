"""The first `count` codewords, and frames taken from such lists (docs/FORMATS.md, `list`)."""

from typing import Any

import numpy as np
from numpy.typing import NDArray

from cdma_model.bits import Bits
from cdma_model.coding import BRANCH_SIGNS, NEVER, RATE_SET_1, REVERSED, Rate
from cdma_model.frames import Decoded, chosen, rate_softs, without


def first_codewords(count: int, softs: NDArray[Any], zero_ends: bool) -> list[tuple[int, Bits]]:
    """Returns the first codewords of soft values, two for each bit, in the order of codewords: scores, and bits.

    The first `count` codewords of each state are kept. On a tie those of the previous state whose leaving bit is 0 come
    first, so a stable sort by score merges the two lists in the order of codewords.
    """
    steps = len(softs) // 2
    scores = np.full((256, count), NEVER)
    scores[: 1 if zero_ends else 256, 0] = 0
    taken = np.empty((steps, 256, count), int)
    for step in range(steps):
        branch = (softs[2 * step] * BRANCH_SIGNS[0] + softs[2 * step + 1] * BRANCH_SIGNS[1])[:, None]
        both = np.hstack([np.repeat(scores[:128], 2, axis=0) + branch, np.repeat(scores[128:], 2, axis=0) - branch])
        taken[step] = np.argsort(-both, axis=1, kind="stable")[:, :count]
        scores = np.take_along_axis(both, taken[step], axis=1)
    ends = [0] if zero_ends else sorted(range(256), key=lambda state: REVERSED[state])
    first = sorted(((state, rank) for state in ends for rank in range(count)), key=lambda end: -scores[end])[:count]
    return [(int(scores[end]), bits_back(taken, *end)) for end in first]


def bits_back(taken: NDArray[Any], state: int, rank: int) -> Bits:
    """The bits of the codeword of a rank in a last state, by which codeword each step took: of either state before."""
    bits = []
    for step in reversed(range(len(taken))):
        bits.append(state & 1)
        left_one, rank = divmod(int(taken[step, state, rank]), taken.shape[2])
        state = state >> 1 | left_one << 7
    return bits[::-1]


def listed_codewords(count: int, rate: Rate, softs: NDArray[Any]) -> list[tuple[int, Bits]]:
    """Returns the codewords of a rate that are tried: `count` if it has a quality indicator, otherwise the best one."""
    return first_codewords(count if rate.check else 1, rate_softs(rate, softs), zero_ends=True)


def listed_frame(count: int, softs: NDArray[Any], places: NDArray[Any]) -> Decoded:
    """Returns the frame of rate set 1 of descrambled soft values, by `count` codewords of each rate."""
    kept = without(softs, places)
    return chosen(RATE_SET_1, [listed_codewords(count, rate, kept) for rate in RATE_SET_1])
