"""The union bound on frame errors: the distances of a frame's words, and the probability that noise takes one for
another.

The code has rate 1/2, constraint length 9 and the generators 753 and 561, octal (7.1.3.1.3.1). A receiver that takes
the best word errs only if a word fits better whose path leaves the right one once and returns to it once: if a word
differs in several stretches, the word that differs in only one of them also fits better. The code is linear, so the
right word may be that of zeros.
"""

import dataclasses
import functools
import math

import numpy
from numpy.typing import NDArray
from scipy.special import betainc, ndtr

GENERATORS = (0o753, 0o561)
MEMORY = 8
STATES = 1 << MEMORY
SYMBOLS = 384
LEFT = numpy.arange(SYMBOLS + 1)
# Powers of a fade over which a mean is taken.
FADES = 2_000
SYMBOL_RATE = 19_200
# Of the 24 symbols of a group 2 carry the power control bit (7.1.3.1.7).
KEPT = 22 / 24
# Of six repeated symbols of rate set 2, those that are sent (docs/LINK.md, "Rate set 2").
SENT_OF_SIX = (0, 1, 3, 5)


@dataclasses.dataclass(frozen=True)
class Form:
    """A frame: its bits before the tail (information and quality), how often each code symbol is repeated, its set."""

    bits: int
    repeats: int
    rate_set: int


# docs/LINK.md, "Channels and their frames" and "Rate set 2".
FORMS = {
    9_600: Form(184, 1, 1),
    4_800: Form(88, 2, 1),
    2_400: Form(40, 4, 1),
    1_200: Form(16, 8, 1),
    14_400: Form(280, 1, 2),
    7_200: Form(136, 2, 2),
    3_600: Form(64, 4, 2),
    1_800: Form(28, 8, 2),
}


def times_sent(form: Form) -> NDArray[numpy.int64]:
    """Returns how often each code symbol is sent in a frame: a row of two for each bit, including the tail's bits."""
    steps = form.bits + MEMORY
    repeated = numpy.arange(2 * steps * form.repeats)
    if form.rate_set == 2:
        repeated = repeated[numpy.isin(repeated % 6, SENT_OF_SIX)]
    return numpy.bincount(repeated // form.repeats, minlength=2 * steps).reshape(steps, 2)


def branches() -> list[tuple[int, NDArray[numpy.int64], NDArray[numpy.int64]]]:
    """The code's steps, parted so that no two of a part meet: the bit, the states before, the code symbols after.

    A state's bit 7 is the newest bit; bit 8 of a window is the bit that comes in. The symbols are a row of two a state.
    """
    parts = []
    for bit in (0, 1):
        for oldest in (0, 1):
            states = numpy.arange(oldest, STATES, 2)
            windows = bit << MEMORY | states
            symbols = [[(int(window) & taps).bit_count() & 1 for taps in GENERATORS] for window in windows]
            parts.append((bit, states, numpy.array(symbols)))
    return parts


def words_by_weight(
    sent: NDArray[numpy.int64], free: int, starts: int, most: int
) -> NDArray[numpy.float64]:
    """Returns the number of words of each weight 0 to `most` that leave the word of zeros once and return to it once.

    `sent` says how often each step's two symbols are sent, which is the weight of a symbol of 1. The first `free` steps
    have bits, the others zeros. Words leave in the first `starts` steps, and return before the end.
    """
    parts, counts, back = branches(), numpy.zeros((STATES, most + 1)), numpy.zeros(most + 1)
    for step, weights in enumerate(sent):
        after = numpy.zeros_like(counts)
        for bit, states, symbols in parts:
            if bit and step >= free:
                continue
            for weight in numpy.unique(symbols @ weights):
                if weight <= most:
                    chosen = states[symbols @ weights == weight]
                    after[(bit << MEMORY | chosen) >> 1, weight:] += counts[chosen, : most + 1 - weight]
        if step < min(free, starts) and sum(weights) <= most:
            after[STATES >> 1, sum(weights)] += 1
        back += after[0]
        after[0] = 0
        counts = after
    return back


def code_weights(most: int) -> NDArray[numpy.float64]:
    """Returns for the code itself the number of words of each weight up to `most` that leave at one step.

    Sixteen steps for each unit of weight are more than a word of that weight takes: the code isn't catastrophic, and
    its words gain weight faster.
    """
    steps = 16 * most
    return words_by_weight(numpy.ones((steps, 2), dtype=numpy.int64), steps, 1, most)


@functools.cache
def frame_weights(rate: int) -> NDArray[numpy.float64]:
    """Returns the number of words of each weight, 0 to 384 sent symbols, in a frame of a rate."""
    form = FORMS[rate]
    return words_by_weight(times_sent(form), form.bits, form.bits, SYMBOLS)


def symbol_ratio(rate: int, ratio: float) -> float:
    """Es/Nt of a sent symbol, of an Eb/Nt: the channel's energy is that of its bits and of its power control bits."""
    return ratio * rate / SYMBOL_RATE / KEPT


@functools.cache
def weights_left(rate: int) -> NDArray[numpy.float64]:
    """Returns the mean number of words of a frame of a rate that have 0 to 384 symbols left.

    Each sent symbol is taken to be lost to a power control bit with probability 1 in 12, independently. So k of a
    word's w symbols are left with the binomial probability.
    """
    from scipy.stats import binom  # takes more than half a second to load, and only this needs it

    words = frame_weights(rate)
    weights = numpy.flatnonzero(words)
    return numpy.asarray(words[weights] @ binom.pmf(LEFT[None, :], weights[:, None], KEPT))


def frame_bound(rate: int, ratio: float) -> float:
    """Returns the union bound on the share of frames in error at an Eb/Nt (a ratio) if the pilot is known; at most 1.

    A word with k symbols left is taken with probability Q(sqrt(2 k Es/Nt)).
    """
    taken = ndtr(-numpy.sqrt(2 * LEFT * symbol_ratio(rate, ratio)))
    return float(min(1.0, weights_left(rate) @ taken))


def combined_bound(rate: int, ratio: float) -> float:
    """Returns the union bound of ideal maximum-ratio combining if each symbol has a Rayleigh fade of its own; at most
    1.

    A word with k symbols left is then taken with the error probability of k branches of equal mean (J. G. Proakis,
    Digital Communications, 4th edition, 14.4-15): p^k times the sum over j below k of C(k - 1 + j, j) (1 - p)^j. This
    is the incomplete beta function I_p(k, k), with p = (1 - sqrt(g / (1 + g))) / 2 and g the mean Es/Nt.
    """
    mean = symbol_ratio(rate, ratio)
    one = (1 - math.sqrt(mean / (1 + mean))) / 2
    taken = numpy.concatenate([[0.5], betainc(LEFT[1:], LEFT[1:], one)])
    return float(min(1.0, weights_left(rate) @ taken))


def slow_bound(rate: int, ratio: float) -> float:
    """The mean of the union bound, at most 1 each, over the powers of a Rayleigh fade that lasts for a whole frame.

    The powers are those in the middle of FADES parts of equal chance (limited before it is averaged: E. Malkamäki and
    H. Leib, IEEE Transactions on Information Theory 45(5), 1999).
    """
    powers = -numpy.log((numpy.arange(FADES) + 0.5) / FADES)
    taken = ndtr(-numpy.sqrt(2 * LEFT[None, :] * symbol_ratio(rate, ratio) * powers[:, None]))
    return float(numpy.minimum(1.0, taken @ weights_left(rate)).mean())
