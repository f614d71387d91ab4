"""Frames: the soft values of fingers, spans of frames decoded as one codeword, and frames of traffic channels."""

from typing import Any, Callable, Iterator, NamedTuple

import numpy as np
from numpy.typing import NDArray

from cdma_model.bits import Bits
from cdma_model.codes import WALSH, despread
from cdma_model.coding import Rate, best_codewords, gathered, is_right
from cdma_model.files import Capture


class Form(NamedTuple):
    """The shape of a channel's frames: chips of a symbol, chips of a pilot sum, symbols."""

    symbol: int
    window: int
    symbols: int

    def chips(self) -> int:
        """Chips of a frame."""
        return self.symbol * self.symbols


SYNC_FORM = Form(256, 1_024, 128)
DATA_FORM = Form(64, 1_536, 384)


class Finger(NamedTuple):
    """A path of one base station: the code phase of sample 0, the number of chips by which its samples precede the
    reference's, and a Walsh row."""

    phase: int
    delta: int
    row: int


# ---- soft values (own)


def finger_sums(capture: Capture, finger: Finger, form: Form, start: int) -> tuple[NDArray[Any], NDArray[Any]]:
    """The pilot sum and the symbol sum of each symbol of the frame that begins at a reference sample."""
    begin = start - finger.delta
    chips = despread(capture.samples[begin : begin + form.chips()], finger.phase + begin)
    pilots = np.repeat(chips.reshape(-1, form.window).sum(axis=1), form.window // form.symbol)
    return pilots, (chips.reshape(-1, 64) * WALSH[finger.row]).reshape(form.symbols, -1).sum(axis=1)


def soft_values(capture: Capture, fingers: list[Finger], form: Form, start: int) -> NDArray[Any]:
    """The soft value of each symbol: the real part of each finger's conjugate pilot sum times its symbol sum, added up."""
    total = np.zeros(form.symbols, np.int64)
    for finger in fingers:
        pilots, sums = finger_sums(capture, finger, form, start)
        total += (pilots.conj() * sums).real.astype(np.int64)
    return total


def is_inside(count: int, fingers: list[Finger], form: Form, start: int) -> bool:
    """Whether all samples of a frame lie among the first `count`, for every finger."""
    return all(0 <= start - finger.delta <= count - form.chips() for finger in fingers)


def end_of(fingers: list[Finger], form: Form, start: int) -> int:
    """The number of samples by which every finger has read the frame."""
    return start + form.chips() - min(finger.delta for finger in fingers)


# ---- frames whose encoder continues: the sync and the paging channel


class Stream(NamedTuple):
    """Such a channel: fingers, form, the reference sample of frame 0, bits of a frame, and its code symbols in the sent
    order. `turning` gives the scrambling bits of frame k; None turns nothing."""

    fingers: list[Finger]
    form: Form
    first: int
    bits: int
    order: NDArray[Any]
    turning: Callable[[int], NDArray[Any]] | None = None

    def start(self, index: int) -> int:
        """The reference sample at which a frame begins."""
        return self.first + self.form.chips() * index

    def is_inside(self, count: int, index: int) -> bool:
        """Whether the frame exists, and all of it lies among the first `count` samples."""
        return index >= 0 and is_inside(count, self.fingers, self.form, self.start(index))

    def end(self, index: int) -> int:
        """The number of samples by which a frame is read."""
        return end_of(self.fingers, self.form, self.start(index))

    def code_softs(self, capture: Capture, index: int) -> NDArray[Any]:
        """The soft values of a frame's code symbols, turned back by the scrambling bits."""
        softs = soft_values(capture, self.fingers, self.form, self.start(index))
        turned = softs if self.turning is None else np.where(self.turning(index), -softs, softs)
        return gathered(self.order, turned, 2 * self.bits)


def span_of(stream: Stream, count: int, index: int) -> list[int]:
    """Returns the frames with which one is decoded: it and its neighbors that lie in the file."""
    return [other for other in (index - 1, index, index + 1) if other == index or stream.is_inside(count, other)]


def decoded_spans(stream: Stream, softs: dict[int, NDArray[Any]], spans: dict[int, list[int]]) -> dict[int, Bits]:
    """Returns for each frame its own bits in the best codeword of its span, by the soft values of all frames' code
    symbols."""
    found = {}
    for length in {len(span) for span in spans.values()}:
        alike = {index: span for index, span in spans.items() if len(span) == length}
        rows = np.array([np.concatenate([softs[frame] for frame in span]) for span in alike.values()])
        _, _, codewords = best_codewords(rows, zero_ends=False)
        for (index, span), codeword in zip(alike.items(), codewords):
            own = stream.bits * span.index(index)
            found[index] = codeword[own : own + stream.bits].tolist()
    return found


def stream_frames(capture: Capture, stream: Stream, taken: int) -> Iterator[tuple[int, int, Bits]]:
    """Yields each frame known within `taken` samples: its number, the samples at which it is known, its bits."""
    spans, softs = {}, {}
    index = 0
    while stream.start(index) < taken + stream.form.chips():
        if stream.is_inside(capture.count, index):
            span = span_of(stream, capture.count, index)
            if stream.end(span[-1]) <= taken:
                spans[index] = span
                for frame in span:
                    if frame not in softs:
                        softs[frame] = stream.code_softs(capture, frame)
        index += 1
    bits = decoded_spans(stream, softs, spans)
    for index, span in spans.items():
        yield index, stream.end(span[-1]), bits[index]


# ---- frames of traffic channels, each a codeword by itself


class Decoded(NamedTuple):
    """A traffic frame: its rate, whether it is good, its information bits, and its score."""

    speed: int
    good: bool
    bits: Bits
    score: int


def without(softs: NDArray[Any], places: NDArray[Any]) -> NDArray[Any]:
    """Soft values, those of the symbols that power control bits replace being 0."""
    kept = softs.copy()
    kept[places] = 0
    return kept


def rate_softs(rate: Rate, softs: NDArray[Any]) -> NDArray[Any]:
    """The soft values of a rate's code symbols."""
    return gathered(rate.order, softs, 2 * rate.bits())


def best_at(rate: Rate, softs: NDArray[Any]) -> tuple[int, Bits]:
    """The best codeword of a rate between eight zeros and eight zeros: its score, and all its bits."""
    scores, _, codewords = best_codewords(rate_softs(rate, softs)[None, :], zero_ends=True)
    return int(scores[0]), codewords[0].tolist()


def chosen(rates: tuple[Rate, ...], codewords: list[list[tuple[int, Bits]]]) -> Decoded:
    """Returns the frame that each rate's codewords, best first, make.

    The first codeword of each rate whose quality indicator is right is a candidate. The one with the greatest score is
    the frame, on a tie the higher rate, and it is good if its score is above 0. Otherwise the frame is the first rate's
    best codeword.
    """
    candidates = []
    for rate, listed in zip(rates, codewords):
        right = [codeword for codeword in listed if is_right(rate, codeword[1])]
        candidates += [Decoded(rate.speed, True, bits[: rate.information], score) for score, bits in right[:1]]
    best = max(candidates, key=lambda candidate: candidate.score, default=None)
    if best and best.score > 0:
        return best
    score, bits = codewords[0][0]
    return Decoded(rates[0].speed, False, bits[: rates[0].information], score)


def traffic_frame(rates: tuple[Rate, ...], softs: NDArray[Any], places: NDArray[Any]) -> Decoded:
    """Returns the frame of descrambled soft values, by the best codeword of each rate."""
    kept = without(softs, places)
    return chosen(rates, [[best_at(rate, kept)] for rate in rates])


def commands(softs: list[NDArray[Any]], places: NDArray[Any]) -> str:
    """Returns the sixteen power control bits of a frame, by the raw soft values of each subchannel: 0, which raises the
    power, if each subchannel's two symbols sum up above 0 (7.1.3.1.10)."""
    raised = np.all([values[places].reshape(16, 2).sum(axis=1) > 0 for values in softs], axis=0)
    return "".join("0" if up else "1" for up in raised)
