"""What a cell sends: the symbols of its channels, and its samples chip by chip (7.1.3.1, 7.7.1)."""

from functools import cache
from typing import Any, Callable, Iterator, NamedTuple

import numpy as np
from numpy.typing import NDArray

from cdma_model.bits import Bits, number
from cdma_model.codes import WALSH, paging_mask, points, scrambling_bits, state_after, state_before, traffic_mask
from cdma_model.coding import PAGING_ORDERS, SYNC_ORDER, code_symbols, frame_bits
from cdma_model.messages import capsule_of, sync_body
from cdma_model.script import BODY_BITS, PILOT_ROW, SYNC_ROW, Cell, Paging, Traffic

SLOT = 98_304
"""Chips of 80 ms: a superframe of the sync channel, and the unit of the system time."""

OFFSET_STEP = 64
"""Chips between the pilots of neighboring offsets."""

SYNC_FRAME = 32_768
FRAME = 24_576
"""Chips of a frame of the paging and traffic channels: 20 ms."""

GROUP = 1_536
"""Chips of a power control group, 1.25 ms: 24 symbols."""

SUPERFRAME_BITS = 93
"""Body bits of a superframe: three frames of 31."""

AHEAD = 4
"""Superframes from the last one of a sending to the time that its message tells."""

BLOCK = 64
"""Chips of a Walsh row; no symbol is shorter."""

PIECE_BLOCKS = 16_384
"""Blocks whose samples are made at once."""


class Channel(NamedTuple):
    """A channel: gain, row, the local chip at which frame 0 begins, chips of a frame, and the symbols of frame k."""

    gain: int
    row: int
    first: int
    frame: int
    symbols: Callable[[int], NDArray[Any]]


def power_places(state: int, mask: int, scrambling: NDArray[Any]) -> NDArray[Any]:
    """Returns the 32 symbols of the frame that begins at a state that its power control bits replace, two each
    (7.1.3.1.7)."""
    before = scrambling_bits(state_before(state, GROUP), mask, 24)
    groups = np.concatenate([before, scrambling]).reshape(17, 24)[:16]
    starts = 24 * np.arange(16) + groups[:, 20:] @ [1, 2, 4, 8]
    return np.stack([starts, starts + 1], axis=1).ravel()


def continued_symbols(bits_of: Callable[[int], Bits], frame: int) -> NDArray[Any]:
    """The code symbols of a frame whose encoder continues from the frame before, and starts with zeros."""
    start = number(bits_of(frame - 1)[-8:]) if frame else 0
    return code_symbols(start, bits_of(frame))


def pilot_channel(cell: Cell) -> Channel:
    """The pilot: zeros from local chip 0 on."""
    return Channel(cell.pilot_gain, PILOT_ROW, 0, BLOCK, lambda block: np.zeros(1, int))


def sync_channel(cell: Cell) -> Channel:
    """The sync channel: one message again and again (7.7.1.3)."""
    complemented = bool(cell.checks & 1)
    length = len(capsule_of(sync_body(cell.sync | {"pn": 0, "time": 0, "lc": 0}), complemented))
    superframes = -(-length // SUPERFRAME_BITS)

    @cache
    def sending(index: int) -> Bits:
        """The body bits of a sending: its capsule, and zeros up to the end of its last superframe."""
        slots = (index + 1) * superframes + AHEAD
        told = {"pn": cell.pn, "time": cell.time + slots, "lc": state_after(cell.lc, SLOT * slots)}
        capsule = capsule_of(sync_body(cell.sync | told), complemented)
        return capsule + [0] * (SUPERFRAME_BITS * superframes - length)

    def bits_of(frame: int) -> Bits:
        index, place = divmod(frame, 3 * superframes)
        return [int(place == 0)] + sending(index)[31 * place : 31 * place + 31]

    return Channel(cell.sync_gain, SYNC_ROW, OFFSET_STEP * cell.pn, SYNC_FRAME,
                   lambda frame: continued_symbols(bits_of, frame)[SYNC_ORDER])  # fmt: skip


def page_cycle(channel: Paging, size: int, complemented: bool) -> Bits:
    """Returns the half-frames of a cycle of pages, with `size` body bits each after the SCI bit (7.7.2.1)."""
    body: Bits = []
    begun = set()
    for follows, page in channel.pages:
        if not follows:
            body += [0] * (-len(body) % size)
            begun.add(len(body))
        body += capsule_of(page, complemented)
    body += [0] * (-len(body) % size)
    return [bit for at in range(0, len(body), size) for bit in [int(at in begun)] + body[at : at + size]]


def paging_channel(cell: Cell, channel: Paging) -> Channel:
    """A paging channel: a cycle of pages again and again."""
    size = BODY_BITS[cell.sync["prat"]]
    cycle = page_cycle(channel, size, bool(cell.checks & 1))
    frame_size = 2 * (size + 1)
    mask = paging_mask(channel.channel, cell.pn)

    def bits_of(frame: int) -> Bits:
        return [cycle[place % len(cycle)] for place in range(frame_size * frame, frame_size * (frame + 1))]

    def symbols(frame: int) -> NDArray[Any]:
        sent = continued_symbols(bits_of, frame)[PAGING_ORDERS[frame_size]]
        return sent ^ scrambling_bits(state_after(cell.lc, FRAME * frame), mask)

    return Channel(channel.gain, channel.channel, 0, FRAME, symbols)


def traffic_channel(cell: Cell, channel: Traffic) -> Channel:
    """A traffic channel: a cycle of frames again and again, each encoded by itself (7.1.3.5)."""
    mask, first = traffic_mask(channel.serial), GROUP * channel.offset

    def symbols(index: int) -> NDArray[Any]:
        frame = channel.frames[index % len(channel.frames)]
        state = state_after(cell.lc, first + FRAME * index)
        scrambling = scrambling_bits(state, mask)
        sent = code_symbols(0, frame_bits(frame.rate, frame.information))[frame.rate.order] ^ scrambling
        sent[power_places(state, mask, scrambling)] = np.repeat(frame.commands, 2)
        return sent

    return Channel(channel.gain, channel.row, first, FRAME, symbols)


def channels(cell: Cell) -> list[Channel]:
    """All channels of a cell."""
    return [
        pilot_channel(cell),
        *([sync_channel(cell)] if cell.sync else []),
        *(paging_channel(cell, channel) for channel in cell.paging),
        *(traffic_channel(cell, channel) for channel in cell.traffic),
    ]


def levels(channel: Channel, begin: int, end: int) -> NDArray[Any]:
    """Returns what a channel sends, without its row, in the blocks of 64 chips from `begin` to before `end`."""
    found = np.zeros(end - begin, int)
    if channel.row == PILOT_ROW:
        return found + channel.gain
    first, length = channel.first // BLOCK, channel.frame // BLOCK
    for frame in range(max(0, (begin - first) // length), max(0, -(-(end - first) // length))):
        symbols = channel.symbols(frame)
        at = first + length * frame
        sent = np.repeat(channel.gain * (1 - 2 * symbols), length // len(symbols))
        found[max(at, begin) - begin : max(0, at + length - begin)] = sent[max(begin - at, 0) : max(0, end - at)]
    return found


def samples(cell: Cell, only: set[int] | None = None) -> Iterator[NDArray[Any]]:
    """Yields the samples of a cell, or only what its channels on some rows add to them, piece by piece: whole complex
    numbers whose parts are at most 32,767."""
    sent = [channel for channel in channels(cell) if only is None or channel.row in only]
    rows = WALSH[[channel.row for channel in sent]]
    link = complex(cell.re, cell.im)
    last = cell.start + cell.samples
    for begin in range(cell.start // BLOCK, -(-last // BLOCK), PIECE_BLOCKS):
        end = min(begin + PIECE_BLOCKS, -(-last // BLOCK))
        sums = np.stack([levels(channel, begin, end) for channel in sent], axis=1) @ rows
        here = slice(max(cell.start, BLOCK * begin), min(last, BLOCK * end))
        chips = sums.ravel()[here.start - BLOCK * begin : here.stop - BLOCK * begin]
        yield chips * (link * points((here.start - OFFSET_STEP * cell.pn) % 32_768, len(chips)))
