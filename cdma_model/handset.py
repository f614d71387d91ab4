"""What a handset receives: the mark, the channels after it, and the events in their order (own)."""

from typing import Any, Callable, Iterator, NamedTuple

import numpy as np
from numpy.typing import NDArray

from cdma_model.bits import Bits
from cdma_model.cell import AHEAD, FRAME, GROUP, OFFSET_STEP, SLOT, SUPERFRAME_BITS, power_places
from cdma_model.codes import PERIOD, paging_mask, scrambling_bits, state_after, traffic_mask
from cdma_model.coding import MESSAGE_16, PAGING_ORDERS, RATE_SET_1, SYNC_ORDER
from cdma_model.files import Capture
from cdma_model.frames import (
    DATA_FORM,
    SYNC_FORM,
    Decoded,
    Finger,
    Stream,
    commands,
    end_of,
    is_inside,
    soft_values,
    stream_frames,
    traffic_frame,
)
from cdma_model.lines import frame_line, paging_line, raw_line, sets_line, sync_line, traffic_line
from cdma_model.messages import (
    Message,
    body_of,
    paging_message,
    signalling_part,
    sync_message,
    take_half_frame,
    take_piece,
    traffic_message,
)
from cdma_model.script import SYNC_ROW
from cdma_model.search import MEASURED, Found, power, strength
from cdma_model.sets import Active, Sets, hand_off, hear, move

PAGING_FRAME_BITS = {0: 192, 1: 96}
"""Bits of a paging frame, by PRAT."""

SYNC_RANK, PAGING_RANK, FRAME_RANK, TRAFFIC_RANK, SETS_RANK = range(5)
"""The order of events at one number of samples."""


class Event(NamedTuple):
    """An event at a number of samples: its rank, the tap that takes it, its line, and its message and capsule."""

    at: int
    rank: int
    tap: str
    line: str
    message: Message
    raw: str = ""


class Mark(NamedTuple):
    """The reference sample at which a sync message's system time and state of the long code hold."""

    sample: int
    time: int
    lc: int
    pn: int
    prat: int


class Assigned(NamedTuple):
    """A traffic channel that is assigned to a handset."""

    serial: int
    row: int
    offset: int


def reference_fingers(found: Found, row: int) -> list[Finger]:
    """The fingers of the reference base station, on a row."""
    return [Finger((found.phase + delta) % PERIOD, delta, row) for delta in found.deltas]


# ---- the sync channel and the mark


def sync_stream(found: Found) -> Stream:
    """Returns the sync channel: its frames begin where the reference path's code does."""
    return Stream(reference_fingers(found, SYNC_ROW), SYNC_FORM, -found.phase % PERIOD, 32, SYNC_ORDER)


def hear_sync(capture: Capture, found: Found, taken: int) -> tuple[list[Event], Mark | None]:
    """Returns the sync messages within `taken` samples, and the mark that the first with a state of the long code sets.
    """
    events, mark, held, began = [], None, None, 0
    stream = sync_stream(found)
    for index, known, bits in stream_frames(capture, stream, taken):
        began = index if bits[0] else began
        held, capsule = take_piece(held, bits)
        body = body_of(capsule, capture.complement_30) if capsule else None
        message = sync_message(body) if body is not None else None
        if message is None or capsule is None:
            continue
        events.append(Event(known, SYNC_RANK, "messages", sync_line(known, message), message,
                            raw_line(known, "sync", capsule)))  # fmt: skip
        if mark is None and message["lc"]:
            superframes = -(-len(capsule) // SUPERFRAME_BITS) + AHEAD
            sample = stream.start(began) + SLOT * superframes - OFFSET_STEP * message["pn"]
            mark = Mark(sample, *(message[name] for name in ("time", "lc", "pn", "prat")))
    return events, mark


# ---- a paging channel


def paging_stream(found: Found, mark: Mark, channel: int) -> Stream:
    """Returns a paging channel from the mark on, whose rate is that of the mark's PRAT."""
    bits, mask = PAGING_FRAME_BITS[mark.prat], paging_mask(channel, mark.pn)
    return Stream(reference_fingers(found, channel), DATA_FORM, mark.sample, bits, PAGING_ORDERS[bits],
                  lambda index: scrambling_bits(state_after(mark.lc, FRAME * index), mask))  # fmt: skip


def half_frames(bits: Bits) -> tuple[Bits, Bits]:
    """The two half-frames of a paging frame."""
    return bits[: len(bits) // 2], bits[len(bits) // 2 :]


def paging_messages(frames: list[Bits], complemented: bool) -> Iterator[tuple[int, Message, Bits]]:
    """The messages in frames of a paging channel: the frame in which each ends, the message, and its capsule."""
    held = None
    for index, bits in enumerate(frames):
        for half in half_frames(bits):
            held, capsules = take_half_frame(held, half)
            for capsule in capsules:
                body = body_of(capsule, complemented)
                message = paging_message(body) if body is not None else None
                if message is not None:
                    yield index, message, capsule


def hear_paging(capture: Capture, found: Found, mark: Mark, channel: int, taken: int) -> Iterator[Event]:
    """Yields the messages of a paging channel within `taken` samples; none if the mark's PRAT has no rate."""
    if mark.prat not in PAGING_FRAME_BITS:
        return
    frames = list(stream_frames(capture, paging_stream(found, mark, channel), taken))
    for index, message, capsule in paging_messages([bits for _, _, bits in frames], capture.complement_30):
        at = frames[index][1]
        yield Event(at, PAGING_RANK, "messages", paging_line(at, message), message, raw_line(at, "paging", capsule))


# ---- a traffic channel, and the pilot sets


class Clock(NamedTuple):
    """A frame of a traffic channel: the reference sample at which it begins, its scrambling bits, and the symbols that
    power control bits replace."""

    start: int
    scrambling: NDArray[Any]
    places: NDArray[Any]


def frame_clock(mark: Mark, assigned: Assigned, index: int) -> Clock:
    """Frame `index` of a traffic channel, counted from the mark on."""
    chips = GROUP * assigned.offset + FRAME * index
    state, mask = state_after(mark.lc, chips), traffic_mask(assigned.serial)
    scrambling = scrambling_bits(state, mask)
    return Clock(mark.sample + chips, scrambling, power_places(state, mask, scrambling))


Decode = Callable[[NDArray[Any], NDArray[Any]], Decoded]
"""What a frame is by its turned soft values and the places of its power control bits."""


def reference_frames(
    capture: Capture, found: Found, mark: Mark, assigned: Assigned, taken: int, decode: Decode, name: str
) -> Iterator[str]:
    """Yields the lines of the frames of a traffic channel received only from the reference base station."""
    fingers = reference_fingers(found, assigned.row)
    index = 0
    while mark.sample + GROUP * assigned.offset + FRAME * index < taken:
        clock = frame_clock(mark, assigned, index)
        at = end_of(fingers, DATA_FORM, clock.start)
        if is_inside(capture.count, fingers, DATA_FORM, clock.start) and at <= taken:
            softs = soft_values(capture, fingers, DATA_FORM, clock.start)
            frame = decode(np.where(clock.scrambling, -softs, softs), clock.places)
            yield frame_line(name, at, frame, commands([softs], clock.places))
        index += 1


def active_fingers(found: Found, mark: Mark, sets: Sets, deltas: dict[int, int]) -> dict[int, list[Finger]]:
    """The fingers of the active pilots, by their power control subchannel: the reference's, and one of each other one."""
    fingers: dict[int, list[Finger]] = {}
    for active in sets.active:
        delta = deltas.get(active.pilot, 0)
        own = [Finger((delta - OFFSET_STEP * active.pilot - mark.sample) % PERIOD, delta, active.row)]
        if active.pilot == mark.pn:
            own = reference_fingers(found, active.row)
        fingers.setdefault(active.subchannel, []).extend(own)
    return fingers


def hear_frame(
    capture: Capture, clock: Clock, fingers: dict[int, list[Finger]], taken: int
) -> tuple[int, Decoded, str] | None:
    """Returns a frame from fingers: the samples at which it ends, the frame, its power control bits; None if it isn't
    inside."""
    every = [finger for own in fingers.values() for finger in own]
    at = end_of(every, DATA_FORM, clock.start)
    if not is_inside(capture.count, every, DATA_FORM, clock.start) or at > taken:
        return None
    softs = [soft_values(capture, own, DATA_FORM, clock.start) for own in fingers.values()]
    total = np.sum(softs, axis=0)
    frame = traffic_frame(RATE_SET_1, np.where(clock.scrambling, -total, total), clock.places)
    return at, frame, commands(softs, clock.places)


def traffic_event(capture: Capture, at: int, capsule: Bits | None) -> Iterator[Event]:
    """Yields the message of a capsule that ended with a frame, if it decodes."""
    body = body_of(capsule, capture.complement_16, MESSAGE_16) if capsule else None
    message = traffic_message(body) if body is not None else None
    if message is not None and capsule is not None:
        yield Event(at, TRAFFIC_RANK, "messages", traffic_line(at, message), message, raw_line(at, "traffic", capsule))


def hear_traffic(
    capture: Capture, found: Found, mark: Mark, assigned: Assigned, pages: list[Event], taken: int
) -> Iterator[Event]:
    """The frames and messages of a traffic channel and the moments of the pilot sets, moment by moment."""
    sets = Sets([Active(mark.pn, assigned.row, 0)])
    deltas: dict[int, int] = {}
    unheard = [page for page in pages if page.message.get("pn") == mark.pn]
    held, index, moment = None, 0, 0
    while mark.sample + SLOT * moment <= taken:
        while GROUP * assigned.offset + FRAME * index < SLOT * (moment + 1):
            fingers = active_fingers(found, mark, sets, deltas)
            heard = hear_frame(capture, frame_clock(mark, assigned, index), fingers, taken)
            index += 1
            if heard is None:
                continue
            at, frame, told = heard
            kept = {"good": frame.good, "index": index - 1, "fingers": fingers}
            yield Event(at, FRAME_RANK, "frames", frame_line("frame", at, frame, told), kept)
            part = signalling_part(frame.speed, frame.bits) if frame.good else None
            if part:
                held, capsule = take_piece(held, part)
                for event in traffic_event(capture, at, capsule):
                    yield event
                    unheard.append(event)
        moment += 1
        at = mark.sample + SLOT * moment
        if at > taken:
            return
        for event in sorted((event for event in unheard if event.at <= at), key=lambda event: event[:2]):
            hear(sets, event.message, mark.time + max(1, -(-(event.at - mark.sample) // SLOT)))
        unheard = [event for event in unheard if event.at > at]
        yield from moment_event(capture, mark, sets, deltas, moment)


def moment_event(capture: Capture, mark: Mark, sets: Sets, deltas: dict[int, int], moment: int) -> Iterator[Event]:
    """Moves the sets at a moment; yields an event if a report is due or a list changed."""
    at, time = mark.sample + SLOT * moment, mark.time + moment
    before, neighbors = sets.shown(), list(sets.neighbors)
    hand_off(sets, time)
    samples = capture.samples[at - MEASURED : at]
    energies = {}
    for pilot in sets.pilots():
        phase = SLOT * moment - MEASURED - OFFSET_STEP * pilot
        energies[pilot], deltas[pilot] = strength(samples, phase, sets.window(pilot))
    report = move(sets, energies, power(samples), time, neighbors)
    if report or sets.shown() != before:
        yield Event(at, SETS_RANK, "pilots", sets_line(at, time, sets.shown(), report), {})


# ---- all of it


def follow(
    capture: Capture, found: Found, channel: int, assigned: Assigned | None, taken: int
) -> tuple[list[Event], Mark | None]:
    """Returns all events within `taken` samples after the pilot's, in their order, and the mark."""
    events, mark = hear_sync(capture, found, taken)
    if mark:
        pages = list(hear_paging(capture, found, mark, channel, taken))
        traffic = list(hear_traffic(capture, found, mark, assigned, pages, taken)) if assigned else []
        events = events + pages + traffic
    return sorted(events, key=lambda event: event[:2]), mark


def told(events: list[Event], limits: dict[str, int]) -> Iterator[str]:
    """Yields the lines of events, up to the limits of their taps: `pilots`, `messages`, `frames` and `raw`."""
    left = dict(limits)
    for event in events:
        for tap, line in ((event.tap, event.line), ("raw", event.raw)):
            if line and left[tap]:
                left[tap] -= 1
                yield line
