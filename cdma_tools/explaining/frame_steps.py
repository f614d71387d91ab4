"""The steps from samples to the bits of one frame, each as values, by the model. `explain` shows them."""

from __future__ import annotations

from collections.abc import Iterator
from dataclasses import dataclass, field
from typing import Any

import numpy as np
from numpy.typing import NDArray

from cdma_model.bits import Bits, number
from cdma_model.coding import (
    MESSAGE_16,
    MESSAGE_30,
    RATE_SET_1,
    RATE_SET_2,
    TAIL,
    Rate,
    code_symbols,
    is_right,
    quality,
)
from cdma_model.files import Capture
from cdma_model.frames import DATA_FORM, Finger, Form, Stream
from cdma_model.frames import commands as power_commands
from cdma_model.frames import (
    decoded_spans,
    end_of,
    finger_sums,
    is_inside,
    rate_softs,
    soft_values,
    span_of,
    traffic_frame,
    without,
)
from cdma_model.handset import (
    Assigned,
    Mark,
    frame_clock,
    half_frames,
    hear_paging,
    hear_sync,
    hear_traffic,
    paging_stream,
    reference_fingers,
    sync_stream,
)
from cdma_model.lists import first_codewords
from cdma_model.messages import (
    FREQUENCY,
    HANDOFF_FIELDS,
    HEAD_FIELDS,
    IN_TRAFFIC_FIELDS,
    LENGTH,
    PRIMARY_BITS,
    SEARCH_FIELDS,
    SYNC_FIELDS,
    SYSTEM_FIELDS,
    body_of,
    paging_message,
    signalling_part,
    stated_length,
    sync_message,
    take_half_frame,
    take_piece,
    traffic_message,
)
from cdma_model.search import Found, search


TRAFFIC_ROWS = frozenset(range(1, 64)) - {32}  # Walsh rows that a traffic channel may have


class NoFrame(Exception):
    """Why a frame can't be shown, in words."""


@dataclass
class Path:
    """The sums of one finger: the pilot sum of each window, and each symbol's sum before and after it is turned."""

    finger: Finger
    pilots: NDArray[Any]
    sums: NDArray[Any]
    turned: NDArray[Any]


@dataclass
class Reading:
    """A way to read the frame: its name, soft values of the code symbols, the two best codewords, how often the best
    one's symbols are unlike the soft values, and its quality indicator as sent and as it should be."""

    name: str
    softs: NDArray[Any]
    codewords: list[tuple[int, Bits]]
    unlike: int
    sent: Bits = field(default_factory=list)
    right: Bits = field(default_factory=list)
    is_candidate: bool = True


@dataclass
class Part:
    """Some bits of the frame with their name; the value of a whole field, or a remark."""

    name: str
    bits: Bits
    value: str = ""
    remark: str = ""


@dataclass
class Steps:
    """All steps of a frame. Soft values are in the sent order, raw and descrambled."""

    title: str
    form: Form
    paths: list[Path]
    scrambling: NDArray[Any] | None
    replaced: NDArray[Any]
    heard: NDArray[Any]
    turned: NDArray[Any]
    readings: list[Reading]
    shown: int
    bits: Bits
    parts: list[Part]
    verdict: list[str]
    commands: str = ""


def paths_of(capture: Capture, fingers: list[Finger], form: Form, start: int) -> list[Path]:
    """Returns the sums of each finger over the frame that begins at a reference sample."""
    found = []
    for finger in fingers:
        pilots, sums = finger_sums(capture, finger, form, start)
        turned = pilots.conj() * sums / np.where(pilots == 0, 1, np.abs(pilots))
        found.append(Path(finger, pilots[:: form.window // form.symbol], sums, turned))
    return found


def unlike(softs: NDArray[Any], symbols: NDArray[Any]) -> int:
    """Returns the number of soft values with the sign of the other symbol."""
    return int(np.sum(softs * (1 - 2 * symbols) < 0))


# ---- the fields of capsules


def by_table(table: dict[str, int]) -> Iterator[tuple[str, int]]:
    """The names and widths of a table."""
    yield from table.items()


def sync_layout(body: Bits) -> Iterator[tuple[str, int]]:
    """The fields of a sync message after its type."""
    yield from by_table(SYNC_FIELDS)
    yield "freq", FREQUENCY


def paging_layout(body: Bits) -> Iterator[tuple[str, int]]:
    """The fields of a paging message after its type."""
    kind = number(body[:LENGTH])
    if kind == 1:
        yield from by_table(SYSTEM_FIELDS)
    elif kind == 3:
        yield from (("pn", 9), ("seq", 6), ("inc", 4))
        while True:
            yield from (("config", 3), ("pilot", 9))
    elif kind == 4:
        yield from (("pn", 9), ("seq", 6))
        while True:
            yield "freq", FREQUENCY


def traffic_layout(body: Bits) -> Iterator[tuple[str, int]]:
    """Yields the fields of a traffic message after its type; those of a direction as far as its bits reach."""
    yield from by_table(HEAD_FIELDS)
    kind, encryption = number(body[:LENGTH]), number(body[15:17])
    if encryption == 0 and kind == 7:
        yield from by_table(IN_TRAFFIC_FIELDS)
    elif encryption == 0 and kind == 8:
        yield "inc", 4
        while True:
            yield "pilot", 9
    elif encryption == 0 and kind == 17:
        yield from by_table(HANDOFF_FIELDS)
        yield "search", 1
        begin = 27
        if body[26:27] == [1]:
            yield from by_table(SEARCH_FIELDS)
            begin += sum(SEARCH_FIELDS.values())
        yield from (("hard", 1), ("length", 3))
        extra = 8 * number(body[begin + 1 : begin + 4])
        if extra:
            yield "extra", extra
        while body[begin : begin + 1] != [1]:
            yield from (("pilot", 9), ("combined", 1), ("row", 8))


LAYOUTS = {"sync": sync_layout, "paging": paging_layout, "traffic": traffic_layout}
CHECKS = {"sync": MESSAGE_30, "paging": MESSAGE_30, "traffic": MESSAGE_16}
READERS = {"sync": sync_message, "paging": paging_message, "traffic": traffic_message}


def capsule_fields(channel: str, bits: Bits) -> Iterator[tuple[str, int]]:
    """The names and widths of the fields of a capsule that begins with bits: MSG_LENGTH, the body's, rest and check."""
    length = stated_length(bits) or 0
    yield "MSG_LENGTH", LENGTH
    yield "MSG_TYPE", LENGTH
    left = length - 2 * LENGTH - CHECKS[channel].degree
    for name, width in LAYOUTS[channel](bits[LENGTH:]):
        if width > left:
            break
        left -= width
        yield name, width
    if left > 0:
        yield "rest", left
    yield "CHECK", CHECKS[channel].degree


def capsule_parts(channel: str, capsule: Bits, begin: int) -> list[Part]:
    """The parts of a capsule's bits from a place on, by the fields that they belong to."""
    found, at = [], 0
    for name, width in capsule_fields(channel, capsule):
        bits = capsule[max(at, begin) : at + width]
        if bits and at + width > begin:
            if len(bits) == width:
                found.append(Part(name, bits, str(number(bits))))
            else:
                found.append(Part(name, bits, remark=f"{len(bits)} of {width} bits"))
        at += width
    return found


def ended(channel: str, capsule: Bits, complemented: bool) -> str:
    """Returns the description of a capsule that ends here."""
    body = body_of(capsule, complemented, CHECKS[channel])
    if body is None:
        return f"a capsule of {len(capsule) // 8} octets ends here, but its check is wrong: it is not a message"
    if READERS[channel](body) is None:
        return f"a capsule of {len(capsule) // 8} octets ends here; its check is right, but its body is not a message"
    return f"a capsule of {len(capsule) // 8} octets ends here, and its check is right: a message"


# ---- the sync and the paging channel


def stream_steps(capture: Capture, stream: Stream, index: int, what: str) -> Steps:
    """Returns the steps of a frame of a channel whose encoder continues, without its fields."""
    if not stream.is_inside(capture.count, index):
        raise NoFrame(f"the file doesn't contain frame {index} of the {what}")
    start = stream.start(index)
    heard = soft_values(capture, stream.fingers, stream.form, start)
    scrambling = stream.turning(index) if stream.turning else None
    turned = heard if scrambling is None else np.where(scrambling, -heard, heard)
    span = span_of(stream, capture.count, index)
    softs = np.concatenate([stream.code_softs(capture, frame) for frame in span])
    codewords = first_codewords(2, softs, zero_ends=False)
    place = stream.bits * span.index(index)
    own = slice(2 * place, 2 * (place + stream.bits))
    before = codewords[0][1][:place]
    start_state = number(before[-8:]) if place else None
    bits = codewords[0][1][place : place + stream.bits]
    symbols = code_symbols(start_state or 0, bits)
    skipped = 0 if place else 16  # the first symbols of a span depend on its start bits too
    name = f"frames {span[0]} to {span[-1]} as one codeword" if len(span) > 1 else f"frame {index} alone"
    reading = Reading(name, softs[own], codewords, unlike(softs[own][skipped:], symbols[skipped:]))
    title = f"frame {index}, {what}: from sample {start} on, known at {stream.end(span[-1])}"
    return Steps(title, stream.form, paths_of(capture, stream.fingers, stream.form, start), scrambling,
                 np.array([], int), heard, turned, [reading], 0, bits, [], [])  # fmt: skip


def stream_bits(capture: Capture, stream: Stream, index: int) -> list[Bits]:
    """The bits of the frames of a channel up to one, those outside the file left out."""
    frames = [frame for frame in range(index + 1) if stream.is_inside(capture.count, frame)]
    spans = {frame: span_of(stream, capture.count, frame) for frame in frames}
    softs = {frame: stream.code_softs(capture, frame) for frame in {other for span in spans.values() for other in span}}
    bits = decoded_spans(stream, softs, spans)
    return [bits[frame] for frame in frames]


def sync_steps(capture: Capture, found: Found, index: int) -> Steps:
    """The steps of a frame of the sync channel."""
    stream = sync_stream(found)
    steps = stream_steps(capture, stream, index, "sync channel")
    held: Bits | None = None
    for bits in stream_bits(capture, stream, index)[:-1]:
        held, _ = take_piece(held, bits)
    steps.parts = [Part("SOM", steps.bits[:1], str(steps.bits[0]))]
    fill_piece(steps, "sync", held, steps.bits, capture.complement_30)
    add_verdict(steps)
    return steps


def fill_piece(steps: Steps, channel: str, held: Bits | None, piece: Bits, complemented: bool) -> None:
    """Adds the fields of a piece after its start bit, and what ends in it, to the steps of a frame."""
    before = [] if piece[0] else held
    if before is None:
        steps.parts.append(Part("body", piece[1:], remark="no capsule is open"))
        return
    bits = before + piece[1:]
    length = stated_length(bits) if len(bits) >= LENGTH else None
    if length is None:
        steps.parts.append(Part("body", piece[1:], remark="MSG_LENGTH is invalid"))
        return
    steps.parts += capsule_parts(channel, bits[:length], len(before))
    _, capsule = take_piece(held, piece)
    if capsule:
        if bits[length:]:
            steps.parts.append(Part("zeros" if not any(bits[length:]) else "rest", bits[length:]))
        steps.verdict.append(ended(channel, capsule, complemented))


def paging_steps(capture: Capture, found: Found, mark: Mark, channel: int, index: int) -> Steps:
    """The steps of a frame of a paging channel."""
    if mark.prat > 1:
        raise NoFrame(f"the sync message has PRAT {mark.prat}, which is not a rate of a paging channel")
    stream = paging_stream(found, mark, channel)
    steps = stream_steps(capture, stream, index, f"paging channel {channel}")
    held: Bits | None = None
    for bits in stream_bits(capture, stream, index)[:-1]:
        for half in half_frames(bits):
            held, _ = take_half_frame(held, half)
    for half in half_frames(steps.bits):
        held = fill_half(steps, held, half, capture.complement_30)
    add_verdict(steps)
    return steps


def fill_half(steps: Steps, held: Bits | None, half: Bits, complemented: bool) -> Bits | None:
    """Adds the fields of a half-frame to the steps of a frame, and returns the bits of an open capsule after it."""
    steps.parts.append(Part("SCI", half[:1], str(half[0])))
    after, capsules = take_half_frame(held, half)
    before, rest = ([] if half[0] else held), half[1:]
    if before is None:
        steps.parts.append(Part("body", rest, remark="no capsule is open"))
        return after
    for capsule in capsules:
        steps.parts += capsule_parts("paging", capsule, len(before))
        steps.verdict.append(ended("paging", capsule, complemented))
        rest, before = rest[len(capsule) - len(before) :], []
    if after:
        steps.parts += capsule_parts("paging", after, len(before))
    elif rest:
        steps.parts.append(Part("zeros" if not any(rest) else "rest", rest))
    return after


# ---- traffic channels


def reading_of(rate: Rate, kept: NDArray[Any]) -> Reading:
    """A frame read at a rate."""
    softs = rate_softs(rate, kept)
    codewords = first_codewords(2, softs, zero_ends=True)
    bits = codewords[0][1]
    sent = bits[rate.information : rate.bits() - TAIL]
    return Reading(f"{rate.speed}", softs, codewords, unlike(softs, code_symbols(0, bits)), sent,
                   quality(rate, bits[: rate.information]), is_right(rate, bits))  # fmt: skip


def traffic_fingers(
    capture: Capture, found: Found, mark: Mark, assigned: Assigned, index: int
) -> dict[int, list[Finger]]:
    """Returns the fingers over which a handset receives a frame, by power control subchannel: those of its active
    pilots.

    Messages of paging channel 1 also change its pilot sets.
    """
    pages = list(hear_paging(capture, found, mark, 1, capture.count))
    for event in hear_traffic(capture, found, mark, assigned, pages, capture.count):
        if event.message.get("index") == index:
            return event.message["fingers"]
    raise NoFrame(f"the file doesn't contain frame {index} of the traffic channel")


def traffic_steps(capture: Capture, found: Found, mark: Mark, assigned: Assigned, index: int, rate_set: int) -> Steps:
    """Returns the steps of a frame of a traffic channel of rate set 1, or of rate set 2 from only the reference."""
    rates = RATE_SET_1 if rate_set == 1 else RATE_SET_2
    subchannels = {0: reference_fingers(found, assigned.row)}
    if rate_set == 1:
        subchannels = traffic_fingers(capture, found, mark, assigned, index)
    fingers = [finger for own in subchannels.values() for finger in own]
    clock = frame_clock(mark, assigned, index)
    if not is_inside(capture.count, fingers, DATA_FORM, clock.start):
        raise NoFrame(f"the file doesn't contain frame {index} of the traffic channel")
    softs = [soft_values(capture, own, DATA_FORM, clock.start) for own in subchannels.values()]
    heard = np.sum(softs, axis=0)
    turned = without(np.where(clock.scrambling, -heard, heard), clock.places)
    frame = traffic_frame(rates, turned, clock.places)
    readings = [reading_of(rate, turned) for rate in rates]
    shown = [rate.speed for rate in rates].index(frame.speed)
    end = end_of(fingers, DATA_FORM, clock.start)
    title = f"frame {index}, traffic channel on row {assigned.row}: from sample {clock.start} on, at {end}"
    steps = Steps(title, DATA_FORM, paths_of(capture, fingers, DATA_FORM, clock.start), clock.scrambling, clock.places,
                  heard, turned, readings, shown, readings[shown].codewords[0][1], [], [],
                  power_commands(softs, clock.places))  # fmt: skip
    steps.parts = traffic_parts(rates[shown], rate_set, steps.bits)
    add_traffic_verdict(steps, frame.good)
    return steps


def traffic_parts(rate: Rate, rate_set: int, bits: Bits) -> list[Part]:
    """The fields of a traffic frame."""
    information, behind = bits[: rate.information], bits[rate.information :]
    part = signalling_part(rate.speed, information)
    if rate_set == 2:
        parts = [Part("reserved", information[:1], str(information[0])), Part("information", information[1:])]
    elif rate.speed != RATE_SET_1[0].speed:
        parts = [Part("primary", information)]
    elif not information[0]:
        parts = [Part("MM", information[:1], "0"), Part("primary", information[1:])]
    else:
        primary = PRIMARY_BITS[number(information[2:4])]
        parts = [Part("MM", information[:1], "1"), Part("TT", information[1:2], str(information[1]))]
        parts += [Part("TM", information[2:4], str(number(information[2:4])))]
        parts += [Part("primary", information[4 : 4 + primary])] if primary else []
        if part:
            parts.append(Part("SOM", part[:1], str(part[0])))
            parts += signalling_parts(part)
        else:
            parts.append(Part("secondary", information[4 + primary :]))
    if rate.check:
        parts.append(Part("quality", behind[:-TAIL], f"{number(behind[:-TAIL])}"))
    return parts + [Part("tail", behind[-TAIL:], str(number(behind[-TAIL:])))]


def signalling_parts(part: Bits) -> list[Part]:
    """The fields of a signalling part after its start bit: those of a capsule that begins in it."""
    length = stated_length(part[1:])
    if not part[0] or length is None:
        return [Part("signalling", part[1:])]
    behind = part[1 + length :]
    return capsule_parts("traffic", part[1 : 1 + length], 0) + ([Part("zeros", behind)] if behind else [])


# ---- what the steps say of the frame


def corrections(reading: Reading) -> str:
    """Returns the number of code symbols that the best codeword corrects."""
    return f"the best codeword corrects {reading.unlike} of {len(reading.softs)} code symbols (steps 4 and 5)"


def add_verdict(steps: Steps) -> None:
    """Says of a frame of the sync or a paging channel whether its codeword is sure."""
    reading = steps.readings[0]
    best, other = reading.codewords[0][0], reading.codewords[1][0]
    if best == other:
        steps.verdict.append("not sure: another codeword has the same score (step 5)")
    elif reading.unlike:
        steps.verdict.append(corrections(reading))
    else:
        steps.verdict.append("all code symbols are the best codeword's (steps 4 and 5)")


def add_traffic_verdict(steps: Steps, good: bool) -> None:
    """Says whether a traffic frame is good, and if not, which step shows it."""
    reading = steps.readings[steps.shown]
    if good:
        why = "the greatest score where the quality is right"
        steps.verdict.append(f"good, at {reading.name} bits a second: {why}")
    elif not any(other.is_candidate for other in steps.readings):
        steps.verdict.append("not good: no rate's quality indicator is right (step 6)")
    else:
        steps.verdict.append("not good: no candidate's score is above 0 (step 5)")
    if reading.unlike:
        steps.verdict.append(corrections(reading))


def found_in(capture: Capture, span: int, fingers: int) -> Found:
    """The search over a file's first samples."""
    return search(capture.samples[:span], fingers)


def mark_of(capture: Capture, found: Found) -> Mark:
    """Returns the mark that a file's sync channel sets; raises `NoFrame` if it sets none."""
    _, mark = hear_sync(capture, found, capture.count)
    if mark is None:
        raise NoFrame("no sync message gives the time, so there is no mark: look at --sync")
    return mark


@dataclass(frozen=True)
class Wanted:
    """The frame to explain: its channel, `sync`, `paging` or `traffic`, and its number there from 0 on."""

    channel: str
    frame: int = 0
    paging: int = 1  # number of the paging channel
    assigned: Assigned | None = None  # the traffic channel
    rate_set: int = 1


def steps_of(capture: Capture, wanted: Wanted, span: int, fingers: int) -> Steps:
    """Returns the steps of a frame, after a search over `span` samples; raises NoFrame if there is none."""
    found = found_in(capture, span, fingers)
    if wanted.channel == "sync":
        return sync_steps(capture, found, wanted.frame)
    mark = mark_of(capture, found)
    if wanted.assigned is None:
        return paging_steps(capture, found, mark, wanted.paging, wanted.frame)
    return traffic_steps(capture, found, mark, wanted.assigned, wanted.frame, wanted.rate_set)
