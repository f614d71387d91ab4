"""Counts the outcomes of the frames and messages that were sent.

The frames that were sent are the script's: frame k ends at local chip 24,576 (k + 1) + 1,536 FRAME_OFFSET. The lines
that the maker of the samples writes of them before any noise is added give the frames that a receiver could decode,
from the mark on, and the messages.
"""

import dataclasses
import re
from typing import Collection, Iterable, Iterator, Mapping

from cdma_tools.errors import Refused
from cdma_tools.heard_run import FRAME, GROUP
from cdma_tools.lines import NoLine, read_line
from cdma_tools.scripts import FRAME_KINDS, Frame, Script, Traffic

# A line belongs to the frame that ends within half a group of its place: paths come some chips later, and a receiver
# that is further off can't unscramble a symbol.
NEAR = GROUP // 2
# Fingers lie up to 32 chips before and after the best phase: of a frame that ends so near to the file's end it may
# be that a finger has no samples.
EDGE = 64
UNLOCKED = "unlocked"
OUTCOMES = ("lost", "marked_bad", "bad_but_right", "other_rate", "wrong_but_good", UNLOCKED)
# Chips before a message's place in which its last frame lies: one of the sync channel.
LAST_FRAME = 32_768
MESSAGE = re.compile(r"(sync|paging) at=(\d+) (.+)")


@dataclasses.dataclass(frozen=True)
class Heard:
    """A frame in a receiver's line."""

    kind: str
    at: int
    rate: int
    is_good: bool
    bits: str


@dataclasses.dataclass
class Count:
    """Number of frames or messages sent, and of those with each kind of error. Each has at most one kind."""

    sent: int = 0
    lost: int = 0
    marked_bad: int = 0
    bad_but_right: int = 0
    other_rate: int = 0
    wrong_but_good: int = 0
    unlocked: int = 0

    def errors(self) -> int:
        """Returns the number of those not received as sent."""
        return sum(getattr(self, outcome) for outcome in OUTCOMES)

    def add(self, other: "Count") -> None:
        """Adds another count to this one."""
        for field in dataclasses.fields(self):
            setattr(self, field.name, getattr(self, field.name) + getattr(other, field.name))


Counts = dict[str, Count]
Messages = dict[tuple[str, str], list[int]]
# From the first sample to the one after the last.
Span = tuple[int, int]


@dataclasses.dataclass(frozen=True)
class Expected:
    """Expected content of a file: the frames by the number of samples at which they end, and the messages.

    Messages are keyed by kind and text, with the numbers of samples at which they are known.
    """

    frames: Mapping[int, Frame]
    messages: Messages


def frames_in(lines: Iterable[str], name: str) -> Iterator[Heard]:
    """Yields the frames in lines; raises Refused at a line that docs/FORMATS.md doesn't have."""
    for number, line in enumerate(lines, 1):
        try:
            read = read_line(line)
        except NoLine as why:
            raise Refused(f"{name}: line {number} is not one of docs/FORMATS.md: {why}") from None
        if read["line"] in FRAME_KINDS:
            yield Heard(read["line"], read["at"], read["rate"], read["good"] == 1, read["bits"])


def messages_in(lines: Iterable[str]) -> Messages:
    """Returns the sync and paging messages in lines."""
    found: Messages = {}
    for line in lines:
        if match := MESSAGE.fullmatch(line):
            found.setdefault((match[1], match[3]), []).append(int(match[2]))
    return found


def frames_sent(script: Script, traffic: Traffic) -> dict[int, Frame]:
    """The frames that lie in the file whole, with room after them, by the number of samples at which they end."""
    first = traffic.offset * GROUP - script.start
    number = max(0, -(first // FRAME))
    found: dict[int, Frame] = {}
    while (end := first + FRAME * (number + 1)) <= script.samples - EDGE:
        found[end] = traffic.frames[number % len(traffic.frames)]
        number += 1
    return found


def expected(script: Script, traffic: Traffic, clean: list[str], name: str) -> Expected:
    """Returns the expected content, by the lines that the maker writes of the samples without noise."""
    begin = min((frame.at for frame in frames_in(clean, name)), default=None)
    if begin is None:
        raise Refused(f"{name} decodes no frame of the script's samples, even without noise")
    found = {end: frame for end, frame in frames_sent(script, traffic).items() if end >= begin - NEAR}
    if not found:
        raise Refused(f"the script's {script.samples} samples have no complete frame after the first sync message")
    return Expected(found, messages_in(clean))


def outcome_of(sent: Frame, line: Heard) -> str | None:
    """Returns the kind of error of a frame that has a line, None if it was received as sent."""
    is_right = (line.kind, line.rate, line.bits) == (sent.kind, sent.rate, sent.bits)
    if not line.is_good:
        return "bad_but_right" if is_right else "marked_bad"
    if (line.kind, line.rate) != (sent.kind, sent.rate):
        return "other_rate"
    return None if is_right else "wrong_but_good"


def meets(first: int, end: int, spans: Iterable[Span]) -> bool:
    """Whether samples first to end - 1 meet one of some spans."""
    return any(begin < end and first < behind for begin, behind in spans)


def count_frames(
    sent: Mapping[int, Frame], lines: Iterable[Heard], counts: Counts, unheard: Collection[Span] = ()
) -> None:
    """Counts frames by kind and rate as sent; the first of several lines at one frame is the frame's.

    Errors of frames that meet a span in which the lock found no pilot are the lock's.
    """
    ends = sorted(sent)
    taken: dict[int, Heard] = {}
    for line in lines:
        end = ends[0] + FRAME * round((line.at - ends[0]) / FRAME)
        if end in sent and abs(line.at - end) <= NEAR:
            taken.setdefault(end, line)
    for end, frame in sent.items():
        count = counts.setdefault(f"{frame.kind} {frame.rate}", Count())
        count.sent += 1
        outcome = outcome_of(frame, taken[end]) if end in taken else "lost"
        if outcome and meets(end - FRAME, end, unheard):
            outcome = UNLOCKED
        if outcome:
            setattr(count, outcome, getattr(count, outcome) + 1)


def count_messages(sent: Messages, found: Messages, counts: Counts, unheard: Collection[Span] = ()) -> None:
    """Counts messages by kind: one is lost if none of its text is known near its place.

    If its last frame meets a span in which the lock found no pilot, the loss is the lock's.
    """
    for (kind, text), places in sent.items():
        left = list(found.get((kind, text), ()))
        count = counts.setdefault(kind, Count())
        for place in places:
            count.sent += 1
            near = [at for at in left if abs(at - place) <= NEAR]
            if near:
                left.remove(near[0])
            elif meets(place - LAST_FRAME, place, unheard):
                count.unlocked += 1
            else:
                count.lost += 1


def counted(wanted: Expected, lines: list[str], name: str, unheard: Collection[Span] = ()) -> Counts:
    """Returns the counts of a file by channel: `frame 9600`, `frame2 14400`, `sync`, `paging`."""
    counts: Counts = {}
    count_frames(wanted.frames, frames_in(lines, name), counts, unheard)
    count_messages(wanted.messages, messages_in(lines), counts, unheard)
    return counts


def all_unlocked(wanted: Expected) -> Counts:
    """Returns the counts of a file without a lock: everything expected is the lock's loss."""
    counts: Counts = {}
    for frame in wanted.frames.values():
        counts.setdefault(f"{frame.kind} {frame.rate}", Count()).sent += 1
    for (kind, _), places in wanted.messages.items():
        counts.setdefault(kind, Count()).sent += len(places)
    for count in counts.values():
        count.unlocked = count.sent
    return counts


def moved(wanted: Expected, earlier: int) -> Expected:
    """Returns the expected content `earlier` samples earlier."""
    messages = {key: [place - earlier for place in places] for key, places in wanted.messages.items()}
    return Expected({end - earlier: frame for end, frame in wanted.frames.items()}, messages)
