"""What a handset received in a run, by lines of `follow`: messages by their kind, frames, and pilot sets."""

from typing import Any, Iterable, NamedTuple

from cdma_tools.lines import GROUPS

CHIP_RATE = 1_228_800  # chips a second, and as many samples
FRAME = 24_576  # chips of a frame of the traffic channel: 20 ms (7.1.3.1.1)
GROUP = FRAME // GROUPS  # chips of a power control group: 1.25 ms (7.1.3.1.7)
FOLLOWED = ("pilot", "sync", "paging", "frame", "traffic", "sets", "raw")  # how the lines of follow begin
# The kinds of messages, in the order in which they are shown.
LANES = (
    "sync",
    *(f"paging {kind}" for kind in ("system", "neighbors", "channels", "other")),
    *(f"traffic {kind}" for kind in ("system", "neighbors", "handoff", "other")),
)


class Message(NamedTuple):
    """A message: its line's number, and the number of samples at which it was known."""

    number: int
    at: int


class Frame(NamedTuple):
    """A frame of the traffic channel: its line's number, and the content of the line."""

    number: int
    at: int
    rate: int
    is_good: bool
    commands: list[int]


class Moment(NamedTuple):
    """A moment of the pilot sets: its line's number, its sample, and the offsets in the two sets."""

    number: int
    at: int
    active: list[int]
    candidate: list[int]
    is_due: bool


class Run:
    """The events of a run; `lanes` has the messages of each kind by its name in LANES."""

    def __init__(self, reads: Iterable[tuple[int, dict[str, Any]]]) -> None:
        """Takes the objects of lines, each with the number of its line."""
        self.lanes: dict[str, list[Message]] = {}
        self.frames: list[Frame] = []
        self.sets: list[Moment] = []
        self.count = 0
        for number, read in reads:
            self.count += 1
            self.take(number, read)

    def take(self, number: int, read: dict[str, Any]) -> None:
        """Takes the object of a line."""
        if read["line"] in ("sync", "paging", "traffic"):
            name = " ".join([read["line"], *([read["message"]] if "message" in read else [])])
            self.lanes.setdefault(name, []).append(Message(number, read["at"]))
        elif read["line"] == "frame":
            self.frames.append(Frame(number, read["at"], read["rate"], read["good"] == 1, read["commands"]))
        elif read["line"] == "sets":
            active = [record[0] for record in read["active"]]
            self.sets.append(Moment(number, read["at"], active, read["candidate"], read["report"] == 1))

    @property
    def is_empty(self) -> bool:
        """Whether it has no event after the pilot."""
        return not (self.lanes or self.frames or self.sets)

    def steps(self) -> tuple[list[int], list[int]]:
        """The sample at which each power control bit ended, and the sum of all up to it, up being 1 and down -1."""
        places: list[int] = []
        levels: list[int] = []
        level = 0
        for frame in self.frames:
            for group, bit in enumerate(frame.commands):
                level += -1 if bit else 1
                places.append(frame.at - FRAME + GROUP * (group + 1))
                levels.append(level)
        return places, levels

    def ends(self) -> int:
        """Returns the last sample at which an event was known, 0 if there is none."""
        places = [message.at for lane in self.lanes.values() for message in lane]
        places += [frame.at for frame in self.frames] + [moment.at for moment in self.sets]
        return max(places, default=0)

    def spans(self, part: str) -> dict[int, list[tuple[int, int]]]:
        """Returns for each pilot in the `active` or the `candidate` set the stretches of samples in which it was there.
        """
        spans: dict[int, list[tuple[int, int]]] = {}
        open_since: dict[int, int] = {}
        for moment in self.sets:
            there = getattr(moment, part)
            for pilot in [pilot for pilot in open_since if pilot not in there]:
                spans.setdefault(pilot, []).append((open_since.pop(pilot), moment.at))
            for pilot in there:
                open_since.setdefault(pilot, moment.at)
        for pilot, since in open_since.items():
            spans.setdefault(pilot, []).append((since, max(self.ends(), since + 1)))
        return spans
