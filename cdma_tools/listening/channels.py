"""Several channels of a cell, followed at once over the same chips: what follows them, and where their lines go."""

import os
from collections.abc import Callable, Sequence
from contextlib import ExitStack
from dataclasses import dataclass, field, replace

from cdma_tools.errors import Refused
from cdma_tools.listening.channel_options import PAGING_CHANNELS, Traffic
from cdma_tools.listening.events import Collected, Event, Listener, Remark
from cdma_tools.listening.follow_run import Handset
from cdma_tools.listening.line_writer import Already
from cdma_tools.listening.listening import Listening
from cdma_tools.listening.output import GrowingFile, Output, StandardOutput
from cdma_tools.listening.parts import Recording
from cdma_tools.listening.relays import Followed
from cdma_tools.radio.air import CHIP_RATE
from cdma_tools.recordings import BLOCK_SECONDS, TYPES, blocks_of_file

# Chips in which a paging channel that is tried must have a message.
TRIAL = 60 * CHIP_RATE
ENDS = {False: ".txt", True: ".jsonl"}  # of the names of files with lines, and with objects


@dataclass(frozen=True)
class Wanted:
    """A channel that is to be followed, and whether it only counts if a message is received on it."""

    handset: Handset
    is_tried: bool = False


def wanted_channels(base: Handset, paging: tuple[int, ...] | None, traffic: Sequence[Traffic]) -> list[Wanted]:
    """Returns the channels that are to be followed by handsets as `base`; no number of a paging channel stands for all.

    All paging channels but the first are tried, unless a traffic channel is on the row.
    """
    rows = {channel.row for channel in traffic}
    if paging is None:
        paging = () if traffic else (1,)
    elif not paging:
        paging = tuple(number for number in PAGING_CHANNELS if number not in rows)
        tried = [Wanted(paging_handset(base, number), number != 1) for number in paging]
        return [*tried, *(Wanted(traffic_handset(base, 1, channel)) for channel in traffic)]
    first = paging[0] if paging else 1
    named = [Wanted(paging_handset(base, number)) for number in paging]
    return [*named, *(Wanted(traffic_handset(base, first, channel)) for channel in traffic)]


def paging_handset(base: Handset, number: int) -> Handset:
    """Returns a handset that follows a paging channel."""
    return replace(base, paging=number, esn=None, row=None, offset=0, name=f"paging{number}")


def traffic_handset(base: Handset, paging: int, channel: Traffic) -> Handset:
    """Returns a handset that follows a traffic channel, and a paging channel."""
    named = replace(base, paging=paging, rate_set=channel.rate_set, name=channel.name)
    return replace(named, esn=channel.esn, row=channel.row, offset=channel.offset)


class Trial:
    """A listener of a channel that may not be sent: it passes on nothing before the first message.

    Without a message in the first minute it is over.
    """

    def __init__(self, listener: Listener) -> None:
        """No line has come yet."""
        self.listener = listener
        self.origin = 0
        self.held: list[Event] = []
        self.remarks: list[Remark] = []
        self.is_passed = self.is_over = False

    def begin(self, origin: int) -> None:
        """Takes the number of the chip at the stream's start."""
        self.origin = origin

    def event(self, event: Event) -> None:
        """Takes a line."""
        if self.is_passed:
            self.listener.event(event)
        elif not self.is_over:
            self.held.append(event)
            if event.kind == "paging":
                self.pass_on()
            elif event.chip - self.held[0].chip > TRIAL:
                self.is_over, self.held = True, []

    def pass_on(self) -> None:
        """Passes on all lines so far: there is a message."""
        self.is_passed = True
        self.listener.begin(self.origin)
        for remark in self.remarks:
            self.listener.remark(remark)
        for event in self.held:
            self.listener.event(event)
        self.held, self.remarks = [], []

    def remark(self, remark: Remark) -> None:
        """Takes a remark, which only counts if the channel does."""
        if self.is_passed:
            self.listener.remark(remark)
        elif not self.is_over:
            self.remarks.append(remark)

    @property
    def is_decided(self) -> bool:
        """Whether it is known if the channel is sent."""
        return self.is_passed or self.is_over

    def followed(self, handset: Handset, is_probe: bool = False) -> Followed:
        """Returns what follows the channel, only until it is decided if nothing else is wanted of a probe."""
        return Followed(handset, self, lambda: not (self.is_decided if is_probe else self.is_over))


def sent_channels(recording: Recording, wanted: Sequence[Wanted]) -> list[Handset]:
    """Returns the handsets of the channels that count: a recording is listened to until that is known of those tried.
    """
    trials = {number: Trial(Collected()) for number, one in enumerate(wanted) if one.is_tried}
    if not trials:
        return [one.handset for one in wanted]
    tried = [trial.followed(wanted[number].handset, is_probe=True) for number, trial in trials.items()]
    listening = Listening(recording.lock, tried[0].handset, tried[0].listener, others=tried[1:])
    hear_beginning(recording, listening, lambda: all(trial.is_decided for trial in trials.values()))
    return [one.handset for number, one in enumerate(wanted) if number not in trials or trials[number].is_passed]


def hear_beginning(recording: Recording, listening: Listening, is_enough: Callable[[], bool]) -> None:
    """Listens to a recording until it is enough, or to its end."""
    size, rate = TYPES[recording.lock.kind].size, recording.lock.rate
    try:
        for data in blocks_of_file(recording.path, 0, size * recording.count, size * int(BLOCK_SECONDS * rate)):
            listening.feed(data)
            if is_enough():
                return
        listening.finish()
    finally:
        listening.kill()


class LaterFile:
    """A file of lines that is made when the first of them comes."""

    def __init__(self, path: str, is_json: bool) -> None:
        """It isn't there yet."""
        self.path, self.is_json = path, is_json
        self.already = Already()
        self.file: GrowingFile | None = None

    def write(self, data: bytes) -> None:
        """Adds whole lines."""
        if self.file is None:
            self.file = GrowingFile(self.path, self.is_json)
        self.file.write(data)

    def reopen(self) -> None:
        """Opens it again by its name before the next lines."""
        if self.file is not None:
            self.file.reopen()

    def close(self) -> None:
        """Closes it."""
        if self.file is not None:
            self.file.close()


@dataclass
class ChannelOutputs:
    """Where the lines of channels go: each into a file of a folder, or all to standard output."""

    folder: str | None
    is_json: bool
    outputs: dict[str, Output] = field(default_factory=dict)

    def __enter__(self) -> "ChannelOutputs":
        """Makes the folder if it is missing."""
        if self.folder is not None:
            try:
                os.makedirs(self.folder, exist_ok=True)
            except OSError as why:
                raise Refused(f"{self.folder}: {why.strerror}") from None
        return self

    def __exit__(self, *_: object) -> None:
        """Closes all."""
        with ExitStack() as closing:
            for output in self.outputs.values():
                closing.callback(output.close)

    def of(self, name: str, is_tried: bool) -> Output:
        """Returns the output of a name; a file of a channel that is tried is made with its first line."""
        if self.folder is None:
            return StandardOutput()
        path = self.path(name)
        if is_tried and not os.path.exists(path):
            self.outputs[name] = LaterFile(path, self.is_json)
        else:
            self.outputs[name] = GrowingFile(path, self.is_json)
        return self.outputs[name]

    def path(self, name: str) -> str:
        """Returns the path of the file of a name in the folder."""
        return os.path.join(self.folder or "", name.replace(":", "-") + ENDS[self.is_json])

    def reopen(self) -> None:
        """Opens all files again by their names before the next lines; a signal may call this."""
        for output in list(self.outputs.values()):
            output.reopen()
