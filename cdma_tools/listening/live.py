"""Listening to a live stream: to its end, or until an interrupt ends it in order."""

from collections.abc import Iterable, Sequence
from datetime import datetime, timezone

from cdma_tools.errors import Refused, said
from cdma_tools.interrupts import each_hang_up, first_interrupt
from cdma_tools.listening.follow_run import Handset
from cdma_tools.listening.line_writer import LineWriter
from cdma_tools.listening.listening import Listening
from cdma_tools.listening.output import Reopened
from cdma_tools.listening.relays import Followed
from cdma_tools.listening.stream_lock import LockOptions
from cdma_tools.sources.backlog import Item, Skipped
from cdma_tools.sources.live import Stream
from cdma_tools.starting import called


class LiveListening:
    """A listening to a stream, and what came and was lost of it."""

    def __init__(
        self,
        lock: LockOptions,
        handset: Handset,
        writer: LineWriter,
        is_appended: bool,
        others: Sequence[Followed] = (),
        writers: Sequence[LineWriter] = (),
    ) -> None:
        """Begins with nothing; `is_appended` says that lines of another stream come before those of this one.

        `others` follow further channels, whose lines `writers` write.
        """
        self.listening, self.writers = Listening(lock, handset, writer, others=others), (writer, *writers)
        writer.is_appended = is_appended
        self.has_begun = False
        self.lost = 0  # samples
        self.is_stopped = False  # by an interrupt

    def hear(self, stream: Stream, output: Reopened) -> None:
        """Listens up to the stream's end. An interrupt ends it after what has come; a second one breaks it off."""
        try:
            with stream.opened() as backlog, each_hang_up(output.reopen):

                def stop() -> None:
                    self.is_stopped = True
                    backlog.end()

                with first_interrupt(stop):
                    self.take_all(backlog)
        finally:
            self.listening.kill()

    def take_all(self, backlog: Iterable[Item]) -> None:
        """Takes all that comes; if the source fails, what came before is finished first."""
        fault: Refused | None = None
        try:
            for item in backlog:
                self.take(item)
        except Refused as why:
            fault = why
        listening = self.listening
        if rest := len(listening.lock.ring.rest):
            text = f"the stream ended within a sample: its last {rest} bytes were dropped"
            listening.say(listening.lock.seconds, text)
        listening.finish()
        if fault is not None:
            raise fault

    def take(self, item: Item) -> None:
        """Takes what comes."""
        listening = self.listening
        if isinstance(item, bytes):
            self.begin()
            listening.feed(item)
        elif isinstance(item, Skipped):
            self.lost += item.samples
            listening.say(listening.lock.seconds, f"{item.samples} samples are missing: {item.why}")
            listening.skip(item.samples)
        else:
            listening.say(listening.lock.seconds, item.text)

    def begin(self) -> None:
        """Notes the time of the first samples, for lines that are added to those of another stream."""
        if self.has_begun:
            return
        self.has_begun = True
        for writer in self.writers:
            if writer.is_appended:
                writer.began = datetime.now(timezone.utc).strftime("%Y-%m-%dT%H:%M:%S.%fZ")

    @property
    def written(self) -> int:
        """Returns the number of lines that were written."""
        return sum(writer.written for writer in self.writers)

    def summary(self) -> str:
        """Returns a summary in words."""
        seconds, lines = self.listening.lock.seconds, self.written
        return f"stopped after {seconds:,.1f} s: {lines:,} lines were written, {self.lost:,} samples were lost"


def hear_stream(
    stream: Stream, lock: LockOptions, handset: Handset, writer: LineWriter, output: Reopened, is_appended: bool = False
) -> bool:
    """Listens to a stream up to its end, or to an interrupt; returns whether a pilot was found."""
    live = LiveListening(lock, handset, writer, is_appended)
    live.hear(stream, output)
    if live.is_stopped or live.lost:
        said(called("listen"), live.summary())
    return live.listening.is_heard
