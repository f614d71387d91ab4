"""One run of the program's `follow`, fed with chips as they come."""

import contextlib
import fcntl
import os
import queue
import re
import select
import signal
import subprocess
import tempfile
import threading
from dataclasses import dataclass, replace

from cdma_tools.errors import Refused
from cdma_tools.interrupts import INTERRUPTS
from cdma_tools.lines import NoLine, read_line
from cdma_tools.listening.events import AT, Event
from cdma_tools.listening.pieces import Chips
from cdma_tools.receiver_run import ended_text
from cdma_tools.sample_header import MOST_CHIPS, header

VERSION = 1
# Chips that a run can take: as many as its file may have.
MOST = MOST_CHIPS[VERSION]
# The program's statuses if it read all of its input: 1 means that no sync message was received, and 3 that fewer
# samples arrived than the header says, which holds for every stream.
READ_ALL = (0, 1, 3)
LARGEST_COUNT = 4_294_967_295
# Bytes of a run's pipe: 0.2 s of chips, so that the lock works on the next ones while the runs take these.
PIPE_BYTES = 1 << 20
# Seconds after which a run is killed that takes no chips, or doesn't end: the other runs of the lock wait for it.
MOST_STUCK = 60.0
# Signals that a run ignores: the process that feeds it decides when it ends, also if the whole group gets them.
UNHEARD = {*INTERRUPTS, signal.SIGHUP}
# The line with the code phase at a run's first chip, by the pilot that it found.
PILOT = re.compile(r"pilot phase=(\d+) ")


@dataclass(frozen=True)
class Handset:
    """What is followed: the arguments of `follow`, and the flags of its file."""

    program: str
    fingers: int = 1
    paging: int = 1
    esn: str | None = None
    row: int | None = None
    offset: int = 0
    is_raw: bool = False  # whether messages are also reported as received
    flags: int = 0
    rate_set: int = 1  # of the traffic channel
    name: str = ""  # in remarks, if others are followed too

    def on_row(self, row: int | None) -> "Handset":
        """The same handset with its traffic channel on another row."""
        return replace(self, row=row)

    def command(self) -> list[str]:
        """The command that follows it, or decodes only its frames of rate set 2."""
        shared, traffic = ["--workers", "1", "--fingers", str(self.fingers)], list[str]()
        if self.esn is not None and self.row is not None:
            traffic = ["--esn", self.esn, "--row", str(self.row), "--offset", str(self.offset)]
        if self.rate_set == 2:
            return [self.program, "rate2", *shared, *traffic]
        raw = ["--raw", str(LARGEST_COUNT)] if self.is_raw else []
        return [self.program, "follow", *shared, "--paging", str(self.paging), *traffic, *raw]


@dataclass(frozen=True)
class Sets:
    """The pilot sets in a run's last line: offset and row of each active pilot, and the candidates."""

    active: tuple[tuple[int, int], ...] = ()
    candidates: tuple[int, ...] = ()


class RunEnded(Refused):
    """Reason why a run ended too soon."""

    def __init__(self, text: str, status: int) -> None:
        """With its exit status, below 0 for a signal."""
        super().__init__(text)
        self.status = status

    @property
    def is_killed(self) -> bool:
        """Whether a signal ended it: another run can take its place."""
        return self.status < 0

    @property
    def how(self) -> str:
        """Returns how it ended, in words."""
        return ended_text(self.status)


class FollowRun:
    """A process that follows a handset through chips from number `begin` on."""

    def __init__(self, handset: Handset, begin: int) -> None:
        """Starts it, with a header for as many samples as a file may have; raises Refused if it can't be started."""
        self.handset, self.begin, self.end = handset, begin, begin
        self.told: list[Event] = []  # lines that came and weren't taken yet
        self.sets: list[tuple[int, Sets]] = []
        self.last: int | None = None  # the chip of the last line that came
        self.phase: int | None = None  # of the code at its first chip, as it reported it; None once that was checked
        self.said = tempfile.TemporaryFile()
        blocked = signal.pthread_sigmask(signal.SIG_BLOCK, UNHEARD)  # which the process takes over
        try:
            self.process = subprocess.Popen(
                handset.command(), stdin=subprocess.PIPE, stdout=subprocess.PIPE, stderr=self.said
            )
        except OSError as why:
            self.said.close()
            raise Refused(f"{handset.program}: {why.strerror}") from None
        finally:
            signal.pthread_sigmask(signal.SIG_SETMASK, blocked)
        self.lines: queue.SimpleQueue[bytes | None] = queue.SimpleQueue()
        self.reader = threading.Thread(target=self.read, daemon=True)
        self.reader.start()
        self.pipe = self.opened_pipe()
        try:
            self.write(header(VERSION, handset.flags, MOST))
        except Refused:
            self.kill()
            raise

    def read(self) -> None:
        """Passes on the lines as they come, and at the end that there are no more; runs in a thread of its own."""
        assert self.process.stdout is not None
        with contextlib.suppress(ValueError, OSError):  # it was closed meanwhile
            for line in self.process.stdout:
                self.lines.put(line)
        self.lines.put(None)

    def opened_pipe(self) -> int:
        """Returns the descriptor of the process's input, which takes as much as it has room for and never blocks."""
        assert self.process.stdin is not None
        pipe = self.process.stdin.fileno()
        with contextlib.suppress(OSError):  # a user may have no more room for pipes: then this one stays small
            fcntl.fcntl(pipe, fcntl.F_SETPIPE_SZ, PIPE_BYTES)
        os.set_blocking(pipe, False)
        return pipe

    def write(self, data: bytes) -> None:
        """Gives bytes to the process; raises RunEnded if it has ended, and kills it if it takes none for long."""
        rest, room = memoryview(data), select.poll()
        room.register(self.pipe, select.POLLOUT)
        try:
            while rest:
                with contextlib.suppress(BlockingIOError):
                    rest = rest[os.write(self.pipe, rest) :]
                if rest and not room.poll(1_000 * MOST_STUCK):
                    self.process.kill()
        except BrokenPipeError:
            raise self.ended() from None

    def ended(self) -> RunEnded:
        """The fault of a process that has ended, in words."""
        status = self.process.wait()
        self.said.seek(0)
        said = self.said.read(1_000).decode(errors="replace").strip()
        how = f"ended with {ended_text(status)}" if status >= 0 else f"was {ended_text(status)}"
        return RunEnded(f"{self.handset.program} follow {how}: {said or 'it said nothing'}", status)

    def feed(self, chips: Chips) -> None:
        """Gives it chips; those that it has already, and those for which its file has no room, are left out."""
        low, high = self.end - chips.first, min(chips.end, self.begin + MOST) - chips.first
        if low < high:
            self.write(chips.parts[4 * low : 4 * high])
            self.end = chips.first + high

    def poll(self) -> None:
        """Takes the lines that have come."""
        with contextlib.suppress(queue.Empty):
            while self.take(self.lines.get_nowait()):
                pass

    def wait_past(self, chip: int, seconds: float) -> None:
        """Takes lines until one that was known after a chip has come, or none has come for `seconds`."""
        with contextlib.suppress(queue.Empty):
            while self.last is None or self.last <= chip:
                if not self.take(self.lines.get(timeout=seconds)):
                    return

    def wait_pilot(self, seconds: float) -> None:
        """Takes lines until the one of the pilot has come, or none has come for `seconds`."""
        with contextlib.suppress(queue.Empty):
            while self.phase is None and self.take(self.lines.get(timeout=seconds)):
                pass

    def take(self, line: bytes | None) -> bool:
        """Takes a line; False at the end."""
        if line is None:
            self.lines.put(None)
            return False
        text = line.decode("ascii", "replace").rstrip("\n")
        found = AT.search(text)
        chip = self.begin + (int(found[1]) if found else 0)
        self.told.append(Event(chip, text))
        self.last = chip
        if pilot := PILOT.match(text):
            self.phase = int(pilot[1])
        if text.startswith("sets "):
            self.sets.append((chip, sets_of(text)))
        return True

    def sets_at(self, chip: int) -> Sets | None:
        """Returns the pilot sets at a chip, if a line has them."""
        return next((sets for at, sets in reversed(self.sets) if at <= chip), None)

    def close(self) -> None:
        """Gives it no more chips, and takes all lines that are left; raises RunEnded if it failed."""
        assert self.process.stdin is not None
        self.process.stdin.close()
        self.take_last()
        if self.process.wait() not in READ_ALL:
            raise self.ended()
        self.release()

    def take_last(self) -> None:
        """Takes the lines up to the end, which a process must reach that gets no more chips; kills one that doesn't."""
        try:
            while self.take(self.lines.get(timeout=MOST_STUCK)):
                pass
        except queue.Empty:
            self.process.kill()
            self.take_rest()

    def take_rest(self) -> None:
        """Takes all lines that a process that has ended has left."""
        while self.take(self.lines.get()):
            pass

    def kill(self) -> None:
        """Ends it without reading more of it."""
        self.process.kill()
        self.process.wait()
        with contextlib.suppress(OSError):
            assert self.process.stdin is not None
            self.process.stdin.close()
        self.reader.join()
        self.release()

    def release(self) -> None:
        """Gives back what it holds."""
        self.reader.join()
        assert self.process.stdout is not None
        self.process.stdout.close()
        self.said.close()


def sets_of(text: str) -> Sets:
    """Returns the pilot sets in a line."""
    try:
        read = read_line(text)
    except NoLine as why:
        raise Refused(f"the program wrote an invalid line: {why}: {text[:60]!r}") from None
    return Sets(tuple((pn, row) for pn, row, _ in read["active"]), tuple(read["candidate"]))
