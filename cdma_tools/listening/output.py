"""Destinations of lines: standard output, a file that grows by complete lines and can be continued, or a pipe or a
device."""

import fcntl
import json
import os
import re
import sys
from collections import deque
from typing import Protocol

from cdma_tools.errors import Refused
from cdma_tools.json_lines import as_line
from cdma_tools.lines import ORIGIN, NoLine, begins_line, read_line, spell_line
from cdma_tools.listening.events import AT, Event
from cdma_tools.listening.line_writer import TAP_OF, Already
from cdma_tools.listening.system_time import time_told
from cdma_tools.writing import is_written_through, open_through

# The beginning of a line's object, and the place of its `at`.
JSON_LINE, JSON_AT = re.compile(r'\{"line":"([a-z]+)"'), re.compile(r'"at":(\d+)')
# Lines that are read in full when `listen` continues: they give the time, and the row of the traffic channel.
READ_WHOLE = ("sync", "sets")
# Lines at a file's beginning, and at its end, whose every field is looked at; of the others the first word is.
CHECKED = 1_000
# Bytes in which the last line feed is looked for at once.
PIECE = 1 << 16


class Reopened(Protocol):
    """What may be moved away while lines are added to it."""

    def reopen(self) -> None:
        """Opens it again by its name before the next lines, if it is a file; a signal may call this."""


class Output(Reopened, Protocol):
    """A destination of lines."""

    already: Already  # what was there before

    def write(self, data: bytes) -> None:
        """Adds whole lines."""

    def close(self) -> None:
        """Adds no more."""


class StandardOutput:
    """Standard output, which gets each line at once."""

    def __init__(self) -> None:
        """Nothing was written yet."""
        self.already = Already()

    def write(self, data: bytes) -> None:
        """Writes whole lines."""
        sys.stdout.buffer.write(data)
        sys.stdout.buffer.flush()

    def reopen(self) -> None:
        """Leaves it as it is."""

    def close(self) -> None:
        """Leaves it open."""


class Passed:
    """A FIFO, a device or a file that is open already, which gets each line at once."""

    def __init__(self, path: str) -> None:
        """Opens it; waits for the reader of a FIFO."""
        self.path, self.already = path, Already()
        try:
            self.file = open_through(path)
        except OSError as why:
            raise Refused(f"{path}: {why.strerror}") from None

    def write(self, data: bytes) -> None:
        """Writes whole lines; a reader that has gone away ends the listening as a closed pipe does."""
        try:
            os.write(self.file.fileno(), data)
        except BrokenPipeError:
            raise
        except OSError as why:
            raise Refused(f"{self.path}: {why.strerror}") from None

    def reopen(self) -> None:
        """Leaves it as it is: a pipe has no other file of its name."""

    def close(self) -> None:
        """Closes it."""
        self.file.close()


class GrowingFile:
    """A file to which complete lines are added; only one listening may add to it."""

    file: int
    size: int
    already: Already

    def __init__(self, path: str, is_json: bool) -> None:
        """Opens it, makes it if it is missing, and removes an incomplete last line.

        A file that no listening of this kind wrote is refused, and nothing in it is changed.
        """
        self.path, self.is_json = path, is_json
        self.is_old = False  # whether another file may have its name by now
        self.open()

    def open(self) -> None:
        """Opens the file that has the name now."""
        try:
            self.file = os.open(self.path, os.O_RDWR | os.O_CREAT | os.O_APPEND | os.O_CLOEXEC, 0o666)
        except OSError as why:
            raise Refused(f"{self.path}: {why.strerror}") from None
        try:
            self.take_over()
        except BaseException:
            os.close(self.file)
            raise

    def take_over(self) -> None:
        """Looks at what the file has, while no other listening adds to it."""
        try:
            fcntl.flock(self.file, fcntl.LOCK_EX | fcntl.LOCK_NB)
            total = os.fstat(self.file).st_size
            self.size = self.whole_size(total)
            self.check_rest(os.pread(self.file, min(total - self.size, PIECE), self.size))
            self.already = self.look()
            if total > self.size:
                os.ftruncate(self.file, self.size)
        except OSError as why:
            held = "another process is appending to it" if isinstance(why, BlockingIOError) else why.strerror
            raise Refused(f"{self.path}: {held}") from None

    def whole_size(self, total: int) -> int:
        """Returns the number of bytes up to the end of the last complete line."""
        end = total
        while end > 0:
            begin = max(0, end - PIECE)
            place = os.pread(self.file, end - begin, begin).rfind(b"\n")
            if place >= 0:
                return begin + place + 1
            end = begin
        return 0

    def check_rest(self, rest: bytes) -> None:
        """Refuses bytes after the last whole line that don't begin a line of a listening."""
        if rest and (len(rest) == PIECE or not is_broken_line(rest, self.is_json)):
            raise Refused(f"{self.path}: its last line is {self.none}")

    @property
    def none(self) -> str:
        """Returns the report on a line that no listening wrote."""
        return f"not one that listen writes as {'JSON' if self.is_json else 'text'}"

    def look(self) -> Already:
        """Returns the lines there; refuses a line that no listening of this kind wrote."""
        already, last = Already(), deque[tuple[int, str]](maxlen=CHECKED)
        with open(self.path, encoding="ascii", errors="replace", newline="\n") as file:
            for number, line in enumerate(file, 1):
                if not line.endswith("\n"):
                    break
                text = line[:-1]
                if not take_line(already, text, self.is_json) or number <= CHECKED and not is_line(text, self.is_json):
                    raise Refused(f"{self.path}: line {number} is {self.none}")
                last.append((number, text))
        for number, text in last:
            if not is_line(text, self.is_json):
                raise Refused(f"{self.path}: line {number} is {self.none}")
        return already

    def write(self, data: bytes) -> None:
        """Adds complete lines, or none; raises Refused if they can't be added."""
        if self.is_old:
            self.is_old = False
            os.close(self.file)
            self.open()
        written = 0
        try:
            while written < len(data):
                written += os.write(self.file, data[written:])
        except OSError as why:
            os.ftruncate(self.file, self.size)
            raise Refused(f"{self.path}: {why.strerror}; all lines before are in the file") from None
        self.size += len(data)

    def reopen(self) -> None:
        """Opens the file again by its name before the next lines, since it has been moved away."""
        self.is_old = True

    def close(self) -> None:
        """Closes it."""
        os.close(self.file)


def open_output(path: str | None, is_json: bool) -> Output:
    """Returns the output of a name, standard output if there is none."""
    if path is None:
        return StandardOutput()
    if is_written_through(path):
        return Passed(path)
    return GrowingFile(path, is_json)


def is_line(text: str, is_json: bool) -> bool:
    """Whether a text is a line that a listening writes, with all its fields."""
    try:
        read_line(as_line(text) if is_json else text)
    except NoLine:
        return False
    return True


def is_broken_line(rest: bytes, is_json: bool) -> bool:
    """Whether some bytes begin a line that a listening writes."""
    try:
        text = rest.decode("ascii")
    except UnicodeDecodeError:
        return False
    if not is_json:
        return begins_line(text) and any(kind.startswith(text.split(" ")[0]) for kind in (*TAP_OF, ORIGIN))
    heads = [f'{{"line":"{kind}"' for kind in (*TAP_OF, ORIGIN)]
    return any(head.startswith(text) or text.startswith(head) for head in heads)


def take_line(already: Already, text: str, is_json: bool) -> bool:
    """Notes a line that is there; returns False if it is not a line."""
    found = JSON_LINE.match(text) if is_json else None
    kind = found[1] if found else "" if is_json else text.split(" ", 1)[0]
    if kind == ORIGIN:
        already.at, already.unplaced, already.has_origin = None, 0, True
        return True
    if kind not in TAP_OF:
        return False
    tap = TAP_OF[kind]
    already.counts[tap] += 1
    place = (JSON_AT if is_json else AT).search(text)
    if place is None:
        already.unplaced += 1
        return True
    at = int(place[1])
    if at != already.at:
        already.same.clear()
    already.at, already.unplaced = at, 0
    already.same[tap] += 1
    return kind not in READ_WHOLE or take_whole(already, at, line_of_object(text) if is_json else text)


def line_of_object(text: str) -> str | None:
    """Returns the line of an object with its time; None if it is not the object of a line."""
    try:
        return spell_line(json.loads(text))
    except (ValueError, AttributeError, NoLine):
        return None


def take_whole(already: Already, at: int, line: str | None) -> bool:
    """Notes the content of a line; returns False if it is not a line."""
    if line is None:
        return False
    event = Event(at, line)
    if time := time_told(event):
        already.times[time.told], already.offset = at, time.offset
    if event.kind == "sets":
        already.sets.append(event)
    return True
