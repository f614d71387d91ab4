"""Asks a receiver for an adapter: runs a command line or connects to a TCP port, and passes the answer on."""

import contextlib
import os
import shlex
import socket
import subprocess
import sys
import tempfile
import threading
from collections.abc import Iterator, Sequence
from typing import IO, Any

from cdma_tools.adapting.places import INPUT, OUTPUT, filled, has_place
from cdma_tools.errors import Refused, printable
from cdma_tools.json_lines import LONGEST, lines_of, object_of
from cdma_tools.lines import NoLine, spell_line

STATUS, ERROR = "status", "error"
MOST_STATUS = 255
SIGNALLED = 128  # and the signal's number: the status of a receiver that a signal ended, as in a shell
CONNECT_SECONDS = 10
PIECE = 1 << 16


class ReadFault(Exception):
    """A read of the input failed."""


class WriteFault(Exception):
    """The output wasn't taken."""


def write(piece: bytes) -> None:
    """Writes a piece of the answer at once."""
    try:
        sys.stdout.buffer.write(piece)
        sys.stdout.buffer.flush()
    except OSError:
        raise WriteFault from None


@contextlib.contextmanager
def taken(source: IO[bytes]) -> Iterator[IO[bytes]]:
    """A file with all that stood in the source, to be read from its start."""
    with tempfile.NamedTemporaryFile(prefix="adapt-") as file:
        while piece := piece_of(source):
            file.write(piece)
        file.flush()
        file.seek(0)
        yield file


def piece_of(source: IO[bytes]) -> bytes:
    """The next bytes of the source; none at its end."""
    try:
        return source.read(PIECE)
    except OSError:
        raise ReadFault from None


class Answer:
    """The answer of a receiver: its lines are passed on as they come, and its status is kept."""

    def __init__(self, is_json: bool, has_status: bool) -> None:
        """With has_status the last line has the status, and the line for standard error if there is one."""
        self.is_json, self.has_status = is_json, has_status
        self.status: int | None = None
        self.error = ""

    def pass_on(self, source: Any) -> None:
        """Passes on all lines of an open file."""
        for number, line in enumerate(lines_of(source), 1):
            try:
                self.take(line)
            except UnicodeDecodeError:
                raise Refused(f"the receiver's line {number}: it isn't ASCII text") from None
            except NoLine as why:
                raise Refused(f"the receiver's line {number}: {why}") from None

    def take(self, line: bytes) -> None:
        """Passes a line on, or keeps the status in it."""
        if self.status is not None:
            raise NoLine("it comes after the status")
        if not self.is_json:
            word, *told = line.decode("ascii", errors="replace").rstrip("\n").split(" ", 2)
            if self.has_status and word == STATUS:
                self.end(*told)
            else:
                write(line)
            return
        if not line.endswith(b"\n"):
            raise NoLine("it has no line feed" if len(line) < LONGEST else "it is too long")
        given = object_of(line[:-1].decode("ascii"))
        if self.has_status and STATUS in given:
            if not {STATUS} <= set(given) <= {STATUS, ERROR}:
                raise NoLine(f"an object with {STATUS} may only have {ERROR} as well")
            self.end(*map(str, (given[STATUS], given.get(ERROR, ""))))
        else:
            write(spell_line(given).encode("ascii") + b"\n")

    def end(self, status: str = "", error: str = "") -> None:
        """Keeps the status and the receiver's line for standard error."""
        self.status, self.error = status_of(status), printable(error)


def status_of(text: str) -> int:
    """Returns the status in a receiver's last line."""
    if not text.isdecimal() or int(text[:4]) > MOST_STATUS:
        raise NoLine(f"not a status from 0 to {MOST_STATUS}: {text[:40]!r}")
    return int(text)


@contextlib.contextmanager
def files_of(words: Sequence[str], source: IO[bytes]) -> Iterator[dict[str, str]]:
    """The files that a command line has places for: the input's holds what the source has."""
    with contextlib.ExitStack() as stack:
        files: dict[str, str] = {}
        if has_place(words, INPUT):
            files[INPUT] = stack.enter_context(taken(source)).name
        if has_place(words, OUTPUT):
            folder = stack.enter_context(tempfile.TemporaryDirectory(prefix="adapt-"))
            files[OUTPUT] = os.path.join(folder, OUTPUT)
        yield files


def ask_command(words: Sequence[str], arguments: Sequence[str], source: IO[bytes], is_json: bool) -> int:
    """Runs a command line whose places are filled, passes on its lines, and returns its status."""
    answer = Answer(is_json, has_status=False)
    with files_of(words, source) as files:
        command = filled(words, arguments, files)
        has_file = OUTPUT in files
        given: IO[bytes] | int = subprocess.DEVNULL if INPUT in files else source
        # If a receiver writes its lines to a file, its standard output is for readers.
        said: IO[str] | int = sys.stderr if has_file else subprocess.PIPE
        try:
            child = subprocess.Popen(command, stdin=given, stdout=said)
        except OSError as why:
            raise Refused(f"{command[0]}: {why.strerror}") from None
        with child:
            try:
                if child.stdout:
                    answer.pass_on(child.stdout)
                status = child.wait()
            finally:
                child.kill()
        if has_file and os.path.exists(files[OUTPUT]):
            with open(files[OUTPUT], "rb") as file:
                answer.pass_on(file)
    return status if status >= 0 else SIGNALLED - status


def send(connection: socket.socket, arguments: Sequence[str], source: IO[bytes]) -> None:
    """Sends the arguments as one line and then the input; a receiver may close before the input ends."""
    with contextlib.suppress(BrokenPipeError, ConnectionResetError):
        connection.sendall(shlex.join(arguments).encode("utf-8") + b"\n")
        while piece := source.read(PIECE):
            connection.sendall(piece)
        connection.shutdown(socket.SHUT_WR)


def ask_port(place: tuple[str, int], arguments: Sequence[str], source: IO[bytes], is_json: bool) -> int:
    """Asks a receiver at a TCP port, passes on its lines, and returns its status, by default 0."""
    answer = Answer(is_json, has_status=True)
    with taken(source) as whole, connected(place) as connection, connection.makefile("rb") as lines:
        sender = threading.Thread(target=send, args=(connection, arguments, whole), daemon=True)
        sender.start()
        try:
            answer.pass_on(lines)
        except ConnectionResetError as why:
            raise Refused(f"{place[0]}:{place[1]}: {why.strerror}") from None
    if answer.error:
        print(answer.error, file=sys.stderr)
    return answer.status or 0


@contextlib.contextmanager
def connected(place: tuple[str, int]) -> Iterator[socket.socket]:
    """A connection to a port; once it is open there is no time limit."""
    try:
        connection = socket.create_connection(place, timeout=CONNECT_SECONDS)
    except OSError as why:
        raise Refused(f"{place[0]}:{place[1]}: {why.strerror or why}") from None
    connection.settimeout(None)
    with connection:
        yield connection
