"""The runs of which a report is made: the import of a recording, and one run each of `find`, `survey` and `follow`."""

import contextlib
import os
import subprocess
import tempfile
from collections.abc import Iterator
from typing import IO, Any, NamedTuple

from cdma_tools.errors import Refused, WrongArguments
from cdma_tools.heard_run import CHIP_RATE, FOLLOWED
from cdma_tools.lines import NoLine, read_line
from cdma_tools.progress import bar
from cdma_tools.sample_header import HEADER, SAMPLE_BYTES

PIECE = 1 << 20  # bytes of a sample file that are given at once
BAD_WORDS = 2  # the program's status for wrong arguments (docs/FORMATS.md)
SEARCH = ("span", "workers")  # arguments of follow that find and survey take too
PERIOD = 32_768  # phases of the pilot's code (7.1.3.1.9)
WIDTH = 31  # chips to each side of its own phase in which each pilot is surveyed: the most, 25 microseconds
STEP = 64  # chips between the codes of neighboring offsets (7.1.3.1.9)


class Line(NamedTuple):
    """A line as it was written, with escapes for bytes beyond printable ASCII, and its object, None if it has none."""

    text: str
    read: dict[str, Any] | None


class Ran(NamedTuple):
    """A run of a command: its arguments, its status, its lines, and its standard error."""

    words: list[str]
    status: int
    lines: list[Line]
    said: str

    def reads(self, *kinds: str) -> list[tuple[int, dict[str, Any]]]:
        """The objects of the lines that begin with one of these words, each with the line's place from 0 on."""
        return [(at, line.read) for at, line in enumerate(self.lines) if line.read and line.read["line"] in kinds]


class Imported(NamedTuple):
    """An import: its arguments, its status, its figures by name, and its remarks."""

    words: list[str]
    status: int
    found: dict[str, str]
    said: list[str]


class Gathered(NamedTuple):
    """All that a report shows, but what is measured of the samples."""

    name: str
    imported: Imported | None
    find: Ran
    survey: Ran
    follow: Ran

    @property
    def runs(self) -> tuple[Ran, Ran, Ran]:
        """The runs in their order."""
        return self.find, self.survey, self.follow


def escaped(line: bytes) -> str:
    """The text of a line: printable ASCII as it is, and every other byte as \\xHH, a backslash among them."""
    return "".join(chr(byte) if 32 <= byte < 127 and byte != 92 else f"\\x{byte:02x}" for byte in line)


def line_of(line: bytes, kinds: tuple[str, ...]) -> Line:
    """Returns a line with its object, if it is one of a command's."""
    text = escaped(line)
    try:
        read = read_line(text)
    except NoLine:
        return Line(text, None)
    return Line(text, read if read["line"] in kinds else None)


def lines_of(text: bytes, kinds: tuple[str, ...]) -> list[Line]:
    """The lines that a command wrote; a last one without a line feed is a line too."""
    lines = text.split(b"\n")
    return [line_of(line, kinds) for line in lines[:-1] + ([lines[-1]] if lines[-1] else [])]


def sample_bytes(path: str) -> int:
    """Returns the bytes of a sample, by the file's version, by default 4; refuses what can't be read several times."""
    if os.path.exists(path) and not os.path.isfile(path):
        raise Refused(f"{path}: not a regular file")
    with open(path, "rb") as file:
        head = file.read(HEADER.size)
    return SAMPLE_BYTES.get(int.from_bytes(head[4:6], "big"), 4)


def feed(file: IO[bytes], into: IO[bytes], size: int, shown: Any, text: str) -> None:
    """Gives a file to a program, and shows the number of samples it took and how long they last."""
    given = 0
    try:
        while piece := file.read(PIECE):
            into.write(piece)
            given += len(piece)
            shown.update(len(piece) // size)
            shown.set_description(f"{text} {given / size / CHIP_RATE:.1f} s")
    except BrokenPipeError:
        pass  # it read as much as it wanted
    with contextlib.suppress(BrokenPipeError):
        into.close()


@contextlib.contextmanager
def started(program: str, words: list[str], out: IO[bytes], said: IO[bytes]) -> Iterator[subprocess.Popen[bytes]]:
    """Yields a run of the program that has ended when this context is left, and is ended if a fault leaves it."""
    try:
        child = subprocess.Popen([program, *words], stdin=subprocess.PIPE, stdout=out, stderr=said)
    except OSError as why:
        raise Refused(f"{program}: {why.strerror}") from None
    with child:
        try:
            yield child
            child.wait()
        except BaseException:
            child.kill()
            raise


def run_program(program: str, words: list[str], path: str, kinds: tuple[str, ...], shown: Any) -> Ran:
    """Runs the program over a sample file; `shown` gets the samples that it took."""
    with open(path, "rb") as file, tempfile.TemporaryFile() as out, tempfile.TemporaryFile() as said:
        with started(program, words, out, said) as child:
            assert child.stdin
            feed(file, child.stdin, sample_bytes(path), shown, words[0])
        out.seek(0)
        said.seek(0)
        return Ran(words, child.returncode, lines_of(out.read(), kinds), escaped(said.read().strip()))


def base_of(find: Ran, follow: Ran) -> int:
    """Returns the phase of the pilot of offset 0: that of the best pilot, and 64 chips more for each step of its
    offset.

    If no message has the offset it is taken as 0, and the best pilot is number 0 in the survey.
    """
    phases = [read["phase"] for _, read in find.reads("pilot")]
    offsets = [read["pn"] for _, read in follow.reads("sync")]
    return (phases[0] + STEP * (offsets[0] if offsets else 0)) % PERIOD if phases else 0


def gather_runs(program: str, path: str, words: dict[str, str]) -> tuple[Ran, Ran, Ran]:
    """One run each of find, survey and follow; `words` are the arguments of follow."""
    search = [f"--{name}={words[name]}" for name in SEARCH if name in words]
    whole = [f"--{name}={value}" for name, value in words.items()]
    samples = os.path.getsize(path) // sample_bytes(path)
    with bar(total=3 * samples, text="follow", unit="chips") as shown:
        follow = run_program(program, ["follow", *whole], path, FOLLOWED, shown)
        if follow.status == BAD_WORDS:
            raise WrongArguments(f"not arguments of follow: {' '.join(whole)}")
        find = run_program(program, ["find", *search], path, ("pilot",), shown)
        base = base_of(find, follow)
        survey = run_program(
            program, ["survey", *search, f"--base={base}", f"--width={WIDTH}"], path, ("survey",), shown
        )
    return find, survey, follow
