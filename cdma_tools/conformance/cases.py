"""Cases of conformance/: their form, the input of each, how a receiver is asked, and what differs from what is wanted."""

from __future__ import annotations

import array
import contextlib
import difflib
import hashlib
import os
import re
import shlex
import socket
import subprocess
import sys
import tempfile
from collections.abc import Callable, Iterator, Sequence
from typing import IO, NamedTuple

from cdma_tools.conformance.options import names_in
from cdma_tools.errors import Refused, printable
from cdma_tools.places import CONFORMANCE
from cdma_tools.receiver_run import MOST_MORE, as_file, ended_text, run_receiver
from cdma_tools.sample_header import ARRAY_FORM as FORMS
from cdma_tools.sample_header import HEADER, header, read_header

CASES = os.path.join(CONFORMANCE, "cases")
MOST_STATUS = 8
MOST_SHOWN = 2
MOST_LETTERS = 300
# Lines of a failing receiver's standard error that are shown.
MOST_TOLD_LINES = 5
# How many lines more than are wanted are compared.
MOST_COMPARED = 10_000
# More than any sample file has: 2^25 samples of 4 bytes, and a header.
MOST_BYTES = 1 << 28
KEYS = (
    ["purpose", "words", "rules", "input", "status", "error", "read", "bits", "places", "against", "noise", "divide"]
    + ["near", "change", "cut", "add", "sha256", "output"]
)
NEEDED = ["purpose", "words", "status"]
# Keys that may have no value: no argument, and nothing on standard error.
MAYBE_EMPTY = {"words", "error"}
INPUTS = ["samples", "script", "nothing", "directory", "dropped"]
SINKS = ["closed", "full"]
SYNC_ROW = 32
# Commands that a receiver may be without.
MAKING = {"make", "trial"}
MOST_ROW, MOST_GAIN, MOST_DIVISOR = 63, 65_535, 65_535
# Lines of which a link with noise within its margins claims nothing: the pilot's energy, and the pilot sets.
UNCLAIMED = (b"pilot ", b"sets ")
NEAR = (
    "each part of each sample is within {} of what the cell sends, and each channel that is heard bears as much: "
    "so what was sent comes back (docs/LINK.md, A link with noise)"
)


class Answer(NamedTuple):
    """The end of a run: its status, its output (None if that is lost), its standard error, and the number of bytes it
    read."""

    status: int
    wrote: bytes | None
    told: bytes
    taken: int


def spelled(text: str) -> bytes:
    """The bytes of a line of hex digits, blanks between them; `N * HEX` are these bytes N times."""
    front, star, behind = text.rpartition("*")
    times, piece = int(front) if star else 1, bytes.fromhex(behind)
    if not 0 <= times * len(piece) <= MOST_BYTES:
        raise ValueError(f"more than {MOST_BYTES} bytes")
    return times * piece


class Case:
    """A case: what it is for, the arguments of its runs, its input, and what is wanted of each run."""

    def __init__(self, name: str) -> None:
        self.name = name
        self.fields: dict[str, str] = {}
        self.runs: list[list[str]] = []
        self.scripts: list[list[str]] = []
        self.file: list[str] | None = None
        self.text: list[str] | None = None
        self.read_lines()
        self.check_keys()
        self.purpose, self.words = self.fields["purpose"], self.runs[0]
        self.status = self.numbers("status", 1, MOST_STATUS)[0]
        self.error = self.fields.get("error")
        self.most_read = self.number("read", MOST_BYTES)
        self.bits = self.number("bits", 16) or 0
        self.places = self.numbers("places", len(self.scripts) - 1, MOST_BYTES) if "places" in self.fields else []
        self.noise = self.numbers("noise", 2, 0xFFFF_FFFF) if "noise" in self.fields else []
        self.against = self.numbers("against", 2, MOST_GAIN) if "against" in self.fields else []
        self.divide = self.number("divide", MOST_DIVISOR) or 1
        self.near = self.number("near", MOST_GAIN)
        self.rules = self.fields.get("rules", "").split()
        self.sink, self.written = self.output()
        self.take_changes()
        self.check_input()

    def refuse(self, why: str) -> Refused:
        """The fault of the case, for its reader to raise."""
        return Refused(f"the case {self.name} {why}")

    def read_lines(self) -> None:
        """Takes the lines of the case's file."""
        block: list[str] | None = None
        try:
            with open(os.path.join(CASES, self.name + ".case"), encoding="ascii") as file:
                for line in file.read().split("\n")[:-1]:
                    block = self.take(line, block)
        except UnicodeDecodeError:
            raise self.refuse("isn't ASCII text") from None

    def take(self, line: str, block: list[str] | None) -> list[str] | None:
        """Takes a line, and returns the block to which the next one may belong."""
        if line.startswith("  ") and block is not None:
            block.append(line[2:])
            return block
        key, separator, value = line.partition(":")
        if not separator or (value and not value.startswith(" ")):
            raise self.refuse(f"has an invalid line: {line[:60]!r}")
        if key in ("script", "file", "text") and not value:
            return self.begin(key)
        if key not in KEYS or (not value and key not in MAYBE_EMPTY):
            raise self.refuse(f"has an invalid line: {line[:60]!r}")
        if key in self.fields and key != "words":
            raise self.refuse(f"has two lines {key}:")
        self.fields[key] = value[1:]
        if key == "words":
            try:
                self.runs.append(shlex.split(value))
            except ValueError as why:
                raise self.refuse(f"has invalid arguments: {why}") from None
        return None

    def begin(self, key: str) -> list[str]:
        """Begins a block of lines; of scripts there may be several."""
        if key == "script":
            self.scripts.append([])
            return self.scripts[-1]
        if getattr(self, key) is not None:
            raise self.refuse(f"has two blocks {key}:")
        block: list[str] = []
        setattr(self, key, block)
        return block

    def check_keys(self) -> None:
        """Refuses a case without what each must have."""
        made_here = self.file is None and self.fields.get("input", "samples") == "samples"
        missing = [key for key in NEEDED + (["bits", "sha256"] if made_here else []) if key not in self.fields]
        if missing:
            raise self.refuse(f"has no {', '.join(sorted(missing))}")

    def numbers(self, key: str, count: int, most: int) -> list[int]:
        """The numbers of a field, each from 0 to a greatest one."""
        words = self.fields[key].split()
        if len(words) != count or not all(word.isdecimal() and int(word) <= most for word in words):
            raise self.refuse(f"has {key}: {self.fields[key]}, which isn't {count} numbers from 0 to {most}")
        return [int(word) for word in words]

    def number(self, key: str, most: int) -> int | None:
        """The number of a field that may be missing."""
        return self.numbers(key, 1, most)[0] if key in self.fields else None

    def output(self) -> tuple[str | None, tuple[int, str] | None]:
        """Returns where the output is lost, if it is, and the length and checksum of an output that isn't text."""
        value = self.fields.get("output")
        if (value is None) == (self.text is None):
            raise self.refuse("must have exactly one of text: and output:")
        if value is None or value in SINKS:
            return value, None
        words = value.split()
        if len(words) != 2 or not words[0].isdecimal() or len(words[1]) != 64:
            wanted = f"{' or '.join(SINKS)}, or a length with a checksum"
            raise self.refuse(f"has output: {value[:60]}, which is not {wanted}")
        return None, (int(words[0]), words[1])

    def take_changes(self) -> None:
        """Reads the changes of the input: bytes that are replaced, cut off and added."""
        try:
            self.given = b"".join(spelled(line) for line in self.file or [])
            place, _, piece = self.fields.get("change", "0 ").partition(" ")
            self.change = int(place), spelled(piece)
            self.cut = int(self.fields["cut"]) if "cut" in self.fields else None
            self.add = spelled(self.fields.get("add", ""))
        except ValueError as why:
            raise self.refuse(f"has invalid bytes, or an invalid place: {why}") from None

    def check_input(self) -> None:
        """Refuses a case whose input isn't one."""
        self.input = self.fields.get("input", "samples")
        if self.input not in INPUTS:
            raise self.refuse(f"has input: {self.input}, which is not one of {', '.join(INPUTS)}")
        blocks = len(self.scripts) + (self.file is not None)
        if self.input not in ("samples", "script") and blocks:
            raise self.refuse(f"has input: {self.input}, which takes no script or file")
        if self.input == "samples" and (blocks == 0 or (self.scripts and self.file is not None)):
            raise self.refuse("has no script or file" if blocks == 0 else "has both scripts and a file")
        if self.input == "script" and (len(self.scripts) != 1 or self.file is not None):
            raise self.refuse("has input: script, but not exactly one script")
        if len(self.places) != max(0, len(self.scripts) - 1):
            raise self.refuse(f"has {len(self.scripts)} scripts, but {len(self.places)} places")
        if self.scripts and self.input == "samples" and self.bits not in (8, 16):
            raise self.refuse(f"has bits: {self.bits}, which is neither 8 nor 16")
        if self.near is not None and (not self.scripts or self.text is None):
            raise self.refuse("has near: without a script or without a text")
        if self.against and not 0 < self.against[0] <= MOST_ROW:
            raise self.refuse(f"has against: {self.fields['against']}, whose first number isn't a row from 1 to {MOST_ROW}")

    def makes(self) -> bool:
        """Whether a run of it asks for samples or for a trial."""
        return any(words and words[0] in MAKING for words in self.runs)

    def wanted(self) -> bytes:
        """The text that is wanted of each run."""
        return "".join(line + "\n" for line in self.text or []).encode("ascii")


def made(maker: str, bits: int, script: Sequence[str], minutes: int) -> tuple[bytes, array.array[int]]:
    """The header and the parts, i and q in turn, of the samples that a script's cell sends."""
    words = [maker, "make"] + (["--bits", "8"] if bits == 8 else [])
    try:
        ran = subprocess.run(words, input=as_text(script), capture_output=True, timeout=60 * minutes)
    except OSError as why:
        raise Refused(f"{maker}: {why.strerror}") from None
    except subprocess.TimeoutExpired:
        raise Refused(f"{' '.join(words)} didn't end within {minutes} minutes") from None
    if ran.returncode:
        raise Refused(f"{' '.join(words)} ended with {ran.returncode}: {ran.stderr.decode(errors='replace').strip()[:200]}")
    if len(ran.stdout) < HEADER.size:
        raise Refused(f"{' '.join(words)} wrote no sample file")
    parts: array.array[int] = array.array(FORMS[2 if bits == 8 else 1])
    if (len(ran.stdout) - HEADER.size) % (2 * parts.itemsize):
        raise Refused(f"{' '.join(words)} wrote a file that ends within a sample")
    parts.frombytes(ran.stdout[HEADER.size :])
    if bits == 16 and sys.byteorder == "little":
        parts.byteswap()
    return ran.stdout[: HEADER.size], parts


def as_text(lines: Sequence[str]) -> bytes:
    """Lines as a text."""
    return "".join(line + "\n" for line in lines).encode("ascii")


def add_noise(parts: array.array[int], seed: int, bound: int) -> None:
    """Noise from -bound to bound: a draw for each part in turn, of a generator of 32 bits."""
    state, width = seed, 2 * bound + 1
    for at in range(len(parts)):
        state = (1_664_525 * state + 1_013_904_223) & 0xFFFF_FFFF
        parts[at] += ((state >> 16) * width >> 16) - bound


def one_louder(script: Sequence[str], row: int) -> list[str]:
    """A script whose channel on a row has a gain that is greater by one."""
    starts = [f"paging channel={row} ", f"traffic row={row} "] + (["sync "] if row == SYNC_ROW else [])

    def raised(found: re.Match[str]) -> str:
        return f" gain={int(found[1]) + 1}"

    lines = [re.sub(r" gain=([0-9]+)", raised, line) if line.startswith(tuple(starts)) else line for line in script]
    if lines == list(script):
        raise Refused(f"the script sends no channel on row {row}")
    return lines


def add_opposed(sums: array.array[int], parts: array.array[int], louder: array.array[int], size: int) -> None:
    """Adds noise against a channel: in each part it has this size and the sign opposite to the channel's part of the
    sample. What the channel adds is the difference that one more of its gain makes."""
    for at, (old, new) in enumerate(zip(parts, louder)):
        sums[at] -= size * ((new > old) - (new < old))


def samples_of(case: Case, maker: str, minutes: int) -> bytes:
    """The sample file of a case: the first script's, with the others' samples added from their places on, and noise."""
    wide = 16 if case.divide > 1 else case.bits
    head, parts = made(maker, wide, case.scripts[0], minutes)
    if case.places or case.noise or case.against or case.divide > 1:
        sums = array.array("i", parts)
        for place, script in zip(case.places, case.scripts[1:]):
            _, more = made(maker, wide, script, minutes)
            begin, end = 2 * place, 2 * place + len(more)
            sums[begin:end] = array.array("i", [a + b for a, b in zip(sums[begin:end], more)])
        if case.against:
            row, size = case.against
            _, louder = made(maker, wide, one_louder(case.scripts[0], row), minutes)
            add_opposed(sums, parts, louder, size)
        if case.noise:
            add_noise(sums, *case.noise)
        if case.divide > 1:
            sums = array.array("i", [(2 * part + case.divide) // (2 * case.divide) for part in sums])
        parts = array.array(FORMS[2 if case.bits == 8 else 1], sums)
    if parts.itemsize == 2 and sys.byteorder == "little":
        parts.byteswap()
    told = read_header(head, maker)
    return header(2 if case.bits == 8 else 1, told.flags, told.count) + parts.tobytes()


def input_of(case: Case, make: Callable[[], bytes]) -> bytes:
    """The bytes that a case gives to a receiver: made, given or a script, and then changed, cut and added to."""
    if case.input == "samples":
        data = make() if case.scripts else case.given
    else:
        data = as_text(case.scripts[0]) if case.input == "script" else b""
    place, piece = case.change
    data = data[:place] + piece + data[place + len(piece) :]
    return (data if case.cut is None else data[: case.cut]) + case.add


@contextlib.contextmanager
def source_of(case: Case, data: bytes) -> Iterator[IO[bytes] | int]:
    """Yields the receiver's input: a file with these bytes, a directory, or a dropped connection."""
    if case.input == "directory":
        with tempfile.TemporaryDirectory() as folder:
            descriptor = os.open(folder, os.O_RDONLY)
            try:
                yield descriptor
            finally:
                os.close(descriptor)
    elif case.input == "dropped":
        here, there = socket.socketpair()
        # That its other end is closed before it took this byte fails the next read here; the one after finds the end.
        here.send(b"x")
        there.close()
        with here:
            yield here.fileno()
    else:
        with as_file(data) as file:
            yield file


def sink_of(case: Case) -> int:
    """Returns the receiver's output: a pipe that is read, a pipe whose reader is gone, or a full disk."""
    if case.sink == "full":
        return os.open("/dev/full", os.O_WRONLY)
    if case.sink == "closed":
        reader, writer = os.pipe()
        os.close(reader)
        return writer
    return subprocess.PIPE


def asked(
    case: Case, program: str, words: Sequence[str], data: bytes, minutes: int, is_group: bool = False
) -> Answer | str:
    """Returns the end of a run of a receiver, or why it had to be ended. With is_group nothing that it began remains.
    """
    sink = sink_of(case)
    most = MOST_MORE + (case.written[0] if case.written else len(case.wanted()))
    try:
        with source_of(case, data) as source:
            ran = run_receiver([program, *words], source, 60 * minutes, most, sink, is_group)
            taken = 0 if isinstance(source, int) else os.lseek(source.fileno(), 0, os.SEEK_CUR)
    finally:
        if sink != subprocess.PIPE:
            os.close(sink)
    return ran.fault or Answer(ran.status, None if case.sink else ran.wrote, ran.told, taken)


def stretches(wanted: Sequence[str], written: Sequence[str]) -> Iterator[tuple[list[str], int]]:
    """Yields each stretch in which two texts differ: its first lines in both, with numbers, and the number of lines
    left out."""
    for tag, a, b, c, d in difflib.SequenceMatcher(None, wanted, written, autojunk=False).get_opcodes():
        if tag != "equal":
            said = numbered("wanted", wanted[a:b], a) + numbered("written", written[c:d], c)
            yield said, max(0, b - a - MOST_SHOWN) + max(0, d - c - MOST_SHOWN)


def numbered(what: str, lines: Sequence[str], before: int) -> list[str]:
    """Returns the first lines of a stretch, with their numbers in a text that has `before` lines above them."""
    return [f"line {before + 1 + k} {what}: {line[:MOST_LETTERS]}" for k, line in enumerate(lines[:MOST_SHOWN])]


def claimed(wrote: bytes) -> bytes:
    """The lines of a text of which a link with noise within its margins claims something."""
    return b"".join(line for line in wrote.splitlines(keepends=True) if not line.startswith(UNCLAIMED))


def lines_in(wrote: bytes, most: int) -> tuple[list[str], int]:
    """Returns the first lines of a text, with escapes for bytes that aren't ASCII, and the number of lines left out."""
    lines = wrote.split(b"\n", most)
    left = lines.pop().count(b"\n") if len(lines) > most else 0
    if lines and not lines[-1]:
        lines.pop()
    return [line.decode("ascii", errors="backslashreplace") for line in lines], left


def not_text(wrote: bytes) -> list[str]:
    """Returns the place of the first byte of a text that isn't ASCII, if it has one."""
    try:
        wrote.decode("ascii")
        return []
    except UnicodeDecodeError as why:
        line = wrote.count(b"\n", 0, why.start) + 1
        return [f"byte {why.start}, on line {line}, is {wrote[why.start]:#04x}, which isn't ASCII text"]


def text_differences(case: Case, wrote: bytes) -> list[str]:
    """Returns the differences of a text, in lines."""
    if case.near is not None:
        wrote = claimed(wrote)
    if wrote == case.wanted():
        return []
    written, left_out = lines_in(wrote, len(case.text or []) + MOST_COMPARED)
    found = list(stretches(case.text or [], written))
    said = [line for lines, _ in found[:MOST_SHOWN] for line in lines] or ["the last line has no line feed"]
    more = sum(left for _, left in found[:MOST_SHOWN]) + sum(len(lines) + left for lines, left in found[MOST_SHOWN:])
    more += left_out
    law = [NEAR.format(case.near)] if case.near is not None else []
    return law + not_text(wrote) + said + ([f".. and {more} more"] if more else [])


def error_differences(wanted: str, told: bytes) -> list[str]:
    """Returns the differences of the line on standard error, empty if the case expects none."""
    if told == (wanted + "\n" if wanted else "").encode("ascii"):
        return []
    written = told.decode(errors="replace")
    is_line = written.endswith("\n") and written.count("\n") == 1
    found = written[:-1] if is_line else repr(written) if written else "nothing"
    return [f"standard error wanted: {wanted or 'nothing'}", f"standard error written: {found[:MOST_LETTERS]}"]


def differences(case: Case, answer: Answer) -> list[str]:
    """Returns the differences in lines, empty if there is none."""
    said = []
    if answer.status != case.status:
        said.append(f"{ended_text(answer.status)}, wanted {case.status}")
    if case.error is not None:
        said += error_differences(case.error, answer.told)
    if case.written is not None:
        length, checksum = case.written
        wrote = answer.wrote or b""
        if (len(wrote), hashlib.sha256(wrote).hexdigest()) != (length, checksum):
            said.append(f"{length} bytes with another checksum wanted, {len(wrote)} written, the first: {wrote[:24].hex()}")
    elif case.sink is None:
        said += text_differences(case, answer.wrote or b"")
    if case.most_read is not None and answer.taken > case.most_read:
        said.append(f"{answer.taken} bytes of the input were taken, wanted at most {case.most_read}")
    return said


def told_lines(told: bytes) -> list[str]:
    """Returns the last lines that a failing receiver wrote on standard error."""
    lines = [line for line in told.decode(errors="replace").splitlines() if line.strip()]
    left = f" (the last of {len(lines)} lines)" if len(lines) > MOST_TOLD_LINES else ""
    return [f"standard error{left}: {line[:MOST_LETTERS]}" for line in lines[-MOST_TOLD_LINES:]]


Compared = Callable[[Case, Answer, Sequence[str], bytes], list[str]]
"""What compares an answer with a case: it is told the run's words and input too, and tells what differs, in lines."""


def tried(
    case: Case,
    program: str,
    maker: str,
    keep: str | None,
    minutes: int,
    compared: Compared,
) -> list[tuple[list[str], list[str]]]:
    """Returns for each run that differs its arguments and its differences, by the function that compares it with the
    case."""
    data = input_of(case, lambda: samples_of(case, maker, minutes))
    wanted = case.fields.get("sha256")
    if wanted and hashlib.sha256(data).hexdigest() != wanted:
        return [(case.words, [f"the samples that {maker} makes don't have the case's checksum"])]
    if keep:
        keep_vector(case, data, keep)
    found = []
    for words in case.runs:
        answer = asked(case, program, words, data, minutes, is_group=True)
        said = [answer] if isinstance(answer, str) else compared(case, answer, words, data)
        if said and not isinstance(answer, str) and case.error is None:
            said = [*said, *told_lines(answer.told)]
        if said:
            found.append((words, said))
    return found


def keep_vector(case: Case, data: bytes, folder: str) -> None:
    """Writes what another machine needs to try a case by itself: its input, and what is expected of each run."""
    parts = {".words": "".join(shlex.join(words) + "\n" for words in case.runs).encode()}
    parts[".status"] = f"{case.status}\n".encode()
    if data:
        parts[".script" if case.input == "script" else ".is95"] = data
    if case.sink is None and case.written is None:
        parts[".lines"] = case.wanted()
    for ending, content in parts.items():
        with open(os.path.join(folder, case.name + ending), "wb") as kept:
            kept.write(content)


def names_of_cases() -> list[str]:
    """The names of all cases, in order."""
    return names_in(CASES)


def shown(case: Case, words: Sequence[str], said: Sequence[str]) -> str:
    """Returns the report of a run that differs."""
    lines = "".join(f"    {printable(line)}\n" for line in said)
    return f"{case.name}: {case.purpose}: {shlex.join(words)}\n" + lines
