"""Random runs of the tools, with arguments, metadata and bytes that make no sense, and checks of how each run ends.

A run takes place within this process, as `commands.status_of` makes it: what a shell would see as a traceback is an
exception here. Each is drawn from a seed and a number, so a reported fault can be repeated.
"""

import contextlib
import io
import itertools
import json
import os
import random
import re
import shutil
import signal
import struct
import sys
import traceback
import warnings
from collections.abc import Callable, Iterator
from typing import Any, NamedTuple
from unittest import mock

from cdma_tools import hostile_ends
from cdma_tools.commands import scan, status_of
from cdma_tools.commands.make_capture import I_LAGS, Q_LAGS, signs
from cdma_tools.sample_header import HEADER, header

# Names for a file that is read, most of which exist.
INPUTS = ["input", "input", "cell.is95", "cell.is95", "input.sigmf-meta", "survey.txt", "it.script", "none", ""]
SECONDS, MOST_WAIT = 60, 600  # of a processor, and in all, in which each run has to end
MOST_CARRIERS = 1_000  # that a scan may search here: more would take half a minute
PILOT_CHIPS, PILOT_LEVEL = 70_000, 60  # of the pilot in a room for interrupts
ENDS_ONE_IN = 3  # runs of which one is a process whose end is looked at
MORE_ARGUMENTS = (0, 0, 1, 1, 2, 6)  # than those that a run needs
NUMBERS = [
    "0",
    "1",
    "-1",
    "2",
    "7",
    "64",
    "1e400",
    "-1e400",
    "1e30",
    "-1e30",
    "1e-300",
    "1e999999999",
    "nan",
    "-inf",
    "inf",
    "",
] + [
    "1/3",
    "1/0",
    "0x10",
    "1_000",
    "٣",
    "99999999999999999999",
    "9" * 400,
    "1.5",
    "-0",
    "1228800",
    "2457600",
    "3000000",
]
TEXTS = [
    "x",
    "-",
    "--",
    "",
    " ",
    "$x^$",
    "$\\frac$",
    "\udcff",
    "a\nb",
    "é",
    "0:-9999",
    "1:2:3:4",
    ":::",
    "0:0:0:10",
    "9:3:9600",
] + [
    "yes",
    "no",
    "try",
    "fit",
    "'",
    "--skip 1",
    "find",
    "follow --messages 1",
    "00c0ffee",
    "x" * 3_000,
    "/dev/full",
    "\x1b[1m",
]
VALUES: list[Any] = [
    0,
    1,
    -1,
    1e300,
    10**400,
    True,
    None,
    "",
    "cu8",
    "ci16_le",
    "cf32_le",
    "\ud800",
    "a\0b",
    "../x",
    [],
    {},
    [[]],
    2457600,
    3e6,
]
NAMES = [
    "core:datatype",
    "core:sample_rate",
    "core:dataset",
    "core:num_channels",
    "core:sha512",
    "core:header_bytes",
] + ["core:trailing_bytes", "core:metadata_only", "core:sample_start"]
LINES = [
    "pilot phase=64 energy=1509949440000",
    "survey pn=511 delta=0 energy=1509949440000",
    "sync at=294848 prev=3",
] + [
    "frame at=712704 rate=9600 good=1 bits=172:80 commands=0000000000000011",
    '{"line":"pilot","phase":64,"energy":9}',
    "[[",
    "é",
]
# For each tool: the options that take a number, a text and nothing, and its positional arguments.
OPTIONS: dict[str, tuple[str, str, str, tuple[str, ...]]] = {
    "import_capture": (
        "--rate --offset --shift --scale --skip --count --format --version --fingers --search --cell --pn",
        "--type --conjugate --equaliser --meta --checks",
        "--sum --lock --complement-30 --reflag",
        ("input", "output"),
    ),
    "channel": (
        "--rate --seconds --seed --ec-io --delay --carrier --drift --clock --clock-drift --dc --level",
        "--type --ideal --paths --eb-nt --iq --lose",
        "--equaliser --conjugate",
        ("cell", "output"),
    ),
    "scan": ("--rate --skip --step --search", "--type --conjugate", "--all --verbose", ("input",)),
    "domain": ("--rate --skip --shift --search", "--type --conjugate --equaliser --json --plot", "--all", ("input",)),
    "draw": ("--top --span --width --phase", "--title", "--log", ("kind", "picture", "input")),
    "explain": ("--paging --offset --rate-set --frame --span --fingers", "--traffic --picture", "--sync", ("input",)),
    "listen": (
        "--rate --shift --cells --pn --part --row --offset --fingers --search --frames",
        "--type --paging --traffic --traffic-file --out-dir --esn --conjugate --equaliser --out",
        "--json --append --complement-30",
        ("samples",),
    ),
    "lines": ("", "", "--back --table", ("input",)),
    "report": ("--rate --span --fingers --row --cells", "--type --import --esn", "", ("input", "page")),
    "curve": (
        "--from --to --step --frames --errors --row --seed --workers --minutes",
        "--words --path --other --title --against --beside",
        "",
        ("script",),
    ),
    "conformance": ("--minutes", "--only --keep", "--list", ("program",)),
    "agree": ("--seed --jobs", "--keep", "--print", ()),
    "make_capture": ("--phase --amplitude --noise --seed", "", "", ("output",)),
    "gate_times": ("", "--root", "", ("input",)),
}
# Arguments that every run of a tool gets, so that runs get beyond the first missing argument, and end soon.
GIVEN: dict[str, list[str]] = {
    "import_capture": ["--type", "ci8", "--rate", "2457600"],
    "channel": ["--seconds", "0.01"],
    "scan": ["--type", "ci8", "--rate", "2457600", "--search", "600"],
    "listen": ["--type", "ci8", "--rate", "2457600", "--search", "600"],
    "explain": ["--sync"],
    "curve": ["--from", "1", "--to", "1", "--step", "1", "--frames", "1"],
    "agree": ["--seed", "1", "--count", "1", "--print"],
    "make_capture": ["--count", "64"],
}
ONE_LINE = {
    "import_capture",
    "channel",
    "scan",
    "domain",
    "draw",
    "explain",
    "lines",
    "curve",
    "make_capture",
    "gate_times",
}
STATUSES = {"report": range(11)}  # those of follow, 9 and 10 (its --help)
FAILED = {"report": (2, 9)}  # the statuses of a run that writes nothing, if they aren't 1 and 2


class Ran(NamedTuple):
    """The end of a run: its command, its status, and its fault, empty if there is none."""

    command: str
    status: int
    fault: str


class TooSlow(BaseException):
    """A run didn't end in time."""


def metadata(draw: random.Random, data: str) -> bytes:
    """A .sigmf-meta with values that aren't meant."""
    if draw.randrange(8) == 0:
        return draw.choice(
            [b"", b"{", b"[" * 5_000, b'{"global":' * 2_000, b"\xff", b"null", b'{"global": 3}', b'{"global": {}}']
        )
    fields: dict[str, Any] = {"core:datatype": "ci8", "core:sample_rate": 2_457_600, "core:dataset": data}
    for _ in range(draw.randrange(4)):
        fields[draw.choice(NAMES)] = draw.choice(VALUES)
    captures = draw.choice([[], [{}], [{"core:sample_start": draw.choice(VALUES)}], draw.choice(VALUES)])
    return json.dumps({"global": fields, "captures": captures, "annotations": draw.choice([[], [{}], 3])}).encode()


def sample_file(draw: random.Random) -> bytes:
    """A sample file, whole or not, of zeros or noise."""
    count = draw.choice([0, 1, 63, 2_048, 40_000, 40_000, 40_000])
    parts = bytes(4 * count) if draw.randrange(8) == 0 else draw.randbytes(4 * count)
    if draw.randrange(6) == 0:
        return HEADER.pack(draw.randbytes(4), draw.randrange(4), draw.randrange(9), draw.randrange(1 << 40)) + parts
    return header(1, draw.randrange(4), count) + parts


def some_bytes(draw: random.Random) -> bytes:
    """The bytes of a file of some kind."""
    kind = draw.randrange(6)
    if kind == 0:
        return draw.randbytes(draw.randrange(300))
    if kind == 1:
        return struct.pack("<20f", *[draw.choice([0.0, 1.0, float("nan"), float("inf"), 1e38]) for _ in range(20)])
    if kind == 2:
        return "".join(draw.choice(LINES) + draw.choice(["\n", "", "\r\n"]) for _ in range(4)).encode()
    return bytes(80_000) if kind == 3 else draw.randbytes(80_000) if kind == 4 else sample_file(draw)


class Room:
    """A folder with the files of one run."""

    def __init__(self, folder: str, draw: random.Random, script: bytes) -> None:
        self.folder, self.draw = folder, draw
        self.kept = b"what was there before\n"
        self.put("cell.is95", sample_file(draw))
        self.put("it.script", script if draw.randrange(2) else script[: draw.randrange(len(script))])
        self.put("input", some_bytes(draw))
        self.put("survey.txt", f"{LINES[1]}\n".encode() * 3)
        self.put("input.sigmf-meta", metadata(draw, "input"))
        self.put("output", self.kept)

    def at(self, name: str) -> str:
        """The path of a file."""
        return os.path.join(self.folder, name)

    def put(self, name: str, data: bytes) -> None:
        """Makes a file."""
        with open(self.at(name), "wb") as file:
            file.write(data)

    def named(self, name: str) -> list[str]:
        """Returns the values for an argument without a name."""
        draw = self.draw
        choices: dict[str, Callable[[], list[str]]] = {
            "input": lambda: [self.at(draw.choice(INPUTS))],
            "samples": lambda: [self.at(draw.choice(INPUTS)), "--program", draw.choice(["/bin/true", "/bin/false", "/none"])],
            "cell": lambda: [self.at("cell.is95") + draw.choice(["", "", ":", ":1", f":{draw.choice(NUMBERS)}"])],
            "output": lambda: [
                draw.choice([self.at("output"), self.at("output"), "/dev/null", self.folder, self.at("none/x"), "-"])
            ],
            "kind": lambda: [draw.choice(["survey", "survey", "follow", "correlation", "x"])],
            "picture": lambda: [draw.choice([self.at("output.png"), self.at("output.svg"), self.at("output"), "-"])],
            "page": lambda: ["--out", draw.choice([self.at("output"), "/dev/null", "-"]), "--program", "/bin/false"],
            "script": lambda: [
                self.at(draw.choice(["it.script", "input"])),
                "--program",
                "/bin/false",
                "--out",
                self.at("out"),
            ],
            "program": lambda: [draw.choice(["/bin/false", "/none", self.at("input")]), "--only", "line_0"],
        }
        return choices[name]()

    def fault(self, tool: str, status: int) -> str:
        """Returns the fault of what a run of a tool left."""
        if any(name.startswith(".part-") for name in os.listdir(self.folder)):
            return "a file is left half written"
        with open(self.at("output"), "rb") as file:
            is_kept = file.read() == self.kept
        return "" if is_kept or status not in FAILED.get(tool, (1, 2)) else "an output was changed by a run that failed"


def drawn_arguments(tool: str, room: Room) -> list[str]:
    """The arguments of a run."""
    numbers, texts, flags, places = OPTIONS[tool]
    draw = room.draw
    words = [word for place in places for word in room.named(place)]
    words += [word for word in GIVEN.get(tool, []) if draw.randrange(20)]
    for _ in range(draw.choice(MORE_ARGUMENTS)):
        kind = draw.randrange(4)
        if kind < 2 and numbers:
            words += [draw.choice(numbers.split()), draw.choice(NUMBERS if draw.randrange(8) else TEXTS)]
        elif kind == 2 and texts:
            words += [draw.choice(texts.split()), draw.choice(TEXTS if draw.randrange(8) else NUMBERS)]
        elif flags:
            words.append(draw.choice(flags.split()))
    if draw.randrange(10) == 0:
        words.insert(draw.randrange(len(words) + 1), draw.choice(TEXTS))
    return words


def end_slow(*_: object) -> None:
    """Ends a run that takes too long."""
    raise TooSlow


@contextlib.contextmanager
def within_time() -> Iterator[None]:
    """Limits the processor time and the whole time of what is done in this context."""
    before = {number: signal.signal(number, end_slow) for number in (signal.SIGPROF, signal.SIGALRM)}
    signal.setitimer(signal.ITIMER_PROF, SECONDS)
    signal.alarm(MOST_WAIT)
    try:
        yield
    finally:
        signal.setitimer(signal.ITIMER_PROF, 0)
        signal.alarm(0)
        for number, handler in before.items():
            signal.signal(number, handler)


def text_stream(data: bytes = b"") -> io.TextIOWrapper:
    """A standard stream in memory."""
    return io.TextIOWrapper(io.BytesIO(data), encoding="utf-8", errors="backslashreplace")


def told_fault(tool: str, status: int, said: str) -> str:
    """Returns the fault of a run's end and of its standard error."""
    if status not in STATUSES.get(tool, range(3)):
        return "no status of the tool"
    if re.search("Traceback|Warning", said):
        return "a traceback or a warning"
    if "install the package" in said:
        return "a package is missing"
    is_one = said.count("\n") == 1 and said.endswith("\n")
    if (status == 2 or status == 1 and tool in ONE_LINE) and not is_one:
        return "not one line"
    return ""


def run(tool: str, words: list[str], data: bytes) -> tuple[int, str]:
    """Returns the status of a run, and the fault of that or of its standard error."""
    out, said = text_stream(), text_stream()
    streams = mock.patch.multiple(sys, stdin=text_stream(data), stdout=out, stderr=said)
    bounds = mock.patch.object(scan, "MOST_CARRIERS", MOST_CARRIERS)
    try:
        with streams, bounds, within_time(), warnings.catch_warnings():
            warnings.simplefilter("error")
            warnings.simplefilter("ignore", ResourceWarning)  # a user sees none
            status = status_of(tool, words)
    except TooSlow:
        return -1, f"it didn't end within {SECONDS} seconds of a processor, or {MOST_WAIT} in all"
    except BaseException as why:
        return -1, f"{type(why).__name__}: {why} in {traceback.format_tb(why.__traceback__)[-1].strip()}"
    said.seek(0)
    text = said.read()
    fault = told_fault(tool, status, text)
    return status, f"{fault}: status {status}, {text[:300]!r}" if fault else ""


@contextlib.contextmanager
def room_within(folder: str, name: str, draw: random.Random, script: bytes) -> Iterator[Room]:
    """A folder with the files of a run, which is the current one as long as the run lasts."""
    place, before = os.path.join(folder, name), os.getcwd()
    os.mkdir(place)
    try:
        os.chdir(place)
        yield Room(place, draw, script)
    finally:
        os.chdir(before)
        shutil.rmtree(place, ignore_errors=True)


def case(folder: str, script: bytes, seed: int, number: int) -> Ran:
    """The run of a number."""
    draw = random.Random(f"tools/{seed}/{number}")
    tool = draw.choice(sorted(OPTIONS))
    with room_within(folder, str(number), draw, script) as room:
        if draw.randrange(ENDS_ONE_IN) == 0:
            kind, line, fault = hostile_ends.case(room.folder, draw)
            return Ran(f"end {kind}", 0, f"run {number} of seed {seed}: {line}: {fault}" if fault else "")
        words = drawn_arguments(tool, room)
        status, fault = run(tool, words, some_bytes(draw))
        fault = fault or room.fault(tool, status)
    told = f"run {number} of seed {seed}: {tool} {' '.join(map(repr, words))}: {fault}" if fault else ""
    return Ran(tool, status, told)


def pilot_parts(chips: int) -> list[int]:
    """The parts, I and Q in turn, of a pilot's first chips."""
    both = zip(itertools.cycle(signs(I_LAGS)), itertools.cycle(signs(Q_LAGS)))
    return [PILOT_LEVEL * sign for pair in itertools.islice(both, chips) for sign in pair]


def interrupts_of(folder: str, script: bytes, seed: int, moments: int, number: int) -> list[Ran]:
    """The runs of a command line of `hostile_ends`, each interrupted in another part of the time that it takes.

    All files are whole, and there is a pilot in the sample file and in the recording.
    """
    line, lasts, found = hostile_ends.LINES[number], 0.0, []
    parts = pilot_parts(PILOT_CHIPS)
    for moment in range(moments):
        draw = random.Random(f"interrupts/{seed}/{number}/{moment}")
        with room_within(folder, f"{number}-{moment}", draw, script) as room:
            room.put("cell.is95", header(1, 0, PILOT_CHIPS) + struct.pack(f">{len(parts)}h", *parts))
            room.put("input", b"".join(2 * struct.pack("2b", *parts[at : at + 2]) for at in range(0, len(parts), 2)))
            room.put("it.script", script)
            lasts = lasts or hostile_ends.lasting(line, room.folder)
            wait = lasts * (moment + draw.random()) / moments
            told, fault = hostile_ends.interrupted_after(line, room.folder, draw, wait)
        told = f"moment {moment} of seed {seed}: {told}: {fault}" if fault else ""
        found.append(Ran(f"interrupted {line.split()[0]}", 0, told))
    return found
