"""Cells: what a base station sends, channel by channel, as the script that the program reads (docs/FORMATS.md)."""

import math
import os
from collections.abc import Iterable, Mapping, Sequence
from typing import Any

from cdma.bits import Bits, bit_text
from cdma.chips import Chips, read_samples
from cdma.errors import ParameterError, ScriptError, as_errors
from cdma.events import html_table
from cdma.parameters import HexNumber, Number, hex_text, instance_of, number_within, parts_of, path_of, whole
from cdma.running import Running
from cdma_tools.heard_run import CHIP_RATE
from cdma_tools.margins import name_of
from cdma_tools.reading import read_within
from cdma_tools.scripting import checking, showing, statements
from cdma_tools.scripting.values import BitText, Commands, HexDigits, Reader, Wrong
from cdma_tools.scripts import PILOT_ROW, Script, fields_of
from cdma_tools.scripts import read_script as script_of
from cdma_tools.writing import write_beside

NAME = "the cell"  # of a script that has no file, in the line of a fault
FIRST_STATE = 1 << 41  # a state of the long code
PAGE_STARTS = ("half", "next")
PageBody = Bits | tuple[str, Bits]  # bits, or "half" or "next" and bits
FrameBody = tuple[Number, Bits] | tuple[Number, Bits, Bits | str]  # rate, bits, power control bits
SECTIONS = {"sync": "sync", "paging": "paging", "page": "paging"}
SECTIONS |= {"traffic": "traffic", "frame": "traffic", "frame2": "traffic"}


class Cell:
    """A cell: a pilot, to which channels are added.

    `Cell(pn=511)` has only a pilot. The parameters are the values of a script's lines `cell`, `link` and `pilot`:

    - `pn`, 0 to 511, is the pilot offset.
    - `time` is the system time of local chip 0 in units of 80 ms.
    - `lc` is the state of the long code then: a number, or eleven hex digits.
    - `checks`, 0 to 3, has the flags of the sample file.
    - `re` and `im`, -32,768 to 32,767 and not both 0, are the factor of the link.
    - `start` is the local chip of the first sample.
    - `samples` is the number of samples, 1,228,800 in a second.
    - `gain`, 1 to 65,535, is the amplitude of the pilot in I and in Q.

    The sync channel is added first, then paging and traffic channels in any order. Each addition is checked at once:
    `cdma.ParameterError` names a wrong parameter, `cdma.ScriptError` says why the channels don't go together, and the
    cell stays as it was.

    >>> cell = cdma.Cell(pn=511, time=1000, samples=614_400)
    >>> cell.add_sync(gain=30, sid=1, nid=2)
    >>> cell.add_paging(1, gain=60, pages=["34:04ff8046c0"])
    >>> print(cell.script(), end="")
    cell pn=511 time=1000 lc=20000000000 checks=0
    link re=1 im=0 start=0 samples=614400
    pilot gain=100
    sync gain=30 prev=3 min=1 sid=1 nid=2 lp=13 ltm=0 daylt=0 prat=0 rest=3:00
    paging channel=1 gain=60
    page half 34:04ff8046c0
    """

    def __init__(
        self,
        pn: Number = 0,
        *,
        time: Number = 1_000,
        lc: HexNumber = FIRST_STATE,
        checks: Number = 0,
        re: Number = 1,
        im: Number = 0,
        start: Number = 0,
        samples: Number = CHIP_RATE,
        gain: Number = 100,
    ) -> None:
        """Makes a cell with a pilot."""
        lines = [
            named_line("cell", statements.CELL, {"pn": pn, "time": time, "lc": lc, "checks": checks}),
            named_line("link", statements.LINK, {"re": re, "im": im, "start": start, "samples": samples}),
            named_line("pilot", statements.PILOT, {"gain": gain}),
        ]
        self._sections: dict[str, list[str]] = {"head": lines, "sync": [], "paging": [], "traffic": []}
        self._check()

    @classmethod
    def from_script(cls, script: str) -> "Cell":
        """Returns the cell of a script's text; raises `cdma.ScriptError` if it names none.

        >>> cdma.Cell.from_script(cdma.Cell(pn=3).script())
        <Cell: pn=3; pilot; 1 s>
        """
        return cell_of(instance_of("script", script, str).encode("utf-8", "surrogatepass"), NAME)

    def _check(self) -> None:
        """Raises ScriptError if the channels don't go together."""
        if faults := faults_of(self.script().encode()):
            raise ScriptError(faults, NAME)

    def _add(self, section: str, lines: Iterable[str]) -> None:
        """Adds lines to a section; the cell stays as it was if they don't go together with it."""
        before = self._sections[section]
        self._sections[section] = [*before, *lines]
        try:
            self._check()
        except ScriptError:
            self._sections[section] = before
            raise

    def add_sync(
        self,
        *,
        gain: Number = 30,
        prev: Number = 3,
        min: Number = 1,
        sid: Number = 1,
        nid: Number = 2,
        lp: Number = 13,
        ltm: Number = 0,
        daylt: Number = 0,
        prat: Number = 0,
        freq: Number | None = None,
        rest: Bits | None = None,
    ) -> None:
        """Adds the sync channel with its message, whose fields have the names of the line `sync`.

        Paging channels need a `prat` of 0 (9,600 bits per second) or 1 (4,800). `rest` has the bits after the fields:
        3 bits without `freq`, otherwise 0 to 976 in steps of 8; by default 3 zeros or none.
        """
        values = {"gain": gain, "prev": prev, "min": min, "sid": sid, "nid": nid, "lp": lp, "ltm": ltm}
        values |= {"daylt": daylt, "prat": prat}
        if freq is None:
            line = named_line("sync", statements.SYNC, {**values, "rest": "3:00" if rest is None else rest})
        else:
            more = {"freq": freq, "rest": "0:" if rest is None else rest}
            line = named_line("sync", statements.SYNC_WITH_FREQUENCY, {**values, **more})
        self._add("sync", [line])

    def add_paging(self, channel: Number, *, gain: Number = 60, pages: Sequence[PageBody]) -> None:
        """Adds paging channel `channel`, 1 to 7, which is also its Walsh row.

        `pages` are the bodies of its messages, from MSG_TYPE to the bit before the check: N:HEX, or an array of 0 and
        1. A page begins with the next half-frame; `("next", bits)` begins right after the page before it. The channel
        sends its pages again and again.
        """
        head = named_line("paging", statements.PAGING, {"channel": channel, "gain": gain})
        self._add("paging", [head, *map(page_line, parts_of("pages", pages))])

    def add_traffic(
        self,
        row: Number,
        *,
        esn: HexNumber,
        offset: Number = 0,
        gain: Number = 40,
        frames: Sequence[FrameBody],
    ) -> None:
        """Adds a traffic channel on Walsh row `row` for the handset with a serial number, `esn`.

        `esn` is a number or eight hex digits, and `offset`, 0 to 15, the FRAME_OFFSET. `frames` are sent again and
        again. Each is a tuple of its rate in bits per second, its information bits, and its sixteen power control bits,
        which are zeros if they are left out. Rates 9,600, 4,800, 2,400 and 1,200 are of rate set 1 and have 172, 80, 40
        and 16 bits. Rates 14,400, 7,200, 3,600 and 1,800 are of rate set 2 and have 268, 126, 56 and 22 bits.

        >>> cell = cdma.Cell()
        >>> cell.add_sync()
        >>> cell.add_traffic(12, esn="00c0ffee", frames=[(1200, "16:f00d"), (1200, [0] * 16, "01" * 8)])
        >>> cell.gains
        {0: 100, 32: 30, 12: 40}
        """
        head = named_line(
            "traffic", statements.TRAFFIC, {"row": row, "esn": esn, "offset": offset, "gain": gain}
        )
        self._add("traffic", [head, *map(frame_line, parts_of("frames", frames))])

    def script(self) -> str:
        """Returns the script of the cell."""
        return "".join(f"{line}\n" for section in self._sections.values() for line in section)

    __str__ = script

    def save(self, path: str | os.PathLike[str]) -> None:
        """Writes the script into a file, completely or not at all; raises `cdma.Error` if that fails."""
        name = path_of("path", path)
        with as_errors(), write_beside(name) as file:
            file.write(self.script().encode())

    def describe(self, bits: int = 16) -> str:
        """Returns a description in words: levels, lengths and margins, for samples of `bits` bits."""
        return showing.shown(self.script(), width_of(bits))

    def _script(self) -> Script:
        """Returns the values of the script."""
        return script_of(self.script(), NAME)

    @property
    def pn(self) -> int:
        """The pilot offset."""
        return int(fields_of(self._sections["head"][0].split(" "))["pn"])

    @property
    def samples(self) -> int:
        """The number of samples."""
        return self._script().samples

    @property
    def gains(self) -> dict[int, int]:
        """The gain of each channel by its Walsh row, the pilot's first."""
        return dict(self._script().gains)

    def __eq__(self, other: object) -> bool:
        """Whether both have the same script."""
        return isinstance(other, Cell) and other.script() == self.script()

    __hash__ = None  # type: ignore[assignment]

    def __repr__(self) -> str:
        """Returns the pilot offset, the names of the channels, and the length."""
        script = self._script()
        names = ", ".join(channel_name(script, row) for row in script.gains)
        return f"<Cell: pn={self.pn}; {names}; {script.samples / CHIP_RATE:.3g} s>"

    def _repr_html_(self) -> str:
        """Returns the channels as an HTML table."""
        script = self._script()
        rows: list[dict[str, Any]] = [
            {
                "channel": channel_name(script, row),
                "row": row,
                "gain": gain,
                "dB of the pilot": f"{20 * math.log10(gain / script.gains[PILOT_ROW]):.1f}",
            }
            for row, gain in script.gains.items()
        ]
        return html_table(rows, len(rows))


def channel_name(script: Script, row: int) -> str:
    """Returns the name of the channel on a row."""
    return "pilot" if row == PILOT_ROW else name_of(script, row)


def spelled(name: str, reader: Reader, value: object) -> str:
    """Returns a value as a script has it; raises ParameterError if it is refused."""
    if isinstance(reader, HexDigits):
        text = hex_text(name, value, reader.count)
    elif isinstance(reader, (BitText, Commands)):
        text = spelled_bits(name, value)
    else:
        text = str(whole(name, value))
    try:
        reader.read(text)
    except Wrong as why:
        raise ParameterError(name, str(why)) from None
    return text


def spelled_bits(name: str, value: object) -> str:
    """Returns bits as N:HEX, from such a text or from numbers 0 and 1."""
    if isinstance(value, str):
        return value
    try:
        return bit_text(value)  # type: ignore[arg-type]
    except (ParameterError, TypeError, ValueError):
        raise ParameterError(name, f"bits are N:HEX or a row of numbers 0 and 1, not {value!r:.60}") from None


def named_line(name: str, readers: Mapping[str, Reader], values: Mapping[str, object]) -> str:
    """Returns a line of a script with values `name=value`."""
    return " ".join([name, *(f"{key}={spelled(key, readers[key], values[key])}" for key in readers)])


def page_line(page: PageBody) -> str:
    """Returns the line of a page."""
    start, body = page if isinstance(page, tuple) and len(page) == 2 and isinstance(page[0], str) else ("half", page)
    if start not in PAGE_STARTS:
        raise ParameterError("pages", f'a page begins "half" or "next", not {start!r:.60}')
    return f"page {start} {spelled('pages', BitText(statements.why_no_body), body)}"


def frame_line(frame: FrameBody) -> str:
    """Returns the line of a frame."""
    if not isinstance(frame, tuple) or len(frame) not in (2, 3):
        raise ParameterError("frames", "a frame is a tuple of rate, bits and, if not zeros, power control bits")
    values: tuple[Any, ...] = frame
    rate, commands = whole("frames", values[0]), values[2] if len(values) == 3 else "0" * 16
    names = [name for name, sizes in statements.FRAME_BITS.items() if rate in sizes]
    if not names:
        rates = ", ".join(f"{one:,}" for sizes in statements.FRAME_BITS.values() for one in sizes)
        raise ParameterError("frames", f"{rate} is not a rate of a frame ({rates})")
    size = statements.FRAME_BITS[names[0]][rate]

    def why_not(count: int) -> str | None:
        return None if count == size else f"a frame of {rate} has {size} bits, here are {count}"

    digits = commands if isinstance(commands, str) else "".join(str(whole("frames", bit)) for bit in commands)
    try:
        Commands().read(digits)
    except Wrong as why:
        raise ParameterError("frames", str(why)) from None
    return f"{names[0]} {rate} {spelled('frames', BitText(why_not), values[1])} {digits}"


def faults_of(script: bytes) -> list[checking.Fault]:
    """Returns the faults of a script, but for a length that samples of 8 bits may have: `make` checks that again."""
    longest = max(checking.MOST_SAMPLES.values())
    return [
        fault
        for fault in checking.check(script)
        if fault.kind is not checking.Kind.TOO_LONG or int(fault.value) > longest
    ]


def cell_of(script: bytes, name: str) -> Cell:
    """Returns the cell of a script; raises ScriptError, with the script's name, if it names none."""
    if faults := faults_of(script):
        raise ScriptError(faults, name)
    cell = Cell.__new__(Cell)
    cell._sections = {"head": [], "sync": [], "paging": [], "traffic": []}
    for line in script.decode("ascii").splitlines():
        cell._sections[SECTIONS.get(line.split(" ", 1)[0], "head")].append(line)
    return cell


def read_script(path: str | os.PathLike[str]) -> Cell:
    """Returns the cell of a script's file.

    Raises `cdma.ScriptError` if the script names no cell, and `cdma.Error` if it can't be read.

    >>> cdma.read_script(examples / "second_of_paging.script")
    <Cell: pn=511; pilot, sync, paging 1; 1 s>
    """
    name = path_of("path", path)
    with as_errors():
        return cell_of(read_within(name, checking.MOST_BYTES + 1), name)


def width_of(bits: object) -> int:
    """Returns the number of bits of a sample, 8 or 16."""
    width = number_within("bits", bits, 8, 16)
    if width not in checking.LOUDEST:
        raise ParameterError("bits", f"8 or 16 is needed, not {width}")
    return width


def make(cell: Cell, *, bits: Number = 16) -> Chips:
    """Returns the samples that a cell sends: chips of type int16, or int8 if `bits` is 8.

    Raises `cdma.ScriptError` if the cell is too loud or too long for samples of 8 bits.

    >>> chips = cdma.make(cdma.Cell(pn=511, samples=2_048, gain=100))
    >>> chips
    <Chips: 2,048 samples of 16 bits, 0.00167 s, checks=0>
    >>> int(abs(chips).min()), int(abs(chips).max())
    (100, 100)
    """
    width = width_of(bits)
    script = instance_of("cell", cell, Cell).script().encode()
    if faults := checking.check(script, width):
        raise ScriptError(faults, NAME)
    running = Running(["make", "--bits", str(width)], [script])
    try:
        chips = read_samples(running.output)
        running.finish(0)
    except BaseException:
        running.stop()
        raise
    return chips
