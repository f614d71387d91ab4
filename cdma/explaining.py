"""One frame step by step, from its samples to its bits, and the noise that a cell's channels bear (docs/LINK.md)."""

import html
from collections.abc import Collection
from dataclasses import dataclass
from typing import overload

import numpy
from numpy.typing import NDArray

from cdma.cells import Cell
from cdma.chips import Source, loaded
from cdma.errors import Error, FileError, ParameterError, as_errors
from cdma.events import Table
from cdma.parameters import HexNumber, Number, hex_text, instance_of, number_within, parts_of
from cdma_model.files import Capture
from cdma_model.handset import Assigned
from cdma_model.script import read_script as read_cell
from cdma_tools.explaining.frame_steps import TRAFFIC_ROWS, NoFrame, Steps, Wanted, steps_of
from cdma_tools.explaining.frame_text import text_of
from cdma_tools.margins import Margin, all_margins, name_of, rows_sent
from cdma_tools.scripting.arguments import number_of
from cdma_tools.scripting.values import Wrong
from cdma_tools.scripts import read_script
from cdma_tools.signs import Signs, signs

CHANNELS = ("sync", "paging", "traffic")
HEX_DIGITS = "eight hex digits"
FIRST_SPAN = 2_048
Rows = Collection[int] | None  # Walsh rows, None for all


@dataclass(frozen=True, repr=False)
class Explanation:
    """The steps of one frame; `str(explanation)` is the text of `tools/explain`.

    `soft_values` are step 3: the symbols as sent, turned by the pilot and unscrambled, 0 for a power control bit.
    `scrambling` are the bits of step 2, None on the sync channel. `code_symbols` are step 4, in the encoder's order at
    the rate that is chosen. `bits` are step 5: the frame's bits in the best codeword. `commands` are the power control
    bits as sixteen digits, and `verdict` says what was found.
    """

    title: str
    soft_values: NDArray[numpy.float64]
    scrambling: NDArray[numpy.uint8] | None
    code_symbols: NDArray[numpy.float64]
    bits: NDArray[numpy.uint8]
    commands: str
    verdict: tuple[str, ...]
    text: str

    def __str__(self) -> str:
        """Returns all steps in lines of a screen."""
        return self.text

    def __repr__(self) -> str:
        """Returns the title."""
        return f"<Explanation: {self.title}>"

    def _repr_html_(self) -> str:
        """Returns the text for a notebook."""
        return f"<pre>{html.escape(self.text)}</pre>"


def explain(
    chips: Source,
    *,
    channel: str,
    frame: Number = 0,
    paging: Number = 1,
    esn: HexNumber | None = None,
    row: Number | None = None,
    offset: Number = 0,
    rate_set: Number = 1,
    span: Number = FIRST_SPAN,
    fingers: Number = 1,
) -> Explanation:
    """Returns the steps of frame number `frame` of a channel, counted from 0 on.

    `channel` is `sync`, `paging` (number `paging`, 1 to 7) or `traffic` (`esn`, `row`, `offset` and `rate_set`, 1 or
    2). Frames of the sync channel are counted from the first that begins in the chips, the others from the mark, which
    the first sync message sets. The model computes the steps, so no program is needed.

    Raises `cdma.Error` if there is no such frame.

    >>> cell = cdma.Cell(pn=511, samples=204_800)
    >>> cell.add_sync()
    >>> steps = cdma.explain(cdma.make(cell), channel="sync", frame=1)
    >>> len(steps.soft_values), len(steps.code_symbols), len(steps.bits)
    (128, 64, 32)
    >>> steps.verdict[-1]
    "all code symbols are the best codeword's (steps 4 and 5)"
    """
    searched = number_within("span", span, 64, 32_768)
    paths, index = number_within("fingers", fingers, 1, 3), number_within("frame", frame, 0, 1 << 20)
    if not isinstance(channel, str) or channel not in CHANNELS:
        raise ParameterError("channel", f"one of {', '.join(CHANNELS)} is needed, not {channel!r:.60}")
    number = number_within("paging", paging, 1, 7)
    assigned = assigned_of(esn, row, offset) if channel == "traffic" else None
    wanted = Wanted(channel, index, number, assigned, number_within("rate_set", rate_set, 1, 2))
    capture = capture_of(chips, searched)
    with as_errors():
        try:
            return explanation_of(steps_of(capture, wanted, searched, paths))
        except NoFrame as why:
            raise Error(str(why)) from None


def assigned_of(esn: HexNumber | None, row: Number | None, offset: Number) -> Assigned:
    """Returns the traffic channel of parameters."""
    for name, value in (("esn", esn), ("row", row)):
        if value is None:
            raise ParameterError(name, "a traffic channel needs it")
    try:
        serial = number_of("esn", hex_text("esn", esn, 8), HEX_DIGITS)
    except Wrong as why:
        raise ParameterError("esn", str(why)) from None
    place = number_within("row", row, 1, 63)
    if place not in TRAFFIC_ROWS:
        raise ParameterError("row", f"{place} is the sync channel's")
    return Assigned(serial, place, number_within("offset", offset, 0, 15))


def capture_of(source: Source, span: int, name: str = "chips") -> Capture:
    """Returns chips as the model has them; raises FileError if there are fewer than a search takes."""
    chips = loaded(source, name)
    if len(chips) < span:
        raise FileError("too few", 8)
    return Capture(bool(chips.checks & 1), bool(chips.checks & 2), len(chips), chips.as_complex(), None)


def explanation_of(steps: Steps) -> Explanation:
    """Returns steps as arrays and as text."""
    scrambling = None if steps.scrambling is None else numpy.asarray(steps.scrambling, numpy.uint8)
    return Explanation(
        title=steps.title,
        soft_values=numpy.asarray(steps.turned, float),
        scrambling=scrambling,
        code_symbols=numpy.asarray(steps.readings[steps.shown].softs, float),
        bits=numpy.asarray(steps.bits, numpy.uint8),
        commands=steps.commands,
        verdict=tuple(steps.verdict),
        text="\n".join(text_of(steps)),
    )


@overload
def margin(cell: Cell, *, file: None = None, span: Number = ..., rows: Rows = ...) -> Table[Margin]:
    """Returns margins."""


@overload
def margin(cell: Cell, *, file: Source, span: Number = ..., rows: Rows = ...) -> Table[Signs]:
    """Returns what is covered of a file."""


def margin(
    cell: Cell, *, file: Source | None = None, span: Number = FIRST_SPAN, rows: Collection[int] | None = None
) -> Table[Margin] | Table[Signs]:
    """Returns the greatest noise that the search and the channels of a cell bear, whatever the noise is.

    The first row is the search over `span` samples; then each channel but the pilot follows, or those on some Walsh
    `rows`. A row has the channel's `name`, `row`, `gain` and `amplitude`, its `margin` in units of a sample's parts,
    and the margin's shares of the channel's amplitude and of the whole signal's.

    With `file`, chips or the path of a sample file, a row is a `cdma.Signs`: which frames of these chips come back in
    any case.

    Raises `cdma.Error` if a channel bears no noise or isn't sent, or if chips aren't the cell's.

    >>> cell = cdma.read_script(examples / "second_of_paging.script")
    >>> [(row.name, row.margin) for row in cdma.margin(cell)][1:]
    [('sync', 89), ('paging 1', 179)]
    >>> short = cdma.Cell(samples=40_000)
    >>> short.add_sync()
    >>> [(row.name, row.frames, row.covered) for row in cdma.margin(short, file=cdma.make(short))]
    [('sync', 1, 1)]
    """
    searched = number_within("span", span, 64, 32_768)
    wanted = None if rows is None else [number_within("rows", row, 0, 63) for row in parts_of("rows", rows)]
    spelled = instance_of("cell", cell, Cell).script()
    script, text = read_script(spelled, "the cell"), spelled.encode()
    with as_errors():
        if file is None:
            return Table(all_margins(script, read_cell(text), searched, wanted))
        names = {row: name_of(script, row) for row in rows_sent(script, wanted)}
        return Table(signs(capture_of(file, searched, "file"), read_cell(text), searched, names)[1])
