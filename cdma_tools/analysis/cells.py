"""Every cell of a recording: the strongest is locked to, decoded, sent again and subtracted; then the next is looked
for.

The next cell's chips lie elsewhere, so it is locked to again on what is left. Then each cell is decoded again with all
others subtracted, in two rounds. An echo further off than paths are looked for is found as a cell too. It sends the
same symbols at the same chips as its cell, and isn't reported.
"""

import math
import os
from dataclasses import dataclass, field
from typing import IO, Callable

import numpy

from cdma_tools.analysis.kept_samples import KIND, KeptSamples, Together
from cdma_tools.analysis.symbols import GROUPS_AT_ONCE, Symbols, heard
from cdma_tools.analysis.taking_off import Span, Waves, waveform
from cdma_tools.analysis.walsh import GROUP_BLOCKS, PILOT_ROW, SYNC_ROW
from cdma_tools.errors import Refused
from cdma_tools.radio.air import PERIOD, ROWS
from cdma_tools.radio.locking import Held, Options, hold
from cdma_tools.radio.paths import Way
from cdma_tools.radio.second_pass import Piece, chips_of
from cdma_tools.recordings import Recording

# Paths of a cell that are received and regenerated; rounds in which each cell is received again without the others.
MOST_PATHS, ROUNDS = 4, 2
# Chips between the codes of neighbouring offsets: two cells differ by more, but for what their ways differ.
OFFSET = 64
# Standard deviations above which an echo's symbols are those of its cell. Those of two cells are uncorrelated.
LEAST_ECHO = 12.0
# Chips of which the power of a cell without the others is taken: a fifth of a second.
POWER_CHIPS = 245_760
# Hz around the first cell's carrier in which the others' are searched: base stations keep theirs within 50 Hz, and a
# moving radio shifts them by 200 at most.
NEXT_SEARCH = 1_000.0
# The most cells, with echoes, that are looked for.
MOST_CELLS = 12


@dataclass
class Cell:
    """A locked cell, what it sends as far as it was received, and its part of the recording."""

    held: Held
    part: KeptSamples
    ways: list[Way]
    folder: str
    symbols: list[Symbols] = field(default_factory=list)
    files: list[IO[bytes]] = field(default_factory=list)
    echo_of: int | None = None  # the number of the cell of which it is an echo

    def close(self) -> None:
        """Closes its files."""
        for file in self.files:
            file.close()
        self.files = []
        self.part.close()

    def hear(self, left: KeptSamples) -> None:
        """Hears what is left with its own part."""
        for file in self.files:
            file.close()
        self.held.front.recording = Together(left, self.part)
        self.symbols, self.files, self.waves = [], [], []
        for number, piece in enumerate(self.held.pieces):
            self.files.append(open(os.path.join(self.folder, f"levels{number}"), "w+b", buffering=0))
            symbols = heard(self.held.front, piece, self.ways, self.files[-1])
            if symbols is not None:
                self.symbols.append(symbols)
                self.waves.append(Waves(self.held.front, piece.fit, symbols, self.ways))

    def take_off(self, left: KeptSamples) -> None:
        """Subtracts its waves from what is left; zeros are left where it is on the air and isn't known."""
        behind = 0
        for waves in self.waves:
            span = waves.span
            self.clear(left, Span(behind, span.first))
            for first, samples in waveform(waves, left, self.part):
                rest = left.read(first, len(samples)) + self.part.read(first, len(samples)) - samples
                left.write(first, rest)
                self.part.write(first, samples)
            behind = span.behind
        self.clear(left, Span(behind, left.count))

    def clear(self, left: KeptSamples, span: Span) -> None:
        """Leaves nothing in samples."""
        for samples in (left, self.part):
            samples.clear(*span)

    def alone(self, left: KeptSamples) -> Held:
        """Its lock over what is left with its own part: itself without the other cells."""
        self.held.front.recording = Together(left, self.part)
        piece = max(self.held.pieces, key=lambda piece: piece.behind - piece.first)
        middle = (piece.first + piece.behind) // 2
        end = min(piece.behind, middle + POWER_CHIPS)
        chips = numpy.concatenate([chips for _, chips in chips_of(self.held.front, Piece(piece.fit, middle, end))])
        return self.held._replace(power=float(numpy.mean(chips.real**2 + chips.imag**2)))

    @property
    def used(self) -> list[int]:
        """The rows that it sends."""
        return sorted({row for symbols in self.symbols for row in symbols.used})


def later(cell: Cell, other: Cell) -> float:
    """Returns the chips by which a cell's code is later than another's, half way, within half a period."""
    fit, others = cell.held.pieces[0].fit, other.held.pieces[0].fit
    time = float(fit.times((fit.chip[0] + fit.chip[-1]) / 2))
    return float((others.chip_at(time) - fit.chip_at(time) + PERIOD / 2) % PERIOD - PERIOD / 2)


def common_symbols(cell: Cell, other: Cell) -> float:
    """Returns the standard deviations by which the symbols of two cells are the same, where their codes meet the same
    chips."""
    one, two = cell.symbols[0], other.symbols[0]
    # Chips are numbered from each lock's own period; the times of both give the number of periods between them.
    fit, others = cell.held.pieces[0].fit, other.held.pieces[0].fit
    time = float(fit.times(one.base))
    periods = PERIOD * round((others.chip_at(time) - one.base) / PERIOD)
    shift = (one.base + periods - two.base) // ROWS
    rows = [row for row in one.used if row in two.used and row not in (PILOT_ROW, SYNC_ROW)]
    if not rows:
        return 0.0
    total = squares = 0.0
    step = GROUPS_AT_ONCE * GROUP_BLOCKS
    for block in range(0, one.blocks, step):
        count = min(step, one.blocks - block)
        products = (one.levels(block, count) * two.levels(block + shift, count))[rows]
        total, squares = total + float(products.sum()), squares + float((products**2).sum())
    return total / math.sqrt(max(squares, 1e-30))


def echo_among(cell: Cell, cells: list[Cell]) -> int | None:
    """Returns the number of the cell of which one is an echo; None if it is a cell of its own."""
    for number, other in enumerate(cells):
        if other.echo_of is None and cell.symbols and other.symbols and abs(later(cell, other)) < OFFSET:
            if common_symbols(cell, other) > LEAST_ECHO:
                return number
    return None


class Search:
    """The cells of a recording, one after the other, strongest first."""

    def __init__(
        self,
        path: str,
        options: Options,
        folder: str,
        tell: Callable[[str], None] = lambda text: None,
        first: Held | None = None,
    ) -> None:
        """`folder` is for files of the size of the samples, of floating point: one, and one for each cell.

        `first` is the lock to the strongest cell, if it was made already; its samples may be closed.
        """
        self.path, self.options, self.folder, self.tell, self.first = path, options, folder, tell, first
        self.cells: list[Cell] = []
        self.left: KeptSamples | None = None

    def close(self) -> None:
        """Closes all files."""
        for cell in self.cells:
            cell.close()
        if self.left is not None:
            self.left.close()

    def __enter__(self) -> "Search":
        return self

    def __exit__(self, *_: object) -> None:
        self.close()

    @property
    def told(self) -> list[Cell]:
        """The cells without echoes."""
        return [cell for cell in self.cells if cell.echo_of is None]

    def lock(self) -> Held:
        """Returns the lock to the strongest pilot in what is left; raises Refused if there is none."""
        if self.left is None:
            return hold(self.path, self.options) if self.first is None else self.opened(self.first)
        first = self.cells[0].held
        fit = first.pieces[0].fit
        options = self.options._replace(
            kind=KIND, skip=0, conjugate="no", equaliser="yes" if first.stretches.has_equaliser else "no",
            shift=float(fit.hertz((fit.chip[0] + fit.chip[-1]) / 2)), search=NEXT_SEARCH,
        )  # fmt: skip
        return hold(self.left.path, options)

    def opened(self, held: Held) -> Held:
        """A lock that was made before, over the recording's samples."""
        options = self.options
        recording = Recording(self.path, options.kind, float(options.rate), options.skip, held.is_conjugate)
        held.front.recording = recording
        return held

    def next_cell(self) -> Cell | None:
        """Returns the next cell, decoded with all others subtracted; None if no further pilot is in what is left."""
        while len(self.cells) < MOST_CELLS:
            number = len(self.cells)
            self.tell(f"cell {len(self.told) + 1}")
            try:
                held = self.lock()
            except Refused:
                if not number:
                    raise
                return None
            cell = self.added(held)
            if cell.echo_of is None:
                return cell
        return None

    def added(self, held: Held) -> Cell:
        """Takes a lock as a further cell, and decodes all cells again."""
        recording, number = held.front.recording, len(self.cells)
        if self.left is None:
            self.left = KeptSamples(os.path.join(self.folder, "left"), recording.rate, recording.count)
            self.left.copy(recording)
        recording.close()
        folder = os.path.join(self.folder, f"cell{number}")
        os.mkdir(folder)
        part = KeptSamples(os.path.join(folder, "part"), recording.rate, recording.count)
        ways = sorted(held.ways, key=lambda way: -way.level)[:MOST_PATHS]
        cell = Cell(held, part, ways, folder)
        self.cells.append(cell)
        for turn in range(ROUNDS if number else 1):
            for other in reversed(self.cells):
                other.hear(self.left)
                if turn == 0 and other is cell:
                    cell.echo_of = echo_among(cell, self.cells[:-1])
                other.take_off(self.left)
        return cell
