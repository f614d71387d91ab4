"""What the model makes of a case: its input, and the end of each of its runs, for the commands that check and write
cases."""

from __future__ import annotations

import errno
import hashlib
import io
import os
from collections.abc import Sequence
from typing import NamedTuple

from cdma_model.air import Noise, TooLoud, received
from cdma_model.files import header_bytes, read_capture, sample_bytes
from cdma_model.noise import margins, rows_heard, search_roots, weaker
from cdma_model.run import WRITE_FAULT, run
from cdma_model.script import BadScript, Cell, read_script
from cdma_model.words import read_words
from cdma_tools.conformance import cases
from cdma_tools.errors import Refused

HELD_IN_MEMORY = 8_000_000
"""The most samples of a file that a check takes without being told to take long ones: some seconds and 0.5 GiB."""


class Item(NamedTuple):
    """A line of a case with a key, and the lines of the block after it."""

    key: str
    line: str
    block: list[str]


class Draft(cases.Case):
    """A case that may lack expected results; placeholders stand for them while it is read."""

    def __init__(self, name: str, items: list[Item]) -> None:
        self.items = items
        super().__init__(name)

    def has(self, key: str) -> bool:
        """Whether there is such a line in the file."""
        return any(item.key == key for item in self.items)

    def read_lines(self) -> None:
        """Takes the lines of the items, and of those that are missing."""
        stand_ins = [("status", "status: 0"), ("sha256", "sha256: " + 64 * "0")]
        lines = [line for item in self.items for line in [item.line, *item.block]]
        lines += [line for key, line in stand_ins if not self.has(key)]
        if not self.has("text") and not self.has("output"):
            lines.append("text:")
        block: list[str] | None = None
        for line in lines:
            block = self.take(line, block)


def items_of(text: str) -> list[Item]:
    """The lines with keys of a case's file, each with its block."""
    items: list[Item] = []
    for line in text.splitlines():
        if line.startswith("  ") and items:
            items[-1].block.append(line)
        else:
            items.append(Item(line.partition(":")[0], line, []))
    return items


def samples_of(case: cases.Case) -> bytes:
    """The sample file that a case's scripts make; raises `Refused`."""
    try:
        cells = [read_script(cases.as_text(script), 16 if case.divide > 1 else case.bits) for script in case.scripts]
        noise = Noise(pair_of(case.noise), pair_of(case.against), case.divide)
        total = received(case.bits, cells, case.places, noise)
    except (BadScript, TooLoud) as why:
        raise Refused(f"the case {case.name}: {why}") from None
    return header_bytes(case.bits, cells[0].checks, len(total)) + sample_bytes(case.bits, total)


def pair_of(numbers: Sequence[int]) -> tuple[int, int] | None:
    """Two numbers as a pair, and none as None."""
    return (numbers[0], numbers[1]) if numbers else None


def meant_cell(case: cases.Case) -> Cell:
    """The cell to whose samples those of a case are near: that of its first script, over a link that is as much weaker as
    the samples are divided by. Raises `Refused`."""
    cell = weaker(read_script(cases.as_text(case.scripts[0]), 16), case.divide)
    if cell is None:
        raise Refused(f"the case {case.name}: the link isn't a multiple of divide: {case.divide}")
    return cell


def farthest(data: bytes, clean: bytes) -> int:
    """Returns the greatest difference of the parts of two sample files."""
    apart = read_capture(data, 0).samples - read_capture(clean, 0).samples
    return int(max(abs(apart.real).max(), abs(apart.imag).max()))


def what_bears_less(cell: Cell, words: Sequence[str], near: int) -> list[str]:
    """Returns a line for each channel that a run receives, and for its search, that bears less noise than `near`."""
    _, options = read_words(list(words))
    margin_of = {f"the channel on row {row}": most for row, most in margins(cell, rows_heard(list(words))).items()}
    margin_of["the search"] = search_roots(cell, options["span"]).margin()
    return [
        f"{what} bears {most}, less than near: {near}"
        for what, most in margin_of.items()
        if most is None or most < near
    ]


def near_differences(case: cases.Case, data: bytes, near: int) -> list[tuple[list[str], list[str]]]:
    """Returns the differences from what a case says of samples that are near to its cell's: how near they are, what
    each channel and the search bear, and what the model decodes of the cell without noise."""
    cell = meant_cell(case)
    clean = header_bytes(case.bits, cell.checks, cell.samples) + sample_bytes(case.bits, received(case.bits, [cell], []))
    found = []
    apart = farthest(data, clean)
    if apart > near:
        found.append((case.words, [f"an I or Q value is {apart} from the cell's, more than near: {near}"]))
    for words in case.runs:
        if less := what_bears_less(cell, words, near):
            found.append((words, less))
        said = cases.differences(case, answer_of(case, words, clean))
        found += [(words, ["without noise:", *said])] if said else []
    return found


def input_of(case: cases.Case) -> bytes:
    """The input of a case; raises `Refused`."""
    return cases.input_of(case, lambda: samples_of(case))


def answer_of(case: cases.Case, words: Sequence[str], data: bytes) -> cases.Answer:
    """Returns the end of a run of the model, in this process.

    The first read of a directory or of a dropped connection fails. A write fails if the output's reader is gone, or if
    the output is full.
    """
    source = io.BytesIO(data)

    def read() -> bytes:
        if case.input in ("directory", "dropped"):
            raise OSError(errno.EISDIR, os.strerror(errno.EISDIR))
        return source.read()

    outcome = run(list(words), read)
    text = outcome.text()
    if case.sink and text:
        outcome, text = WRITE_FAULT, b""
    told = (outcome.said + "\n" if outcome.said else "").encode("ascii")
    return cases.Answer(outcome.status, text, told, source.tell())


def differences(case: cases.Case) -> list[tuple[list[str], list[str]]]:
    """The arguments of each run that differs, and what differs."""
    data = input_of(case)
    if case.fields.get("sha256", "") not in ("", hashlib.sha256(data).hexdigest()):
        return [(case.words, ["the samples that the model makes don't have the case's checksum"])]
    found = [(words, cases.differences(case, answer_of(case, words, data))) for words in case.runs]
    near = near_differences(case, data, case.near) if case.near is not None else []
    return [(words, said) for words, said in found if said] + near


def is_long(case: cases.Case) -> bool:
    """Whether a case has more samples than a check takes unless it is asked to."""
    counts = [word for script in case.scripts for line in script for word in line.split() if word.startswith("samples=")]
    made = case.input == "samples" and any(int(word[8:]) > HELD_IN_MEMORY for word in counts if word[8:].isdecimal())
    return made or len(case.given) > 4 * HELD_IN_MEMORY
