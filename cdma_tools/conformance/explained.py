"""Finds the first wrong step of a receiver's frame, by the lines `step` that it may write about its frames.

A line comes before that of the message or of the frame that ends in the frame, and has values of steps:

    step sync frame=K heard=.. softs=.. symbols=.. word=..
    step paging frame=K heard=.. scrambling=.. softs=.. symbols=.. word=..
    step traffic frame=K heard=.. scrambling=.. softs=.. symbols=.. word=.. quality=..

Frames are counted, and steps defined, as by `explain`, which the model computes. docs/FORMATS.md has the form.
"""

from __future__ import annotations

import dataclasses
import re
from collections.abc import Callable, Iterator, Sequence
from typing import Any

import numpy
from numpy.typing import NDArray

from cdma_model.bits import bits_of_text
from cdma_model.files import BadFile, Capture, read_capture
from cdma_model.handset import Assigned
from cdma_tools.conformance.cases import Answer, Case, claimed
from cdma_tools.explaining.frame_steps import (
    NoFrame,
    Reading,
    Steps,
    found_in,
    mark_of,
    paging_steps,
    sync_steps,
    traffic_steps,
)

FIRST_WORD = b"step "
LINE = re.compile(r"step (sync|paging|traffic) frame=([0-9]{1,6})((?: [a-z]+=[0-9a-f:,-]+)+)")
NUMBERS = re.compile(r"-?[0-9]{1,18}(?:,-?[0-9]{1,18})*")
# The steps in their order, with the number and the name that `explain` has.
NAMES = {
    "heard": "step 1, the symbols of the fingers, turned by the pilot and added up",
    "scrambling": "step 2, the scrambling bits",
    "softs": "step 3, the soft values in the order in which they are sent, unscrambled",
    "symbols": "step 4, the soft values of the code symbols in the encoder's order",
    "word": "step 5, the best codeword",
    "quality": "step 6, the quality indicator as it should be",
}
LAST = "step 7, the fields of the bits"
MOST_FRAMES = 64  # before one line that are examined


@dataclasses.dataclass(frozen=True)
class Told:
    """A line of steps: its channel, the frame's number, and the values by the names of steps."""

    channel: str
    frame: int
    values: dict[str, str]


class NoStep(Exception):
    """Why a line of steps can't be read, in words."""


def told_of(line: str) -> Told:
    """Returns the values of a line of steps; raises NoStep if it is not such a line."""
    found = LINE.fullmatch(line)
    if not found:
        raise NoStep(f"a line of steps doesn't have the form of docs/FORMATS.md: {line[:80]}")
    values = dict(pair.split("=") for pair in found[3].split())
    unknown = sorted(set(values) - set(NAMES))
    if unknown:
        raise NoStep(f"a line of steps has the unknown step {unknown[0]}: {line[:80]}")
    return Told(found[1], int(found[2]), values)


def parted(wrote: bytes) -> tuple[bytes, list[list[str]]]:
    """Returns a receiver's output without its lines of steps, and the lines of steps before each line and after the
    last."""
    kept, steps = [], [list[str]()]
    for line in wrote.splitlines(keepends=True):
        if line.startswith(FIRST_WORD):
            steps[-1].append(line.decode("ascii", errors="backslashreplace").rstrip("\n"))
        else:
            kept.append(line)
            steps.append([])
    return b"".join(kept), steps


def signs_of(text: str) -> NDArray[numpy.int64]:
    """The signs of soft values: numbers between commas, or N:HEX, in which a bit of 1 is below 0."""
    if ":" in text:
        return 1 - 2 * numpy.array(bits_in(text), dtype=numpy.int64)
    if not NUMBERS.fullmatch(text):
        raise NoStep(f"neither whole numbers separated by commas nor bits in the form N:HEX: {text[:60]}")
    return numpy.sign(numpy.array([int(number) for number in text.split(",")], dtype=numpy.int64))


def bits_in(text: str) -> list[int]:
    """The bits of a text N:HEX."""
    bits = bits_of_text(text)
    if bits is None:
        raise NoStep(f"not bits in the form N:HEX: {text[:60]}")
    return list(bits)


def soft_difference(text: str, right: NDArray[Any], erased: Sequence[int] | NDArray[Any] = ()) -> str:
    """Returns the difference of soft values from the right ones, by the signs of those that are sure; empty if there is
    none."""
    signs = signs_of(text)
    if len(signs) != len(right):
        return f"{len(signs)} values instead of {len(right)}"
    is_sure = numpy.abs(right) >= numpy.abs(right).mean() / 2
    is_sure[numpy.asarray(erased, dtype=int)] = False
    wrong = numpy.flatnonzero(is_sure & (signs != numpy.sign(right)))
    if len(wrong):
        return f"{len(wrong)} of {int(is_sure.sum())} sure values have another sign, the first is number {wrong[0]}"
    kept = [place for place in erased if signs[place]] if ":" not in text else []
    return f"{len(kept)} power control bits are taken for symbols, the first is number {kept[0]}" if kept else ""


def bit_difference(text: str, right: Sequence[int]) -> str:
    """Returns the difference of bits from the right ones, empty if there is none."""
    bits = bits_in(text)
    if len(bits) != len(right):
        return f"{len(bits)} bits instead of {len(right)}"
    wrong = [place for place, (bit, other) in enumerate(zip(bits, right)) if bit != other]
    return f"{len(wrong)} of {len(right)} bits differ, the first is number {wrong[0]}" if wrong else ""


def reading_with(steps: Steps, count: int) -> Reading:
    """Returns the rate with `count` code symbols, otherwise the right one."""
    fits = [reading for reading in steps.readings if len(reading.softs) == count]
    return fits[0] if fits else steps.readings[steps.shown]


def step_differences(told: Told, steps: Steps) -> Iterator[tuple[str, str]]:
    """Yields the name and the difference of each step of a line, in order."""
    shown = steps.readings[steps.shown]
    scrambling = [] if steps.scrambling is None else [int(bit) for bit in steps.scrambling]
    readers: dict[str, Callable[[str], str]] = {
        "heard": lambda text: soft_difference(text, steps.heard),
        "scrambling": lambda text: bit_difference(text, scrambling),
        "softs": lambda text: soft_difference(text, steps.turned, steps.replaced),
        "symbols": lambda text: soft_difference(text, reading_with(steps, len(signs_of(text))).softs),
        "word": lambda text: bit_difference(text, steps.bits),
        "quality": lambda text: bit_difference(text, shown.right),
    }
    for name, differs in readers.items():
        if name in told.values:
            yield name, differs(told.values[name])


class Explainer:
    """The steps of frames of one file, for receivers with these arguments."""

    def __init__(self, words: Sequence[str], data: bytes) -> None:
        parts = [part for word in words[1:] for part in word.split("=", 1)]
        self.given = {name[2:]: value for name, value in zip(parts[::2], parts[1::2])}
        self.rate_set = 2 if words[:1] == ["rate2"] else 1
        self.capture: Capture = read_capture(data, self.number("span", 2_048))
        if self.capture.end:
            raise self.capture.end
        self.found = found_in(self.capture, self.number("span", 2_048), self.number("fingers", 1))

    def number(self, name: str, other: int) -> int:
        """Returns the number of an option, or a default."""
        return int(self.given.get(name, other))

    def steps(self, channel: str, frame: int) -> Steps:
        """The steps of a frame; raises `NoFrame`."""
        if channel == "sync":
            return sync_steps(self.capture, self.found, frame)
        mark = mark_of(self.capture, self.found)
        if channel == "paging":
            return paging_steps(self.capture, self.found, mark, self.number("paging", 1), frame)
        if "esn" not in self.given or "row" not in self.given:
            raise NoFrame("the case names no traffic channel")
        assigned = Assigned(int(self.given["esn"], 16), self.number("row", 1), self.number("offset", 0))
        return traffic_steps(self.capture, self.found, mark, assigned, frame, self.rate_set)


def first_difference(wanted: Sequence[str], written: Sequence[str]) -> int:
    """The number of the first line that differs, from 0 on."""
    pairs = zip(wanted, written)
    return next((place for place, (one, other) in enumerate(pairs) if one != other), min(len(wanted), len(written)))


def explained(case: Case, words: Sequence[str], data: bytes, written: Sequence[str], lines: Sequence[str]) -> list[str]:
    """Returns the report on the lines of steps before the first line that differs."""
    place = first_difference(case.text or [], written)
    if not lines:
        return [f"no step was reported before line {place + 1}, the first that differs"]
    if case.input != "samples":
        return ["only steps of sample files are explained"]
    try:
        explainer = Explainer(words, data)
        for line in lines[-MOST_FRAMES:]:
            told = told_of(line)
            steps = explainer.steps(told.channel, told.frame)
            for name, difference in step_differences(told, steps):
                if difference:
                    return [f"{NAMES[name]}, differs in frame {told.frame} of the {told.channel} channel: {difference}"]
    except (NoStep, NoFrame) as why:
        return [str(why)]
    except (BadFile, ValueError) as why:
        return [f"the frame can't be explained: {why}"]
    last = [name for name in NAMES if any(f" {name}=" in line for line in lines)][-1]
    return [f"no reported step differs: look after {NAMES[last]}, at {LAST}, or at a step that wasn't reported"]


def compared_with_steps(
    compared: Callable[[Case, Answer], list[str]], case: Case, answer: Answer, words: Sequence[str], data: bytes
) -> list[str]:
    """Returns the differences of an answer without its lines of steps, and the first wrong step."""
    if answer.wrote is None or case.text is None:
        return compared(case, answer)
    wrote, steps = parted(answer.wrote if case.near is None else claimed(answer.wrote))
    said = compared(case, answer._replace(wrote=wrote))
    if not said:
        return []
    written = wrote.decode("ascii", errors="backslashreplace").splitlines()
    place = min(first_difference(case.text, written), len(steps) - 1)
    return said + explained(case, words, data, written, steps[place])
