"""The steps of a frame as text, in lines of a screen."""

from collections.abc import Sequence
from typing import Any

import numpy as np
from numpy.typing import NDArray

from cdma_model.bits import text_of_bits
from cdma_tools.explaining.frame_steps import Path, Steps

WIDTH = 79
COLUMNS = 64
MOST_PATHS = 3
MOST_SYMBOLS = 4
LONGEST_NUMBER = 42
"""The most bits of a field that is written as a number: those of LC_STATE."""
MOST_TEXT = 52


def wrapped(head: str, items: Sequence[str], indent: int = 4) -> list[str]:
    """Items after a head, in lines of the screen's width."""
    lines = [head]
    for item in items:
        if len(lines[-1]) + 1 + len(item) > WIDTH:
            lines.append(" " * indent)
        lines[-1] += ("" if lines[-1].isspace() else " ") + item
    return lines


def complex_text(value: complex) -> str:
    """A whole complex number."""
    return f"{value.real:.0f}{value.imag:+.0f}j"


def path_lines(number: int, path: Path) -> list[str]:
    """The pilot sums of a finger, and its first symbols."""
    finger = path.finger
    head = f"  finger {number}: code phase {finger.phase}, {finger.delta:+d} chips, Walsh row {finger.row}"
    alike = np.all(path.pilots == path.pilots[0])
    sums = [complex_text(value) for value in (path.pilots[:1] if alike else path.pilots[:MOST_SYMBOLS])]
    count = f"{len(path.pilots)} pilot sums{', all' if alike else ':'}"
    before = [complex_text(value) for value in path.sums[:MOST_SYMBOLS]]
    after = [f"{value.real:.1f}{value.imag:+.1f}j" for value in path.turned[:MOST_SYMBOLS]]
    return [
        head,
        *wrapped(f"    {count}", sums + ([] if alike else [".."]), 6),
        *wrapped("    symbol sums:", [*before, ".."], 6),
        *wrapped("    turned by the pilot:", [*after, ".."], 6),
    ]


def letters(softs: NDArray[Any], replaced: NDArray[Any]) -> str:
    """A letter for each soft value."""
    weak = np.abs(softs) < np.abs(softs).mean() / 2
    found = np.where(softs > 0, np.where(weak, "o", "0"), np.where(weak, "i", "1"))
    found[softs == 0] = "."
    found[replaced] = "p"
    return "".join(found)


def symbol_lines(softs: NDArray[Any], replaced: Sequence[int] | NDArray[Any] = ()) -> list[str]:
    """Soft values as letters, in lines, with the number of each line's first."""
    text = letters(softs, np.array(replaced, int))
    return [f"  {at:3} {text[at : at + COLUMNS]}" for at in range(0, len(text), COLUMNS)]


def hex_lines(bits: NDArray[Any]) -> list[str]:
    """Bits as hex digits, 256 a line."""
    digits = text_of_bits(list(bits)).partition(":")[2]
    return [f"  {4 * at:3} {digits[at : at + COLUMNS]}" for at in range(0, len(digits), COLUMNS)]


def reading_lines(steps: Steps) -> list[str]:
    """The best codewords of each rate."""
    lines = []
    for place, reading in enumerate(steps.readings):
        (best, _), (other, _) = reading.codewords[:2]
        mark = ">" if place == steps.shown and len(steps.readings) > 1 else " "
        lines.append(f" {mark} {reading.name}: score {best}, next best {other}")
    return lines


def quality_lines(steps: Steps) -> list[str]:
    """Returns the quality indicators, if the channel has them."""
    told = []
    for reading in steps.readings:
        if reading.right:
            sent, right = "".join(map(str, reading.sent)), "".join(map(str, reading.right))
            told.append(f"{reading.name}: {sent} " + ("right" if sent == right else f"but {right} is right"))
        elif len(steps.readings) > 1:
            told.append(f"{reading.name}: none")
    return [f"    {line}" for line in told] or ["    none: a message's check stands for it"]


def part_texts(steps: Steps) -> list[str]:
    """The fields with their values, and long ones as bits."""
    found = []
    for part in steps.parts:
        if part.value and len(part.bits) <= LONGEST_NUMBER:
            found.append(f"{part.name}={part.value}")
        else:
            text = text_of_bits(part.bits)
            text = text if len(text) <= MOST_TEXT else text[: MOST_TEXT - 2] + ".."
            found.append(f"{part.name}={text}" + (f" ({part.remark})" if part.remark else ""))
    return found


def text_of(steps: Steps) -> list[str]:
    """All steps, in lines of a screen."""
    lines = [steps.title, "1 fingers"]
    for number, path in enumerate(steps.paths[:MOST_PATHS]):
        lines += path_lines(number, path)
    if len(steps.paths) > MOST_PATHS:
        lines.append(f"  .. and {len(steps.paths) - MOST_PATHS} more fingers")
    lines.append("2 scrambling bits" + ("" if steps.scrambling is not None else ": none on the sync channel"))
    if steps.scrambling is not None:
        lines += hex_lines(steps.scrambling)
    shown = steps.readings[steps.shown]
    first = f"the first {complex_text(steps.turned[0])[:-3]}, the mean {np.abs(steps.turned).mean():.0f}"
    lines += [f"3 soft values as sent: {first}", *symbol_lines(steps.turned, steps.replaced)]
    lines += [f"4 soft values of the code symbols ({shown.name})", *symbol_lines(shown.softs)]
    lines += ["5 codewords", *reading_lines(steps), "6 quality indicators", *quality_lines(steps)]
    lines += wrapped("7 bits:", part_texts(steps))
    if steps.commands:
        lines.append(f"  power control bits {steps.commands}: 1 lowers the handset's power")
    return lines + [f"=> {line}" for line in steps.verdict]
