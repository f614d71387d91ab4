"""The crates as the rooms of a house: by side and layer, with the sizes of code, contracts, definitions and proofs."""

from __future__ import annotations

import os
import re
from collections.abc import Iterator, Mapping, Sequence
from dataclasses import dataclass
from typing import NamedTuple
from xml.sax.saxutils import escape

from cdma_tools.repository.crate_list import SIDES, chains, side_of

KINDS = ("code", "contracts", "definitions", "proofs")
COLOURS = ("#2f6f9f", "#d08a2a", "#6a9a3b", "#a9a9b5")
# The beginning of a contract in a .rt file; it continues until its brackets are closed.
CONTRACT = re.compile(r"\s*(ghost|requires|ensures)\b")
COMMENTS = {".rt": "//", ".antt": "--"}
OPENING, CLOSING = "({[", ")}]"
# The picture's measures, in its own units.
MARGIN, HEAD, LABEL, GAP = 16, 76, 34, 6
ROOM_WIDTH, ROOM_HEIGHT, BAR_HEIGHT = 236, 46, 10
STYLE = "text{font-family:sans-serif;fill:#222}.n{font-size:13px;font-weight:bold}.s{font-size:10px}.t{font-size:14px}"


class Lines(NamedTuple):
    """Numbers of lines of a crate by kind, without empty lines and comments."""

    code: int = 0
    contracts: int = 0
    definitions: int = 0
    proofs: int = 0

    def plus(self, other: Lines) -> Lines:
        """The sums, kind by kind."""
        return Lines(*(one + another for one, another in zip(self, other)))


@dataclass(frozen=True)
class Room:
    """A crate's place: its column from the left and its row from the top, in rooms, and its lines."""

    name: str
    column: int
    row: int
    lines: Lines


def told_lines(text: str, ending: str) -> Iterator[str]:
    """Yields the lines of a file that the compiler or the prover reads."""
    for line in text.splitlines():
        if line.strip() and not line.lstrip().startswith(COMMENTS[ending]):
            yield line


def code_and_contracts(text: str) -> Lines:
    """The lines of a .rt file: those of contracts and other ghosts, and all others."""
    code = contracts = depth = 0
    for line in told_lines(text, ".rt"):
        if depth > 0 or CONTRACT.match(line):
            contracts += 1
            depth += sum(line.count(sign) for sign in OPENING) - sum(line.count(sign) for sign in CLOSING)
        else:
            code += 1
    return Lines(code=code, contracts=contracts)


def files_below(folder: str, ending: str) -> Iterator[str]:
    """The texts of all files below a folder whose names end so."""
    for path, folders, names in os.walk(folder):
        folders.sort()
        for name in sorted(names):
            if name.endswith(ending):
                with open(os.path.join(path, name), encoding="utf-8") as file:
                    yield file.read()


def lines_of(crate: str) -> Lines:
    """The lines of the crate in this folder: its tests are code too, its wrong bodies aren't counted."""
    found = Lines()
    for text in files_below(os.path.join(crate, "src"), ".rt"):
        found = found.plus(code_and_contracts(text))
    definitions, proofs = (
        sum(len(list(told_lines(text, ".antt"))) for text in files_below(os.path.join(crate, part), ".antt"))
        for part in ("specs", "proofs")
    )
    return found.plus(Lines(definitions=definitions, proofs=proofs))


def rooms(below: Mapping[str, Sequence[str]], lines: Mapping[str, Lines]) -> tuple[list[Room], list[tuple[int, int]]]:
    """The rooms of crates, the highest layer first; and of each layer its number and the row at which it begins."""
    layers = {name: len(chain) for name, chain in chains(below).items()}
    found: list[Room] = []
    floors: list[tuple[int, int]] = []
    row = 0
    for layer in range(max(layers.values(), default=0), 0, -1):
        floors.append((layer, row))
        taken = [0] * len(SIDES)
        for name in (name for name in below if layers[name] == layer):
            column = SIDES.index(side_of(below, name))
            found.append(Room(name, column, row + taken[column], lines[name]))
            taken[column] += 1
        row += max(taken)
    return found, [*floors, (0, row)]


def text_at(x: float, y: float, style: str, text: str) -> str:
    """A text of the picture."""
    return f'<text x="{x:g}" y="{y:g}" class="{style}">{escape(text)}</text>\n'


def box(x: float, y: float, width: float, height: float, fill: str) -> str:
    """A filled box of the picture."""
    return f'<rect x="{x:g}" y="{y:g}" width="{width:.4g}" height="{height:g}" fill="{fill}"/>\n'


def room_drawn(room: Room, most: int) -> str:
    """A room: its crate's name, the numbers of its lines, and a bar that is as long as they are many."""
    x = MARGIN + LABEL + room.column * (ROOM_WIDTH + GAP)
    y = HEAD + room.row * (ROOM_HEIGHT + GAP)
    drawn = [box(x, y, ROOM_WIDTH, ROOM_HEIGHT, "#f1efe8")]
    drawn.append(text_at(x + 6, y + 15, "n", room.name))
    drawn.append(text_at(x + 6, y + 28, "s", " / ".join(f"{count:,}" for count in room.lines)))
    at: float = x + 6
    for count, colour in zip(room.lines, COLOURS):
        width = (ROOM_WIDTH - 12) * count / most if most else 0
        drawn.append(box(at, y + 32, width, BAR_HEIGHT, colour))
        at += width
    return "".join(drawn)


def head_drawn(total: Lines) -> str:
    """Returns the part above the rooms: the sums with their colours, and the names of the columns."""
    drawn = []
    for at, (kind, count, colour) in enumerate(zip(KINDS, total, COLOURS)):
        drawn.append(box(MARGIN + LABEL + at * 220, 14, 14, 14, colour))
        drawn.append(text_at(MARGIN + LABEL + at * 220 + 20, 26, "t", f"{count:,} lines of {kind}"))
    for at, side in enumerate(SIDES):
        drawn.append(text_at(MARGIN + LABEL + at * (ROOM_WIDTH + GAP) + 6, HEAD - 10, "n", side))
    return "".join(drawn)


def house(below: Mapping[str, Sequence[str]], lines: Mapping[str, Lines]) -> str:
    """The picture, as SVG."""
    found, floors = rooms(below, lines)
    total = Lines()
    for one in lines.values():
        total = total.plus(one)
    most = max((sum(one) for one in lines.values()), default=0)
    width = 2 * MARGIN + LABEL + len(SIDES) * (ROOM_WIDTH + GAP)
    height = HEAD + floors[-1][1] * (ROOM_HEIGHT + GAP) + MARGIN
    drawn = [f'<svg xmlns="http://www.w3.org/2000/svg" viewBox="0 0 {width} {height}">\n<style>{STYLE}</style>\n']
    drawn.append(box(0, 0, width, height, "#ffffff"))
    drawn.append(head_drawn(total))
    for layer, row in floors[:-1]:
        y = HEAD + row * (ROOM_HEIGHT + GAP)
        drawn.append(box(MARGIN, y - GAP / 2 - 0.5, width - 2 * MARGIN, 1, "#c8c4b8"))
        drawn.append(text_at(MARGIN + 8, y + 28, "n", str(layer)))
    drawn += [room_drawn(room, most) for room in found]
    return "".join([*drawn, "</svg>\n"])
