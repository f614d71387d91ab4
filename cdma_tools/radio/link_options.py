"""Options of a link and of a radio, and the link and the radio that they describe."""

import argparse
import contextlib
import math
import os
from collections.abc import Iterator

from cdma_tools.arguments import Within, count_of, hertz_of, number_within, rate_of, whole_within, wrong
from cdma_tools.errors import Refused
from cdma_tools.overwriting import InputFile
from cdma_tools.radio.air import CHIP_RATE
from cdma_tools.radio.channel import Cell, Link, Path, Radio
from cdma_tools.recordings import TYPES, type_named

LEVEL = number_within(-200, 200)  # dB
DELAY = number_within(-1e9, 1e9)  # chips
RATIO = number_within(-100, 100)  # dB
DEGREES = number_within(-3_600, 3_600)
DOPPLER = number_within(0, 100_000)  # Hz
ROW, BITS = whole_within(0, 63), whole_within(1, 1_228_800)


def numbers_of(text: str, *readers: Within, least: int = 1) -> list[float]:
    """Numbers between colons, as many as there are readers at most."""
    parts = text.split(":")
    if not least <= len(parts) <= len(readers):
        raise wrong(f"not {least} to {len(readers)} numbers between colons", text)
    return [reader(part) for reader, part in zip(readers, parts)]


def paths_of(text: str) -> list[Path]:
    """Paths, DELAY[:DB[:DEGREES[:HZ]]] each."""
    return [Path(*numbers_of(part, DELAY, LEVEL, DEGREES, DOPPLER)) for part in text.split(",")]


def imbalance_of(text: str) -> tuple[float, float]:
    """dB and degrees."""
    level, skew = (numbers_of(text, RATIO, DEGREES) + [0.0])[:2]
    return level, skew


def eb_nt_of(text: str) -> tuple[float, int, int]:
    """dB, a Walsh row and a rate in bits a second."""
    level, row, rate = numbers_of(text, RATIO, ROW, BITS, least=3)
    return level, int(row), int(rate)


def loss_of(text: str) -> tuple[int, int]:
    """Returns a sample, and the number of samples lost from there on."""
    place, _, count = text.partition(":")
    return count_of(place), count_of(count)


class CellName(InputFile):
    """A cell, FILE[:DB[:CHIPS]]."""

    @property
    def path(self) -> str:
        """The path of its sample file: the whole text if there is such a file, however many colons its name has."""
        return str(self) if os.path.exists(self) else self.split(":")[0]

    def files(self) -> Iterator[tuple[str, str]]:
        """The paths of what is read, each with how an output is described that is the same file."""
        return InputFile(self.path).files()


def cell_of(text: str) -> Cell:
    """A cell, FILE[:DB[:CHIPS]]; a file whose name has colons is taken as it is."""
    if os.path.exists(text):
        return Cell(text)
    name, *rest = text.split(":")
    try:
        numbers = numbers_of(":".join(rest), LEVEL, DELAY) if rest else []
    except argparse.ArgumentTypeError as why:
        raise Refused(f"{text}: {why}") from None
    return Cell(name, *numbers)


def add_link_options(words: argparse.ArgumentParser) -> None:
    """Adds the options of the link and of the radio, all but the noise."""
    link = words.add_argument_group("the link")
    link.add_argument(
        "--paths", type=paths_of, default=[Path()], metavar="P,P,..",
        help="DELAY[:DB[:DEGREES[:HZ]]] each: chips, level, phase, and Doppler of a path that fades (default one path)",
    )  # fmt: skip
    link.add_argument("--equaliser", action="store_true", help="with the base station's phase equaliser")
    link.add_argument(
        "--delay", type=DELAY, default=0.0, metavar="CHIPS", help="delay of the first sample, any fraction"
    )
    radio = words.add_argument_group("the radio")
    kind = "sample type (default ci16_le)"
    radio.add_argument("--type", type=type_named, choices=TYPES, default="ci16_le", help=kind)
    radio.add_argument(
        "--rate", type=rate_of, default=rate_of("2400000"), metavar="N", help="samples per second (default 2,400,000)"
    )
    for name, unit, reader, what in (
        ("carrier", "HZ", hertz_of, "offset of the carrier from the middle"),
        ("drift", "HZ", number_within(-1e6, 1e6), "rise of the carrier in a second"),
        ("clock", "PPM", number_within(-10_000, 10_000), "slowness of the radio's clock, in millionths"),
        ("clock-drift", "PPM", number_within(-100, 100), "rise of the slowness in a second"),
        ("dc", "PART", number_within(-1_000, 1_000), "an offset of both branches, as a part of the root mean square"),
    ):
        radio.add_argument(f"--{name}", type=reader, default=0.0, metavar=unit, help=f"{what} (default 0)")
    radio.add_argument(
        "--iq", type=imbalance_of, default=(0.0, 0.0), metavar="DB:DEGREES", help="imbalance of the branches"
    )
    radio.add_argument(
        "--level",
        type=number_within(-200, 60),
        metavar="DB",
        help="root mean square relative to full scale; near 0 it overloads",
    )
    radio.add_argument("--conjugate", action="store_true", help="an inverted spectrum")
    radio.add_argument(
        "--lose", type=loss_of, action="append", metavar="AT:COUNT", help="lose COUNT samples from sample AT on"
    )


def radio_of(options: argparse.Namespace) -> Radio:
    """Returns the radio of the options."""
    imbalance, skew = options.iq
    return Radio(
        options.rate, options.type, options.carrier, options.drift, options.clock, options.clock_drift, options.delay,
        options.dc, imbalance, skew, options.level, options.conjugate, options.equaliser, tuple(options.lose or ()),
    )  # fmt: skip


def link_of(options: argparse.Namespace) -> Link:
    """Returns the link of the options."""
    with contextlib.ExitStack() as opened:
        cells: list[Cell] = []
        for text in options.files:
            cells.append(cell_of(text))
            opened.callback(cells[-1].file.close)
        link = Link(cells, options.paths, options.seed)
        add_noise(options, link)
        opened.pop_all()  # from here on the link closes them
    return link


def add_noise(options: argparse.Namespace, link: Link) -> None:
    """Adds the noise that the arguments ask for."""
    first = link.cells[0].file.path
    if not link.pilot > 0:
        raise Refused(f"{first}: not a cell: its samples have no power")
    if options.ec_io is not None:
        link.set_ec_io(options.ec_io)
    elif options.eb_nt is not None:
        link.set_eb_nt(*options.eb_nt)
    if not math.isfinite(link.noise):
        raise Refused(f"{first}: too few samples for a symbol of a Walsh row")


def chips_of(options: argparse.Namespace, link: Link) -> int:
    """Returns the number of chips to record: those of the first cell, or of the greatest time that is asked for."""
    count = link.cells[0].count
    return min(count, int(options.seconds * CHIP_RATE)) if options.seconds else count
