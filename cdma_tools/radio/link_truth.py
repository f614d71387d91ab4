"""What is written of a recording that was made: its parameters, and what makes it again."""

import argparse
import hashlib
import os
from collections.abc import Iterable
from typing import Any

from cdma_tools import sigmf
from cdma_tools.radio.air import decibels
from cdma_tools.radio.channel import Cell, Link, Made

# Options of one number each, which are reported unchanged.
NUMBERS = ("carrier", "drift", "clock", "clock_drift", "delay", "dc")


def shortest(number: float) -> str:
    """The shortest text that reads as the same number."""
    return repr(float(number)).removesuffix(".0")


def colons(numbers: Iterable[float]) -> str:
    """Numbers between colons."""
    return ":".join(shortest(number) for number in numbers)


def given_numbers(options: argparse.Namespace) -> dict[str, str]:
    """The options that have no default and were given, by their names: noise, length, level, losses."""
    told = {
        name: shortest(value) for name in ("ec_io", "seconds", "level") if (value := getattr(options, name)) is not None
    }
    return told if options.eb_nt is None else {**told, "eb_nt": colons(options.eb_nt)}


def arguments_of(options: argparse.Namespace) -> list[str]:
    """The arguments that make the same recording of the same cells again, but for the recording's name."""
    words = [
        f"--type={options.type}", f"--rate={options.rate}", f"--seed={options.seed}",
        f"--paths={','.join(colons(path) for path in options.paths)}", f"--iq={colons(options.iq)}",
        *(f"--{name.replace('_', '-')}={shortest(getattr(options, name))}" for name in NUMBERS),
        *(f"--{name.replace('_', '-')}={value}" for name, value in given_numbers(options).items()),
        *(f"--{name}" for name in ("equaliser", "conjugate") if getattr(options, name)),
        *(f"--lose={place}:{count}" for place, count in options.lose or ()),
    ]  # fmt: skip
    return [*words, "--", *options.files]


def cell_told(text: str, cell: Cell) -> dict[str, object]:
    """Returns the description of a cell in the .sigmf-meta."""
    with open(cell.file.path, "rb") as file:
        checksum = hashlib.file_digest(file, "sha512").hexdigest()
    return {
        "file": os.path.basename(cell.file.path), "sha512": checksum, "level_db": decibels(cell.gain**2),
        "delay_chips": cell.delay, "phase": cell.phase, "power": cell.power, "pilot": cell.pilot,
    }  # fmt: skip


def truth(options: argparse.Namespace, link: Link) -> str:
    """Returns the parameters of the recording, as name=value."""
    paths = ",".join(colons(path) for path in options.paths)
    share = decibels(link.pilot / (link.power + link.noise))
    more = [f"{name}={value}" for name, value in given_numbers(options).items()]
    more += [f"lose={place}:{count}" for place, count in options.lose or ()]
    return (
        f"carrier_hz={shortest(options.carrier)} drift={shortest(options.drift)} clock_ppm={shortest(options.clock)}"
        f" clock_drift={shortest(options.clock_drift)} delay={shortest(options.delay)} ec_io_db={share:.2f}"
        f" paths={paths}"
        f" equaliser={'yes' if options.equaliser else 'no'} conjugate={'yes' if options.conjugate else 'no'}"
        f" seed={options.seed} dc={shortest(options.dc)} iq={colons(options.iq)} cells={len(link.cells)}"
        + "".join(f" {word}" for word in more)
    )


def meta_of(options: argparse.Namespace, link: Link, made: Made) -> dict[str, Any]:
    """Returns the object of the .sigmf-meta, with the truth and with what makes the same recording again."""
    meta = sigmf.new_meta(options.type, options.rate, "a recording of an IS-95 forward link, made by tools/channel")
    told = {
        "cdma_tools:arguments": arguments_of(options),
        "cdma_tools:cells": list(map(cell_told, options.files, link.cells)),
    }
    sigmf.annotate(meta, 0, made.samples, "tools/channel", "truth", truth(options, link), told)
    meta["global"]["core:extensions"] = [{"name": "cdma_tools", "version": "1.0.0", "optional": True}]
    return meta
