"""The sample file of a recording, as the options of `tools/import_capture` ask for it: by a lock, or plainly."""

import argparse
import os
import tempfile
from collections.abc import Callable
from typing import IO, TYPE_CHECKING, Any

from numpy.typing import NDArray

from cdma_tools.checks import COMPLEMENT_16, COMPLEMENT_30, FLAGS_BYTES, FLAGS_PLACE, tried
from cdma_tools.program import find_program
from cdma_tools.sample_file import header
from cdma_tools.sources.taking import TakenSource

if TYPE_CHECKING:  # scipy takes half a second to load, and only a lock needs it
    from cdma_tools.analysis.cell_table import CellFacts
    from cdma_tools.radio.locking import Held, Locked, Options

LOCK_OPTIONS = ("fingers", "conjugate", "equaliser", "search")  # which a lock takes as they are


def flags_of(options: argparse.Namespace) -> int:
    """Returns the flags of the sample file."""
    return (COMPLEMENT_30 if options.complement_30 else 0) | (COMPLEMENT_16 if options.complement_16 else 0)


def try_checks(options: argparse.Namespace, file: IO[bytes]) -> list[str]:
    """On request sets the flags of a written file by what passes; returns what to report about it."""
    if not options.checks:
        return []
    file.flush()
    heard = tried(find_program(options.program), f"/proc/self/fd/{file.fileno()}")
    file.seek(FLAGS_PLACE)
    file.write((heard.flag | flags_of(options)).to_bytes(FLAGS_BYTES, "big"))
    file.seek(0, os.SEEK_END)
    return [heard.told()]


def write_plain(options: argparse.Namespace, parts: NDArray[Any], file: IO[bytes]) -> list[str]:
    """Writes the sample file of chips that were taken plainly, and returns what to report about its checks."""
    file.write(header(options.version, flags_of(options), len(parts)))
    file.write(parts.tobytes())
    return try_checks(options, file)


def is_weaker(options: argparse.Namespace) -> bool:
    """Whether a cell is wanted that may not be the strongest one."""
    return options.pn is not None or (options.cell or 1) > 1


def lock_options(options: argparse.Namespace, recording: TakenSource) -> "Options":
    """Returns the options of the lock to a recording."""
    from cdma_tools.radio.locking import Options

    given = {name: value for name in LOCK_OPTIONS if (value := getattr(options, name)) is not None}
    return Options(
        recording.kind, recording.rate, skip=options.skip, shift=options.shift or 0.0, count=options.count,
        scale=options.scale, version=options.version, flags=flags_of(options), **given,
    )  # fmt: skip


def write_locked(
    options: argparse.Namespace,
    recording: TakenSource,
    file: IO[bytes],
    tell: Callable[[float, str], None] = lambda part, text: None,
    tell_cell: Callable[[str], None] = lambda text: None,
    look: "Callable[[Held, Locked], None]" = lambda held, locked: None,
) -> "Locked":
    """Writes the sample file of the wanted pilot of a recording, and returns the result with all remarks.

    `tell` gets the part of a lock that is done and its name, or `tell_cell` the name of each step to a weaker cell.
    `look` gets the lock while its samples are still open, unless a weaker cell is taken.
    """
    from cdma_tools.radio.locking import lock

    asked, others = lock_options(options, recording), list[str]()
    if is_weaker(options):
        locked, others = write_cell(options, recording.path, asked, file, tell_cell)
    else:
        locked = lock(recording.path, asked, file, tell, look)
    return locked._replace(said=(*recording.remarks, *others, *try_checks(options, file)))


def write_cell(
    options: argparse.Namespace, path: str, asked: "Options", file: IO[bytes], tell: Callable[[str], None]
) -> "tuple[Locked, list[str]]":
    """Writes the sample file of one cell of several; returns the result, and a line on each other cell."""
    from cdma_tools.analysis.importing import Wanted, take

    program = None if options.pn is None else find_program(options.program)
    with tempfile.TemporaryDirectory(prefix="cells-") as folder:
        taken = take(path, asked, Wanted(options.cell, options.pn, program), file, folder, tell)
    return taken.locked, taken.said


def cells_of(
    options: argparse.Namespace,
    recording: TakenSource,
    program: str | None,
    first: "Held | None",
    tell: Callable[[int], None] = lambda count: None,
) -> "list[CellFacts]":
    """Returns the table of as many cells of a recording as are asked for.

    `program` decodes their messages. `first` is the lock to the strongest cell, if it was made already. `tell` gets the
    number of cells that were found since it was called before.
    """
    from cdma_tools.analysis.cell_table import table_of_cells
    from cdma_tools.analysis.cells import Search

    with tempfile.TemporaryDirectory(prefix="cells-") as folder:
        with Search(recording.path, lock_options(options, recording), folder, first=first) as search:
            return table_of_cells(search, options.cells, program, tell)
