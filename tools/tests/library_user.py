"""A user's script over the library, which is never run: mypy judges it strictly, as it would outside the repository.

Wrong uses are marked as such, and mypy complains of a mark that marks nothing: so the library's types are no `Any`.
"""

from collections.abc import Iterator

import numpy
from numpy.typing import NDArray

import cdma


def cell() -> cdma.Cell:
    """Returns a cell with three channels."""
    made = cdma.Cell(pn=511, time=1_007, lc="20000000000")
    made.add_sync(sid=7)
    made.add_paging(1, pages=["34:04ff8046c0", ("next", [1] * 10)])
    made.add_traffic(8, esn=0xABCD, frames=[(1_200, "16:f00d"), (1_200, [0] * 16, "01" * 8)])
    return made


def heard(chips: cdma.Chips) -> Iterator[tuple[int, str]]:
    """Yields some fields of what a handset hears."""
    with cdma.follow(chips[100:], esn="0000abcd", row=8) as run:
        for event in run:
            if isinstance(event, cdma.Sync):
                yield event.time, event.rest
            elif isinstance(event, cdma.Frame) and event.good:
                yield event.at, event.bits
    for rank in cdma.survey(chips, top=3):
        yield rank.pn, str(rank)


def measured(chips: cdma.Chips) -> float:
    """Returns a sum of figures of a recording."""
    recording = cdma.record([chips, (chips, -3, 12)], type="cu8", paths=[(0, 0), (1.5, -3, 90)], ec_io=-9)
    lock = cdma.lock(recording, fingers=2)
    samples: NDArray[numpy.complex64] = recording.as_complex()
    domain = cdma.code_domain(lock)
    steps = cdma.explain(lock.chips, channel="sync")
    return lock.ec_io_db + domain.rho + float(domain.db.max()) + len(samples) + len(steps.bits)


def compared(chips: cdma.Chips) -> float:
    """Returns a sum of figures of chips against limits and margins."""
    imported = cdma.import_capture(chips.as_complex(), rate=1_228_800, scale="fit", bits=8)
    domain = cdma.code_domain(imported.chips, limits=True)
    met = [limit.value / limit.bound for limit in domain.limits if limit.is_met]
    borne = [row.margin for row in cdma.margin(cell())]
    covered = [row.covered / row.frames for row in cdma.margin(cell(), file=chips)]
    return imported.scale + sum(met) + sum(borne) + sum(covered)


def listened(path: str) -> list[str]:
    """Returns what is heard of a recording."""
    try:
        with cdma.listen(path, type="cu8", rate=2_400_000, workers=2) as listening:
            return [f"{event.time_utc} {event}" for event in listening] + listening.remarks
    except cdma.FileError as why:
        return [f"{why.kind} {why.place}"]
    except cdma.ParameterError as why:
        return [why.parameter]


def wrong(chips: cdma.Chips) -> None:
    """Wrong uses, each of which is one complaint."""
    text: str = cdma.find(chips).phase  # type: ignore[assignment]
    cdma.find(chips, spam=64)  # type: ignore[call-arg]
    cdma.follow(chips, esn=[text])  # type: ignore[arg-type]
    cdma.make(chips)  # type: ignore[arg-type]
    cdma.record(chips, rate="fast")  # type: ignore[arg-type]
    cdma.lock(3)  # type: ignore[arg-type]
    cdma.listen(3, rate=1e6)  # type: ignore[arg-type]
    cdma.margin(cell())[0].margins  # type: ignore[attr-defined]
    cdma.margin(cell(), file=chips)[0].margin  # type: ignore[attr-defined]
    cdma.import_capture(chips, rate=1_228_800).count  # type: ignore[attr-defined]
    cdma.find(chips).phases  # type: ignore[attr-defined]
    cdma.Cell(pn="511")  # type: ignore[arg-type]
