"""Recordings: samples as a radio takes them, made from chips over a channel (docs/RADIO.md)."""

import contextlib
import os
import tempfile
import weakref
from collections.abc import Sequence
from fractions import Fraction
from typing import IO, Any

import numpy
from numpy.typing import NDArray

from cdma.chips import Source, save
from cdma.errors import ParameterError, as_errors
from cdma.parameters import parsed, parts_of, path_of, words_of
from cdma_tools import sigmf
from cdma_tools.commands.channel import parser
from cdma_tools.radio.channel import record as record_link
from cdma_tools.radio.link_options import chips_of, link_of, radio_of
from cdma_tools.radio.link_truth import meta_of
from cdma_tools.radio.link_truth import truth as truth_of
from cdma_tools.recordings import TYPES
from cdma_tools.recordings import Recording as Samples
from cdma_tools.writing import write_out

CellSource = Source | tuple[Source, float] | tuple[Source, float, float]  # chips, level in dB, delay in chips
PathGain = tuple[float, ...]  # chips of delay, dB, degrees, Hz of Doppler


def open_path(file: IO[bytes]) -> str:
    """Returns a path of an open file that has no name."""
    return f"/proc/self/fd/{file.fileno()}"


class Recording:
    """Samples that a radio took: `samples` of them, `rate` a second, stored as `type`.

    `cut` is the number of parts that were cut at full scale, and `truth` the parameters of the recording as
    name=value.
    """

    def __init__(self, file: IO[bytes], type: str, rate: Fraction, cut: int, truth: str, meta: dict[str, Any]) -> None:
        """Takes an open file of samples, which it closes, and the object of its .sigmf-meta."""
        self.type, self.rate, self.cut, self.truth = type, float(rate), cut, truth
        self.exact_rate, self._file, self._meta = rate, file, meta
        self.samples = os.fstat(file.fileno()).st_size // TYPES[type].size
        weakref.finalize(self, file.close)

    @property
    def path(self) -> str:
        """The path of the raw samples, which are in a temporary file as long as the recording is there."""
        return open_path(self._file)

    def as_complex(self) -> NDArray[numpy.complex64]:
        """Returns the samples as complex numbers: shape (samples,), type complex64."""
        with as_errors(), Samples(self.path, self.type, self.rate) as samples:
            return samples.read(0, samples.count)

    def save(self, path: str | os.PathLike[str]) -> None:
        """Writes a `.sigmf-meta` and the `.sigmf-data` next to it, or raw samples if the path ends otherwise."""
        name = path_of("path", path)
        is_described = name.endswith(sigmf.META)
        self._file.seek(0)
        with as_errors():
            with write_out(name.removesuffix(sigmf.META) + sigmf.DATA if is_described else name) as file:
                while piece := self._file.read(1 << 20):
                    file.write(piece)
            if is_described:
                sigmf.write_meta(name, self._meta)

    def __repr__(self) -> str:
        """Returns the number of samples, their type, rate and time."""
        seconds = self.samples / self.rate
        return f"<Recording: {self.samples:,} samples of {self.type}, {self.rate:,.0f} a second, {seconds:.3g} s>"


def cell_words(cells: Sequence[CellSource], folder: str) -> list[str]:
    """Returns cells as the command line names them; chips are written into files of a folder."""
    words = []
    for number, cell in enumerate(cells, 1):
        source, *more = cell if isinstance(cell, tuple) else (cell,)
        if isinstance(source, (str, os.PathLike)):
            name = path_of("chips", source)
        else:
            name = os.path.join(folder, f"cell{number}.is95")
            save(source, name)
        words.append(":".join([name, *(repr(float(value)) for value in more)]))
    return words


def paths_text(paths: Sequence[PathGain] | str | None) -> str | None:
    """Returns paths as the option has them."""
    if paths is None or isinstance(paths, str):
        return paths
    try:
        return ",".join(":".join(repr(float(value)) for value in path) for path in paths)
    except (TypeError, ValueError):
        raise ParameterError("paths", "each path is a tuple of chips, dB, degrees and Hz, or fewer of them") from None


def record(
    chips: Source | Sequence[CellSource],
    *,
    rate: float | Fraction = 2_400_000,
    type: str = "ci16_le",
    carrier: float = 0.0,
    drift: float = 0.0,
    clock_ppm: float = 0.0,
    clock_drift: float = 0.0,
    delay: float = 0.0,
    dc: float = 0.0,
    iq: tuple[float, float] = (0.0, 0.0),
    level: float | None = None,
    conjugate: bool = False,
    equaliser: bool = False,
    lose: Sequence[tuple[int, int]] = (),
    paths: Sequence[PathGain] | str | None = None,
    ec_io: float | None = None,
    eb_nt: tuple[float, int, int] | None = None,
    seed: int = 1,
    seconds: float | None = None,
) -> Recording:
    """Returns the recording that a radio takes of chips, or of several cells, without noise unless it is asked for.

    `chips` are samples, the path of a sample file, or a list of cells, the wanted one first. The other parameters are
    the options of `tools/channel`:

    - `rate` is in samples per second, and `type` a sample type of SigMF, such as `cu8`.
    - `carrier` is in Hz above the middle, and `drift` in Hz per second.
    - `clock_ppm` is by how many millionths the radio's clock is slow, and `clock_drift` how fast that rises per second.
    - `delay` is that of the first sample in chips, any fraction.
    - `paths` are tuples of delay in chips, level in dB, phase in degrees, and Doppler spread in Hz if it fades.
    - `ec_io`, in dB, adds noise until the first cell's pilot has that share of all power. `eb_nt` is a tuple of dB,
      Walsh row and rate: noise is added until a bit of that row has that energy over the density of noise.
    - `dc` is an offset of both branches, as a part of the root mean square, and `iq` their imbalance in dB and degrees.
    - `level` is the root mean square in dB relative to full scale. `conjugate` inverts the spectrum, and `equaliser`
      sends with the base station's phase equaliser. `lose` has tuples of a sample and the number lost from there on.
    - `seed` chooses the noise, the fading and the carrier's phase. `seconds` is the greatest length.

    Raises `cdma.Error` if there can be no such recording.

    >>> cell = cdma.Cell(pn=511, samples=61_440)
    >>> recording = cdma.record(cdma.make(cell), type="cu8", carrier=1500, clock_ppm=3, ec_io=-9)
    >>> recording
    <Recording: 119,962 samples of cu8, 2,400,000 a second, 0.05 s>
    """
    cells = list(chips) if isinstance(chips, (list, tuple)) else [chips]
    if not cells:
        raise ParameterError("chips", "a list of cells has at least one")
    losses = [tuple(parts_of("lose", loss)) for loss in parts_of("lose", lose)]
    values: dict[str, object] = {
        "rate": rate, "type": type, "carrier": carrier, "drift": drift, "clock": clock_ppm, "clock_drift": clock_drift,
        "delay": delay, "dc": dc, "iq": tuple(parts_of("iq", iq)), "level": level, "conjugate": conjugate,
        "equaliser": equaliser, "lose": losses, "paths": paths_text(paths), "ec_io": ec_io, "eb_nt": eb_nt,
        "seed": seed, "seconds": seconds,
    }  # fmt: skip
    with tempfile.TemporaryDirectory(prefix="cdma-") as folder:
        words = [*words_of(values, "lose"), "--", *cell_words(cells, folder), "recording" + sigmf.META]
        try:
            options = parsed(parser(), words)
        except ParameterError as why:
            name = "clock_ppm" if why.parameter == "clock" else why.parameter
            raise ParameterError(name, str(why).partition(": ")[2]) from None
        with as_errors(folder), contextlib.closing(link_of(options)) as link:
            with contextlib.ExitStack() as kept:
                file = kept.enter_context(tempfile.TemporaryFile())
                made = record_link(link, radio_of(options), chips_of(options, link), file)
                file.flush()
                meta, truth = meta_of(options, link, made), truth_of(options, link)
                kept.pop_all()  # from here on the recording closes the file
            return Recording(file, options.type, options.rate, made.cut, truth, meta)
