"""Imports: from a radio's recording to chips when carrier and clock are known, and what locks need of it too."""

import contextlib
import os
import tempfile
from collections.abc import Iterator
from dataclasses import dataclass
from fractions import Fraction
from typing import Any

from numpy.typing import NDArray

from cdma.cells import width_of
from cdma.chips import Chips, array_of, read_samples
from cdma.errors import ParameterError, as_errors
from cdma.parameters import parsed, path_of, words_of
from cdma.programs import path_or_none, script_of_model
from cdma.recordings import Recording
from cdma_tools.analysis.capture_chips import write_plain
from cdma_tools.commands import import_capture as command
from cdma_tools.overwriting import STANDARD
from cdma_tools.radio.plain import plain_chips
from cdma_tools.sources.taking import taken

RecordingSource = Recording | NDArray[Any] | str | os.PathLike[str]  # an array of complex numbers, or a path
FORMATS = {16: 1, 8: 2}  # versions of sample files by the bits of a number


@dataclass(frozen=True)
class Imported:
    """The result of an import: its `chips`, the factor `scale` of the samples, and what else the tool says of them."""

    chips: Chips
    scale: float
    remarks: tuple[str, ...]


@contextlib.contextmanager
def as_path(recording: RecordingSource, given: dict[str, object]) -> Iterator[tuple[str, object]]:
    """Yields the path of a recording, with what keeps it; adds its type and its rate to the parameters."""
    if isinstance(recording, (str, os.PathLike)):
        if (path := path_of("recording", recording)) == STANDARD:
            raise ParameterError("recording", "a path is needed, not -")
        yield path, None
        return
    if given["type"] is not None:
        raise ParameterError("type", "a path needs it; other recordings have their own")
    if isinstance(recording, Recording):
        if given["rate"] is not None:
            raise ParameterError("rate", "a recording has its own")
        given |= {"type": recording.type, "rate": recording.exact_rate}
        yield recording.path, recording
        return
    array = array_of(recording, "recording")
    if array.ndim != 1 or array.dtype.kind != "c":
        shape = f"{array.dtype} of shape {array.shape}"
        raise ParameterError("recording", f"a row of complex numbers is needed, not {shape}")
    if given["rate"] is None:
        raise ParameterError("rate", "an array needs it")
    file = tempfile.TemporaryFile()
    array.astype("<c8").tofile(file)
    file.flush()
    given["type"] = "cf32_le"
    kept = Recording(file, "cf32_le", Fraction(1), 0, "", {})
    yield kept.path, kept


@contextlib.contextmanager
def import_options(
    recording: RecordingSource, given: dict[str, object], bits: int, *words: str
) -> Iterator[tuple[Any, object]]:
    """Yields the tool's options for a recording, with what keeps its samples; raises Error for what the tool refuses.

    The options have the program if they need it.
    """
    width = width_of(bits)
    with contextlib.ExitStack() as stack:
        path, source = stack.enter_context(as_path(recording, given))
        if given["checks"] is not None or given.get("pn") is not None:
            given["program"] = stack.enter_context(script_of_model())
        elif given.get("cells") is not None:
            given["program"] = path_or_none()
        parser = command.parser()
        options = parsed(parser, [*words_of({**given, "format": FORMATS[width]}), *words, "--", path, STANDARD])
        command.check_words(parser, options)
        with as_errors():
            yield options, source


def import_capture(
    recording: RecordingSource,
    *,
    type: str | None = None,
    rate: float | Fraction | None = None,
    capture: int | None = None,
    seconds: float | None = None,
    frequency: float | None = None,
    channel: int | None = None,
    band: int | None = None,
    gain: float | None = None,
    ppm: int | None = None,
    bias_tee: bool = False,
    agc: bool = False,
    skip: int = 0,
    count: int | None = None,
    offset: int | None = None,
    sum: bool = False,
    shift: float | None = None,
    scale: float | str | None = None,
    bits: int = 16,
    complement_30: bool = False,
    complement_16: bool = False,
    checks: str | None = None,
) -> Imported:
    """Returns the chips of a recording whose carrier and clock are right, without a lock.

    Parameters that `cdma.lock` has too are the same. At a multiple of the chip rate one sample of each chip is taken,
    number `offset`, or with `sum` the sum of the chip's samples. At any other rate above it the recording is resampled.
    `shift` removes a carrier. `scale` multiplies the samples: a number, or `fit` for the greatest one that fits.

    Raises `cdma.Error` if the recording can't be taken.

    >>> chips = cdma.make(cdma.Cell(pn=3, samples=2_048))
    >>> samples = numpy.repeat(chips.as_complex(), 2)  # two samples for each chip
    >>> imported = cdma.import_capture(samples, rate=2 * 1_228_800, sum=True, scale=0.5)
    >>> bool((imported.chips == chips).all())
    True
    """
    given: dict[str, object] = {
        "type": type, "rate": rate, "capture": capture, "seconds": seconds, "frequency": frequency, "channel": channel,
        "band": band, "gain": gain, "ppm": ppm, "bias_tee": bias_tee, "agc": agc, "skip": skip, "count": count,
        "offset": offset, "sum": sum, "shift": shift, "scale": scale, "complement_30": complement_30,
        "complement_16": complement_16, "checks": checks,
    }  # fmt: skip
    with import_options(recording, given, bits) as (options, _):
        with taken(options.recording, options) as source, tempfile.TemporaryFile() as file:
            parts, factor = plain_chips(options, source)
            said = write_plain(options, parts, file)
            file.seek(0)
            return Imported(read_samples(file), factor, (*source.remarks, *said))
