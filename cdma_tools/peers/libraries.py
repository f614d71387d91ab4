"""The programs that are built around Debian's libraries, in a temporary folder, and their runs."""

from __future__ import annotations

import dataclasses
import os
import shutil
import subprocess
import sys
from collections.abc import Sequence

from cdma_tools.errors import Refused

HERE = os.path.dirname(os.path.abspath(__file__))
COMPILERS = {".c": "cc", ".cpp": "c++"}
LONGEST = 300  # seconds that a compiler or a run may take
RESAMPLER = os.path.join(HERE, "resampler_gnuradio.py")
GNU_RADIO = "gnuradio"


@dataclasses.dataclass(frozen=True)
class Library:
    """A library: its name, Debian's package, the source here, what is defined, what is linked, and what it lacks."""

    name: str
    package: str
    source: str
    linked: tuple[str, ...]
    lacks: str
    defined: tuple[str, ...] = ()


DECODERS = (
    Library(
        "libfec", "libfec-dev", "decoder_fec.c", ("fec",),
        "symbols of 8 bits, and a first state that is known; it does not say which of equal scores it takes",
    ),
    Library(
        "IT++", "libitpp-dev", "decoder_itpp.cpp", ("itpp",),
        "scores in floating point, which round; it does not say which of equal scores it takes",
    ),
)  # fmt: skip
SEARCHES = (
    Library(
        "FFTW, single precision", "libfftw3-dev", "search_fftw.c", ("fftw3f", "m"),
        "energies that are rounded: which of two that are nearly equal is greater isn't sure", ("SINGLE",),
    ),
    Library(
        "FFTW, double precision", "libfftw3-dev", "search_fftw.c", ("fftw3", "m"),
        "the same, with more digits",
    ),
)  # fmt: skip


class Missing(Exception):
    """Why a library isn't measured, in words."""


def ran(command: Sequence[str], data: bytes, what: str) -> bytes:
    """Returns the output of a run; raises Refused if it fails or doesn't end."""
    try:
        done = subprocess.run(command, input=data, capture_output=True, timeout=LONGEST)
    except subprocess.TimeoutExpired:
        raise Refused(f"{what} did not end within {LONGEST} s") from None
    except OSError as why:
        raise Refused(f"{what}: {why.strerror}") from None
    if done.returncode:
        raise Refused(f"{what} ended with {done.returncode}: {done.stderr.decode(errors='replace').strip()[-200:]}")
    return done.stdout


def built(library: Library, folder: str) -> str:
    """Builds the program around a library in a folder, and returns its path; raises Missing if it can't be built."""
    name, ending = os.path.splitext(library.source)
    compiler = shutil.which(COMPILERS[ending])
    if compiler is None:
        raise Missing(f"no compiler {COMPILERS[ending]}: install the package build-essential")
    program = os.path.join(folder, "-".join([name, *library.defined]))
    words = [compiler, "-O2", *(f"-D{one}" for one in library.defined), os.path.join(HERE, library.source)]
    words += ["-o", program, *(f"-l{one}" for one in library.linked)]
    try:
        ran(words, b"", "the compiler")
    except Refused as why:
        raise Missing(f"it can't be built: install the package {library.package} ({why})") from None
    return program


def turn_of(program: str, turns: int, data: bytes) -> tuple[float, str]:
    """The processor seconds of a turn of a program over numbers, and its result."""
    seconds, _, result = ran([program, str(turns)], data, os.path.basename(program)).decode().partition("\n")
    return float(seconds), result.strip()


def python_of_gnu_radio() -> str:
    """Returns the Python that has GNU Radio, this one or Debian's; raises Missing if neither has it."""
    for python in dict.fromkeys([sys.executable, "/usr/bin/python3"]):
        tried = [python, "-I", "-c", f"import {GNU_RADIO}"]
        if os.access(python, os.X_OK) and not subprocess.run(tried, capture_output=True).returncode:
            return python
    raise Missing(f"no Python has it: install the package {GNU_RADIO}")


def resampled(python: str, recording: str, taps: str, ratio: float, chips: str) -> float:
    """The processor seconds in which GNU Radio resamples a recording."""
    words = [python, "-I", "-B", RESAMPLER, recording, taps, repr(ratio), chips]
    return float(ran(words, b"", "GNU Radio's resampler").decode().split()[-1])
