"""The arguments that describe a source of samples, and how they go together."""

import argparse
import os
import stat
from collections.abc import Callable, Sequence
from fractions import Fraction
from typing import Any

from cdma_tools.arguments import number_within, rate_of, whole_within
from cdma_tools.errors import Refused
from cdma_tools.frequencies import FREQUENCY_OPTIONS, add_frequency_options, frequency_fault, frequency_given
from cdma_tools.overwriting import META, STANDARD
from cdma_tools.radio.guessing import AUTO
from cdma_tools.recordings import TYPES, type_named
from cdma_tools.sources.live import FIXED_TYPES, RTL_TCP, SENT_TYPES, SOAPY, TUNED, LiveSource, Stream, scheme_of
from cdma_tools.sources.rtl_tcp import Tuning
from cdma_tools.sources.stored import is_described

TYPE_CHOICES = (*TYPES, AUTO)
MOST_CAPTURES = 1_000_000
GAINS, MOST_PPM = (-10, 100), 1_000  # dB, and millionths
MOST_LIVE_RATE = 100_000_000
# Seconds that are taken of a source that doesn't end: what a sample file has room for, and a second.
SECONDS, LEAST_SECONDS, MOST_SECONDS = 28.0, 0.01, 3_600.0
RADIO_OPTIONS = ("gain", "ppm", "bias_tee", "agc")
# The arguments that take no value.
FLAGS = ("bias_tee", "agc")
TUNED_MIDDLE = "frequency to which the radio is tuned (default unchanged)"
ANY_MIDDLE = "middle of the recording (default: as it states); a radio is tuned to it"
DESCRIBED = "a .sigmf-meta, a .sigmf or a .wav"
SOURCE_HELP = "raw samples, a .sigmf-meta, .sigmf or .wav, - for standard input, or the address of a live source"


def add_sample_options(
    words: argparse._ActionsContainer, rate: Callable[[str], Any] = rate_of, types: Sequence[str] = TYPE_CHOICES
) -> None:
    """Adds --type, --rate and --capture; `rate` reads the rate, `types` are the types that can be named."""
    guess = ", or auto to guess it from the bytes" if AUTO in types else ""
    words.add_argument("--type", type=type_named, choices=types, help=f"sample type{guess}; not with {DESCRIBED}")
    words.add_argument(
        "--rate",
        type=rate,
        metavar="N",
        help="samples per second, as 2400000 or 2.4M; with a .sigmf-meta only if it has none",
    )
    words.add_argument(
        "--capture",
        type=whole_within(1, MOST_CAPTURES),
        metavar="N",
        help="capture N of a SigMF recording of several; default: all, if they have one frequency",
    )


def add_seconds_option(words: argparse._ActionsContainer, default: float = SECONDS) -> None:
    """Adds --seconds, the bound on what is taken of a source that may not end."""
    words.add_argument(
        "--seconds",
        type=number_within(LEAST_SECONDS, MOST_SECONDS),
        metavar="N",
        help=f"take at most N seconds of standard input or of a live source (default {default:.0f})",
    )
    words.set_defaults(most_seconds=default)


def add_radio_options(words: argparse.ArgumentParser, middle: str = TUNED_MIDDLE) -> None:
    """Adds the arguments that tune a radio; `middle` describes the frequency."""
    radio = words.add_argument_group("a radio: rtl_tcp and soapy")
    add_frequency_options(radio, middle)
    radio.add_argument("--gain", type=number_within(*GAINS), metavar="DB", help="gain of the radio (default unchanged)")
    crystal = "correct the radio's crystal by N millionths (default 0)"
    radio.add_argument("--ppm", type=whole_within(-MOST_PPM, MOST_PPM), metavar="N", help=crystal)
    radio.add_argument("--bias-tee", action="store_true", help="feed an amplifier at the antenna")
    radio.add_argument("--agc", action="store_true", help="let the radio set its gain by itself")


def is_received(name: str) -> bool:
    """Whether a source is taken as it comes: a live one, standard input, or a file that isn't a regular one."""
    if scheme_of(name) is not None or name == STANDARD:
        return True
    try:
        mode = os.stat(name).st_mode
    except (OSError, ValueError):
        return False
    return not is_described(name) and not stat.S_ISREG(mode) and not stat.S_ISDIR(mode)


def is_told(name: str) -> bool:
    """Whether a name by itself says that it is a source of samples."""
    return is_described(name) or scheme_of(name) is not None or name == STANDARD


def source_fault(name: str, options: argparse.Namespace, has_middle: bool = False) -> str:
    """Returns what is wrong with the arguments that describe a source, empty if they go together.

    With has_middle a recording's middle may be given too.
    """
    scheme = scheme_of(name)
    fault = recorded_fault(name, options) if scheme is None else live_fault(scheme, options)
    return fault or radio_fault(scheme, options, has_middle) or frequency_fault(options)


def note_fault(name: str, meta: str | None, capture: int | None) -> str:
    """Returns why notes on a source can't be written to the .sigmf-meta of --meta, empty if they can.

    They number the samples of a file, which must begin with the first one.
    """
    if meta is None:
        return ""
    if not meta.endswith(META):
        return f"--meta names a {META}"
    if is_received(name) or is_described(name) and not name.endswith(META):
        return f"--meta goes with a {META} or a file of raw samples, since notes have the numbers of its samples"
    return "" if capture is None else "--meta goes with a whole recording, not with --capture"


def live_fault(scheme: str, options: argparse.Namespace) -> str:
    """Returns what is wrong with the type or the rate of a live source, empty if nothing is."""
    sent, rate = SENT_TYPES.get(scheme), options.rate
    if scheme in FIXED_TYPES and options.type not in (None, sent):
        return f"the samples of {scheme} are {sent}"
    if options.capture is not None:
        return "--capture goes with a SigMF recording"
    if rate is None or scheme == RTL_TCP and rate.denominator != 1:
        return "--rate is needed with a live source" + (", as a whole number" if scheme == RTL_TCP else "")
    if rate > MOST_LIVE_RATE:
        return f"--rate of a live source: at most {MOST_LIVE_RATE:,}"
    return "" if options.type or sent else f"--type is needed with {scheme}://"


def recorded_fault(name: str, options: argparse.Namespace) -> str:
    """Returns what is wrong with the type, the rate or the bound of what isn't live, empty if nothing is."""
    if getattr(options, "seconds", None) is not None and not is_received(name):
        return "--seconds goes with standard input or a live source"
    if is_described(name):
        return f"--type can't be given with {DESCRIBED}, which has its own" if options.type else ""
    missing = [name for name, value in (("--type", options.type), ("--rate", options.rate)) if value is None]
    return f"give {' and '.join(missing)}, unless the recording is {DESCRIBED}" if missing else ""


def radio_fault(scheme: str | None, options: argparse.Namespace, has_middle: bool) -> str:
    """Returns what is wrong with the arguments that tune a radio, empty if nothing is."""
    tuned = RADIO_OPTIONS if has_middle else (*FREQUENCY_OPTIONS, *RADIO_OPTIONS)
    given = [name for name in tuned if getattr(options, name)]
    if not given or scheme in TUNED:
        return ""
    return f"--{given[0].replace('_', '-')} goes with a radio: {RTL_TCP}://HOST:PORT or {SOAPY}:driver=NAME"


def tuning_of(options: argparse.Namespace) -> Tuning:
    """How a radio is to be tuned."""
    return Tuning(frequency_given(options), options.gain, options.ppm, options.bias_tee, options.agc)


def stream_of(name: str, options: argparse.Namespace) -> Stream | None:
    """The stream that a name and arguments describe; None if it is a recording in a regular file."""
    rate: Fraction = options.rate
    if (scheme := scheme_of(name)) is not None:
        kind = options.type or SENT_TYPES[scheme]
        return Stream(kind, rate, live=LiveSource(name, scheme, kind, rate, tuning_of(options)))
    if name == STANDARD:
        import sys

        return Stream(options.type, rate, file=sys.stdin.buffer)
    if not is_received(name):
        return None
    try:
        return Stream(options.type, rate, file=open(name, "rb", buffering=0), path=name)
    except OSError as why:
        raise Refused(f"{name}: {why.strerror}") from None


def source_words(options: argparse.Namespace) -> list[str]:
    """The arguments that describe a source, as another command line takes them."""
    named = [name for name in ("type", "rate", "capture", "seconds") if getattr(options, name) is not None]
    if scheme_of(options.recording) in TUNED:
        named += [name for name in (*FREQUENCY_OPTIONS, *RADIO_OPTIONS) if getattr(options, name)]
    options_of = {name: name.replace("_", "-") for name in named}
    return [f"--{word}" if name in FLAGS else f"--{word}={getattr(options, name)}" for name, word in options_of.items()]
