"""One way to the program `cdma_replay`, or to the Python model in its place, for every tool that runs it."""

import argparse
import functools
import os
import shutil
import subprocess
import sys
from typing import IO

from cdma_tools.errors import Refused, said
from cdma_tools.overwriting import InputFile
from cdma_tools.places import BUILT, TOP
from cdma_tools.starting import INSTALLED, is_installed

NAME = "cdma_replay"
LONGEST_RUN = 600  # seconds that a run over a sample file may take
VARIABLE = "CDMA_REPLAY"
MODEL = "model"  # what names the model in place of a program's file
SLOWER = "10 to 30 times slower"  # over the examples, start included

# Where the program is searched by default, and the error if it isn't there: in a checkout, and installed.
IN_CHECKOUT = "the one built in this checkout"
BESIDE = "the one next to this command"
INSTEAD = f"--program {MODEL} runs the Python model instead, {SLOWER}"
NOT_FOUND = (
    f"{NAME} was not found: give --program or set ${VARIABLE}; it is not built in this checkout (rt ci builds it), and"
    f" not on the path; {INSTEAD}"
)
NOT_INSTALLED = (
    f"{NAME} was not found: give --program or set ${VARIABLE}; it is not next to this command, and not on the path:"
    f" install the package cdma-replay, which has it; {INSTEAD}"
)


def add_program_option(parser: argparse.ArgumentParser, *others: str) -> None:
    """Adds the option --program, and other names of it, to a command line."""
    nearest = BESIDE if is_installed() else IN_CHECKOUT
    what = (
        f"{NAME}, or {MODEL} for the Python model, which is {SLOWER} (default ${VARIABLE}, or {nearest}, or {NAME} on"
        " the path)"
    )
    parser.add_argument("--program", *others, dest="program", type=InputFile, metavar="FILE", help=what)


def checked_program(path: str) -> str:
    """The absolute path of a program; refuses what isn't there or can't be run."""
    if not os.path.isfile(path) or not os.access(path, os.X_OK):
        raise Refused(f"no program at {path}")
    return os.path.abspath(path)


def beside(name: str) -> list[str]:
    """Returns the places of a program next to the command of this process, by the command's name and by its link."""
    commands = (os.path.abspath(sys.argv[0]), os.path.realpath(sys.argv[0]))
    return [os.path.join(os.path.dirname(command), name) for command in commands]


def first_program(places: list[str], name: str) -> str | None:
    """Returns the first of the places that has a program, otherwise the program of this name on the path, if any."""
    there = (place for place in places if os.path.isfile(place) and os.access(place, os.X_OK))
    found = next(there, None) or shutil.which(name)
    return found and os.path.abspath(found)


def model_program() -> str:
    """Returns the command that runs the model: of this checkout or next to this command, otherwise on the path."""
    command = INSTALLED[MODEL]
    places = beside(command) if is_installed() else [os.path.join(TOP, "tools", MODEL)]
    found = first_program([*places, os.path.join(os.path.dirname(sys.executable), command)], command)
    if found is None:
        raise Refused(f"no {command}, which runs the model: it is neither next to this command nor on the path")
    remark_on_model()
    return found


@functools.cache
def remark_on_model() -> None:
    """Writes to standard error, once in a process, that the model runs."""
    said(MODEL, f"runs instead of {NAME}, {SLOWER}")


def find_program(given: str | None) -> str:
    """Returns the program to run: the given one, otherwise $CDMA_REPLAY, the nearest, or the one on the path.

    The word `model` names the command that runs the model.
    """
    named = given or os.environ.get(VARIABLE)
    if named == MODEL:
        return model_program()
    if named:
        return checked_program(named)
    found = first_program(beside(NAME) if is_installed() else [BUILT], NAME)
    if found is None:
        raise Refused(NOT_INSTALLED if is_installed() else NOT_FOUND)
    return found


def program_or_hint(given: str | None, lines: list[str], without: str = "no cell's messages are decoded") -> str | None:
    """The program; if it isn't there and none is named, None, and `lines` get why and what is missing without it."""
    try:
        return find_program(given)
    except Refused as why:
        if given:
            raise
        lines.append(f"{without}: {why}")
        return None


def written_of(program: str, words: list[str], file: IO[bytes]) -> bytes:
    """Returns the output of a run of the program for a sample file; refuses a program that can't be run, or doesn't
    end."""
    try:
        ran = subprocess.run([program, *words], stdin=file, capture_output=True, timeout=LONGEST_RUN, check=False)
    except OSError as why:
        raise Refused(f"{program}: {why.strerror}") from None
    except subprocess.TimeoutExpired:
        raise Refused(f"{program} {' '.join(words)} didn't end within {LONGEST_RUN} s") from None
    return ran.stdout
