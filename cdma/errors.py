"""Errors of the library: each is one line, as the tools print it, and keeps what a program may ask of it."""

import contextlib
import os
import re
from collections.abc import Iterator, Sequence

from cdma_tools.errors import Refused, WrongArguments, text_of
from cdma_tools.scripting.checking import Fault, fault_text, verdict

BAD_FILE = re.compile(r"bad file: ([a-z ]+) at ([0-9]+)")


class Error(Exception):
    """Reason why something can't be done: one line, as the tools print it.

    All other errors of the library are subclasses.
    """


class ParameterError(Error, ValueError):
    """A parameter has a wrong type or is out of range; `parameter` is its name."""

    def __init__(self, parameter: str, reason: str) -> None:
        """The line is the parameter's name and the reason."""
        super().__init__(f"{parameter}: {reason}")
        self.parameter = parameter


class NoProgramError(Error):
    """No program `cdma_replay` is found, and the model isn't chosen."""


class FileError(Error):
    """A file is not a sample file, or has too few samples.

    `kind` is the fault, such as `magic` or `short`, and `place` its offset in bytes.
    """

    def __init__(self, kind: str, place: int, name: str = "") -> None:
        """The line is the program's, after the file's name if one is given."""
        super().__init__(f"{name + ': ' if name else ''}bad file: {kind} at {place}")
        self.kind, self.place = kind, place


class ScriptError(Error):
    """A script names no cell, or a cell can't be sent.

    `kind` is the kind of its first fault, such as `line` or `too loud`, and `place` that fault's line and column,
    counted from 1. `verdict` is what the program says of the script. `faults` has all faults.
    """

    def __init__(self, faults: Sequence[Fault], name: str) -> None:
        """The line is that of the first fault, in the script with a name."""
        first = faults[0]
        super().__init__(fault_text(first, name))
        self.kind, self.place = first.kind.value, (first.line, first.column)
        self.verdict, self.faults = verdict(list(faults)), tuple(faults)


@contextlib.contextmanager
def as_errors(folder: str = "") -> Iterator[None]:
    """Turns what the tools refuse, and faults of the system, into errors of the library.

    Files in a temporary `folder` are named without it.
    """
    try:
        yield
    except (Refused, WrongArguments) as why:
        raise Error(str(why).replace(os.path.join(folder, ""), "") if folder else str(why)) from None
    except OSError as why:
        raise Error(text_of(why)) from why


def error_of(status: int, said: str, name: str) -> Error:
    """Returns the error of a run of the program that ended with a status and a line on standard error."""
    if found := BAD_FILE.fullmatch(said):
        return FileError(found[1], int(found[2]))
    if status < 0:
        return Error(f"{name} was ended by signal {-status}")
    return Error(said or f"{name} ended with status {status} and said nothing")
