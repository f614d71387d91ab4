"""Which program the library runs: `cdma_replay`, found as the tools find it, or the model."""

import contextlib
import os
import shlex
import sys
import tempfile
from collections.abc import Iterator
from dataclasses import dataclass

import cdma_model
from cdma.errors import NoProgramError, as_errors
from cdma.parameters import path_of
from cdma_tools.errors import Refused
from cdma_tools.program import MODEL, NAME, VARIABLE, checked_program, find_program

NOT_FOUND = (
    f"no {NAME}: ${VARIABLE} names none, none is built in this checkout, and none is on the path. Install the package"
    " cdma-replay, name a program with cdma.use_program(PATH), or run the model instead with cdma.use_model()"
)


@dataclass(frozen=True)
class Program:
    """A program to run: its name, the command's first words, and the folder of the model's package, if it is that."""

    name: str
    words: tuple[str, ...]
    modules: str = ""

    def environment(self) -> dict[str, str] | None:
        """Returns the environment of its process, None for that of this process."""
        if not self.modules:
            return None
        others = os.environ.get("PYTHONPATH", "")
        return {**os.environ, "PYTHONPATH": self.modules + (os.pathsep + others if others else "")}


_chosen: list[Program] = []  # empty: the program that is found


def use_model() -> None:
    """Runs the Python model instead of the program from now on, in this process.

    The model has the program's results and takes longer. It needs no program.

    >>> cdma.use_model()
    """
    _chosen[:] = [model_program()]


def model_program() -> Program:
    """Returns the model as a program."""
    folder = os.path.dirname(os.path.dirname(os.path.abspath(str(cdma_model.__file__))))
    return Program("the model", (sys.executable, "-B", "-P", "-m", "cdma_model"), folder)


def use_program(path: str | os.PathLike[str] | None = None) -> None:
    """Runs the program at `path` from now on, in this process; None for the one that the tools would find.

    Raises `cdma.Error` if there is no program at `path`.

    >>> cdma.use_program("/no/such/program")
    Traceback (most recent call last):
    cdma.errors.Error: no program at /no/such/program
    """
    with as_errors():
        _chosen[:] = [] if path is None else [Program(NAME, (checked_program(path_of("path", path)),))]


def chosen() -> Program:
    """Returns the program to run; raises NoProgramError if there is none."""
    if _chosen:
        return _chosen[0]
    if os.environ.get(VARIABLE) == MODEL:
        return model_program()
    try:
        return Program(NAME, (find_program(None),))
    except Refused as why:
        if os.environ.get(VARIABLE):
            raise NoProgramError(f"{why}, which ${VARIABLE} names") from None
        raise NoProgramError(NOT_FOUND) from None


def program_path() -> str:
    """Returns the path of the program, for what runs it by itself; raises Error if the model is chosen."""
    found = chosen()
    if found.modules:
        raise NoProgramError("this needs the program cdma_replay: cdma.use_model() chose the model")
    return found.words[0]


def path_or_none() -> str | None:
    """Returns the path of the program, None if there is none or the model is chosen."""
    try:
        return program_path()
    except NoProgramError:
        return None


@contextlib.contextmanager
def script_of_model() -> Iterator[str]:
    """Yields the path of the program, or of a script that runs the model, if that is chosen."""
    found = chosen()
    if not found.modules:
        yield found.words[0]
        return
    with tempfile.TemporaryDirectory(prefix="cdma-") as folder:
        path = os.path.join(folder, NAME)
        modules, words = shlex.quote(found.modules), shlex.join(found.words)
        with open(path, "w", encoding="utf-8") as file:
            file.write(f'#!/bin/sh\nPYTHONPATH={modules}${{PYTHONPATH:+:$PYTHONPATH}} exec {words} "$@"\n')
        os.chmod(path, 0o700)
        yield path
