"""Names of files that a tool reads and of those that it writes: an output that is an input is refused.

The parser of a tool makes an `InputFile` or an `OutputFile` of each argument that names a file (`type=InputFile`), and
checks them against each other once the command line is read (`arguments.Parser`). So no tool begins to read, or opens
an output, before it is known that no input would be lost.

Files are compared by device and inode, so a symbolic link and a hard link count as the file that they lead to. A SigMF
recording is two files: whichever of them is named, both are protected. Character devices, such as /dev/null and a
terminal, may be read and written at once.
"""

import os
import stat
from collections.abc import Iterable, Iterator
from typing import Any

from cdma_tools.errors import Refused

STANDARD = "-"  # the name of standard input, or of standard output
META, DATA = ".sigmf-meta", ".sigmf-data"  # the ends of names of a SigMF recording
STANDARD_INPUT = "/dev/stdin"
Identity = tuple[int, int]


class InputFile(str):
    """The name of a file that a tool reads."""

    def files(self) -> Iterator[tuple[str, str]]:
        """The paths of what is read, each with how an output is described that is the same file."""
        path = STANDARD_INPUT if self == STANDARD else str(self)
        yield path, "is standard input" if self == STANDARD else f"is the input {path}"
        for other in other_files(path):
            part = "the metadata" if other.endswith(META) else "the data file"
            yield other, f"is {part} of the input {path}"


class OutputFile(str):
    """The name of a file that a tool writes."""

    def files(self) -> Iterator[str]:
        """The paths of what is written."""
        if self != STANDARD:
            yield str(self)


class UpdatedFile(OutputFile):
    """The name of a file to which a tool adds something: what it has stays, so it may be an input too."""


class OutputRecording(OutputFile):
    """The name of a recording that a tool writes; a .sigmf-meta stands for itself and for its data file."""

    def files(self) -> Iterator[str]:
        """The paths of what is written."""
        yield from super().files()
        if self.endswith(META):
            yield self.removesuffix(META) + DATA


class OutputFolder(str):
    """The name of a folder in which a tool writes files under names of its own, `names` as far as they are known."""

    names: tuple[str, ...] = ()

    def files(self) -> Iterator[str]:
        """The paths of what is written."""
        for name in self.names:
            yield os.path.join(self, name)


def other_files(path: str) -> Iterator[str]:
    """The other file of a SigMF recording: the samples of a metadata file, or the metadata of samples."""
    if path.endswith(META):
        yield path.removesuffix(META) + DATA
        yield from samples_named(path)
    elif path.endswith(DATA):
        yield path.removesuffix(DATA) + META
    else:
        meta = os.path.splitext(path)[0] + META
        if any(identity(named) == identity(path) for named in samples_named(meta)):
            yield meta


def samples_named(meta: str) -> Iterator[str]:
    """The path of the samples that a metadata file names, if it can be read and names some."""
    if not os.path.isfile(meta):
        return
    from cdma_tools import sigmf  # it loads numpy

    try:
        yield sigmf.samples_of(meta, sigmf.read_json(meta)["global"])
    except Refused:
        return  # the tool itself says what is wrong with it


def identity(path: str) -> Identity | None:
    """The device and the inode of a file; None if there is none, or if it may be read and written at once."""
    try:
        found = os.stat(path)
    except (OSError, ValueError):
        return None
    return None if is_shareable(found.st_mode) else (found.st_dev, found.st_ino)


def is_shareable(mode: int) -> bool:
    """Whether what has this mode may be read and written at once: a character device or a socket."""
    return stat.S_ISCHR(mode) or stat.S_ISSOCK(mode)


def named_in(values: Iterable[Any]) -> Iterator[Any]:
    """The names of files among values of arguments, which may be lists."""
    for value in values:
        if isinstance(value, (InputFile, OutputFile, OutputFolder)):
            yield value
        elif isinstance(value, (list, tuple)):
            yield from named_in(value)


def refuse_overwriting(values: Iterable[Any]) -> None:
    """Refuses an output that is an input, or that is written twice, among the values of arguments."""
    named = list(named_in(values))
    outputs = [name for name in named if not isinstance(name, InputFile)]
    if not outputs:
        return
    inputs = inputs_of(name for name in named if isinstance(name, InputFile))
    written: set[Identity | str] = set()
    for name in outputs:
        for path in name.files():
            found = identity(path) or (None if os.path.exists(path) else os.path.realpath(path))
            if found is None:
                continue
            if found in inputs and not isinstance(name, UpdatedFile):
                raise Refused(f"{path}: this output {inputs[found]}, which would be lost: name another file")
            if found in written:
                raise Refused(f"{path}: two outputs would be written to this file: name another one")
            written.add(found)


def inputs_of(names: Iterable[InputFile]) -> dict[Identity | str, str]:
    """Returns by identity how to describe an output that is one of the inputs."""
    found: dict[Identity | str, str] = {}
    for name in names:
        for path, relation in name.files():
            if (one := identity(path)) is not None:
                found.setdefault(one, relation)
    return found
