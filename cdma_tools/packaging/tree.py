"""The files of an installation, and how they are put below a prefix and taken away again."""

import contextlib
import os
import stat
import subprocess
from collections.abc import Iterable, Iterator
from typing import NamedTuple

from cdma_tools.errors import Refused
from cdma_tools.packaging import program_completions
from cdma_tools.places import PACKAGE, TOP
from cdma_tools.starting import INSTALLED
from cdma_tools.writing import write_beside

NAME = "cdma-replay"
SHARED = f"share/{NAME}"
LIST = f"{SHARED}/files"  # of an installation: what was put in place, to be taken away again
DISSECTOR = f"{SHARED}/is95.lua"  # for Wireshark; at the same place in the checkout
GRAMMARS = tuple(f"{SHARED}/is95-{name}.tmLanguage.json" for name in ("script", "lines"))  # for editors, likewise
DOCUMENTS = f"share/doc/{NAME}"
MANUALS = "share/man/man1"
BASH = "share/bash-completion/completions"
ZSH = "share/zsh/site-functions"  # which zsh looks at below /usr/local
PLAIN, EXECUTABLE = 0o644, 0o755
# Folders of the checkout that are laid as they are, without what a run of Python leaves in them.
FOLDERS = ("cdma", "cdma_tools", "cdma_model", "conformance", "examples")
# Pages outside docs/ to which those that are installed lead, each at its place in the checkout.
PAGES = ("README.md", "CONTRIBUTING.md", "CHANGELOG.md", "conformance/README.md")
# An installed command: it finds the package below its own prefix, whatever that is, and leaves no files.
COMMAND = """#!/usr/bin/python3 -S
\"\"\"The command `{module}` of the package cdma_tools.\"\"\"
import sys

if __name__ == "__main__":
    # Python may drop an interrupt that comes in an import, so it waits here until `start` takes it.
    signals = sys.modules["_signal"]
    signals.pthread_sigmask(signals.SIG_BLOCK, (signals.SIGINT, signals.SIGTERM))
try:
    import os

    sys.dont_write_bytecode = True
    prefix = os.path.dirname(os.path.dirname(os.path.realpath(__file__)))
    sys.path[:] = [*sys.path[1:], os.path.join(prefix, "{modules}")]
    from cdma_tools.starting import start

    if __name__ == "__main__":
        sys.exit(start("{module}"))
except KeyboardInterrupt:
    print("{command}: broken off", file=sys.stderr)
    raise SystemExit(130) from None
"""


class Entry(NamedTuple):
    """A file of an installation: its place below the prefix, its bytes, its mode."""

    place: str
    data: bytes
    mode: int


def check_program(path: str) -> None:
    """Refuses a file that isn't the program or doesn't run here: without arguments the program ends with status 2."""
    if not os.path.isfile(path) or not os.access(path, os.X_OK):
        raise Refused(f"no program at {path}: build it first, for instance with rt ci at the top of the repository")
    try:
        ran = subprocess.run([path], stdin=subprocess.DEVNULL, capture_output=True, timeout=60)
    except OSError as why:
        raise Refused(f"{path} doesn't run here: {why.strerror}") from None
    except subprocess.TimeoutExpired:
        raise Refused(f"{path} didn't end within a minute") from None
    if ran.returncode != 2 or ran.stderr != b"bad words\n":
        raise Refused(
            f"{path} isn't cdma_replay, or doesn't run here: without arguments it ended with {ran.returncode}"
        )


def read(path: str) -> bytes:
    """The bytes of a file."""
    with open(path, "rb") as file:
        return file.read()


def files_below(folder: str) -> Iterator[str]:
    """The files below a folder of the checkout, by their places in it, in order."""
    for path, folders, names in os.walk(os.path.join(TOP, folder)):
        folders[:] = sorted(name for name in folders if name != "__pycache__")
        for name in sorted(names):
            yield os.path.relpath(os.path.join(path, name), TOP)


def commands() -> dict[str, str]:
    """The module of each command that is installed, by the command's name: of those that this checkout has."""
    found = {command: module for module, command in INSTALLED.items()}
    return {
        name: module
        for name, module in found.items()
        if os.path.exists(os.path.join(PACKAGE, "commands", f"{module}.py"))
    }


def shared_files() -> Iterator[Entry]:
    """Yields the package, the model, the cases, the examples, the dissector and the grammars.

    What only a checkout runs is left out.
    """
    for folder in FOLDERS:
        for place in files_below(folder):
            is_way = folder == "conformance" and os.path.dirname(place) == folder and "." not in place
            if not is_way:
                yield Entry(f"{SHARED}/{place}", read(os.path.join(TOP, place)), PLAIN)
    for place in (DISSECTOR, *GRAMMARS):
        yield Entry(place, read(os.path.join(TOP, place)), PLAIN)


def documents() -> Iterator[Entry]:
    """The documents, with their pictures; a link from one to another leads there as it does in the checkout."""
    for place in [*PAGES, *files_below("docs")]:
        if not place.endswith(".1"):
            yield Entry(f"{DOCUMENTS}/{place}", read(os.path.join(TOP, place)), PLAIN)


def program_files(program: str) -> Iterator[Entry]:
    """Yields the program, its manual page and its completions."""
    check_program(program)
    yield Entry(f"{MANUALS}/cdma_replay.1", read(os.path.join(TOP, "docs", "cdma_replay.1")), PLAIN)
    yield Entry("bin/cdma_replay", read(program), EXECUTABLE)
    yield from program_completion_files()


def program_completion_files() -> Iterator[Entry]:
    """Yields the completions of the program."""
    yield Entry(f"{BASH}/cdma_replay", program_completions.bash_completion().encode(), PLAIN)
    yield Entry(f"{ZSH}/_cdma_replay", program_completions.zsh_completion().encode(), PLAIN)


def command_files(modules: str) -> Iterator[Entry]:
    """Yields each command, its manual page and its completions; it imports from the folder `modules` of its prefix."""
    from cdma_tools.packaging import completions, manuals  # they need packages that nothing else needs

    for name, module in commands().items():
        text = COMMAND.format(module=module, command=name, modules=modules)
        yield Entry(f"bin/{name}", text.encode(), EXECUTABLE)
        yield Entry(f"{MANUALS}/{name}.1", manuals.manual_of(name, module).encode(), PLAIN)
        yield Entry(f"{BASH}/{name}", completions.completion_of(name, module).encode(), PLAIN)
        yield Entry(f"{ZSH}/_{name}", completions.zsh_completion_of(name, module).encode(), PLAIN)


def entries(program: str) -> Iterator[Entry]:
    """All files of an installation."""
    yield from program_files(program)
    yield from command_files(SHARED)
    yield from shared_files()
    yield from documents()


def put(prefix: str, entry: Entry) -> None:
    """Puts a file in place, at once; folders that aren't there are made."""
    path = os.path.join(prefix, entry.place)
    try:
        os.makedirs(os.path.dirname(path), exist_ok=True)
        with write_beside(path) as file:
            file.write(entry.data)
        os.chmod(path, entry.mode)
    except OSError as why:
        raise Refused(f"{why.filename or path}: {why.strerror}") from None


def put_all(prefix: str, files: Iterable[Entry]) -> list[str]:
    """Puts files below a prefix, with a list of them, and returns their places; nothing if one can't be made."""
    places = []
    for entry in list(files):
        put(prefix, entry)
        places.append(entry.place)
    put(prefix, Entry(LIST, "".join(f"{place}\n" for place in [*places, LIST]).encode(), PLAIN))
    return [*places, LIST]


def listed(prefix: str) -> list[str]:
    """The places of what an installation put below a prefix; refuses a prefix without one, and a list of elsewhere."""
    path = os.path.join(prefix, LIST)
    try:
        places = read(path).decode().splitlines()
    except OSError as why:
        raise Refused(f"{path}: {why.strerror}: nothing is installed there") from None
    except ValueError:
        raise Refused(f"{path}: not a list of files") from None
    if any(os.path.isabs(place) or ".." in place.split("/") for place in places):
        raise Refused(f"{path}: not a list of files below the prefix")
    return places


def take_away(prefix: str) -> list[str]:
    """Removes what an installation put below a prefix, and folders that are then empty; returns what it removed."""
    places = listed(prefix)
    for place in places:
        path = os.path.join(prefix, place)
        try:
            if stat.S_ISREG(os.lstat(path).st_mode):
                os.unlink(path)
        except FileNotFoundError:
            continue
        except OSError as why:
            raise Refused(f"{path}: {why.strerror}") from None
    folders = {parent for place in places for parent in parents(place)}
    for folder in sorted(folders, key=len, reverse=True):
        with contextlib.suppress(OSError):  # that it isn't empty
            os.rmdir(os.path.join(prefix, folder))
    return places


def parents(place: str) -> Iterator[str]:
    """The folders above a place, below the prefix."""
    while place := os.path.dirname(place):
        yield place
