"""The package of Debian's kind: dpkg-buildpackage makes it by the rules in debian/, in a copy of the checkout.

    python3 -m cdma_tools.packaging.debian FOLDER

writes what those rules take from here: the commands, their manual pages and all completions, below FOLDER.
"""

import datetime
import os
import shutil
import subprocess
import sys
import tempfile
from collections.abc import Iterable, Iterator

from cdma_tools import RELEASED, __version__
from cdma_tools.errors import Refused
from cdma_tools.packaging.tree import (
    FOLDERS,
    NAME,
    PAGES,
    PLAIN,
    ZSH,
    Entry,
    check_program,
    command_files,
    program_completion_files,
    put,
    read,
)
from cdma_tools.places import BUILT, TOP

ARCHITECTURE = "amd64"
VENDOR_ZSH = "share/zsh/vendor-completions"  # where zsh looks for those of packages
MODULES = "lib/python3/dist-packages"  # where Debian's Python looks for modules of packages
MIDNIGHT = datetime.datetime.fromisoformat(f"{RELEASED}T00:00:00+00:00")
SECONDS = int(MIDNIGHT.timestamp())  # the time of every file, so that the same files make the same package
FILE = f"{NAME}_{__version__}_{ARCHITECTURE}.deb"
SOURCES = (*FOLDERS, "debian", "docs", "share")  # folders of the checkout that the rules need
BUILD = ("dpkg-buildpackage", "--build=binary", "--no-sign", "--no-pre-clean")
# A build takes nothing from this process's environment: Debian's Python may not be the first in its path.
ENVIRONMENT = {
    "PATH": "/usr/sbin:/usr/bin:/sbin:/bin",
    "HOME": "/nonexistent",
    "LC_ALL": "C.UTF-8",
    "SOURCE_DATE_EPOCH": str(SECONDS),
}
UNMET = "dpkg-checkbuilddeps: error: Unmet build dependencies: "


def made_files() -> Iterator[Entry]:
    """Yields what the rules take from here, by places below usr."""
    for place, data, mode in (*command_files(MODULES), *program_completion_files()):
        yield Entry(place.replace(ZSH, VENDOR_ZSH), data, mode)


def copy_checkout(program: str, folder: str) -> None:
    """Copies what the rules need into a new folder, with the program at the place where it is built.

    All files get the time of the version, whenever they were checked out.
    """
    ignored = shutil.ignore_patterns("__pycache__")
    for name in SOURCES:
        shutil.copytree(os.path.join(TOP, name), os.path.join(folder, name), ignore=ignored)
    for name in (*PAGES, "pyproject.toml"):
        shutil.copy(os.path.join(TOP, name), os.path.join(folder, name))
    built = os.path.join(folder, os.path.relpath(BUILT, TOP))
    os.makedirs(os.path.dirname(built))
    shutil.copy(program, built)
    for path, _, names in os.walk(folder):
        for name in names:
            os.utime(os.path.join(path, name), (SECONDS, SECONDS))


def build(program: str, path: str) -> None:
    """Makes the package with a program, completely or not at all."""
    check_program(program)
    with tempfile.TemporaryDirectory(prefix="package-") as folder:
        checkout = os.path.join(folder, f"{NAME}-{__version__}")
        copy_checkout(program, checkout)
        run(BUILD, checkout)
        data = read(os.path.join(folder, FILE))
    put(os.path.dirname(path) or ".", Entry(os.path.basename(path), data, PLAIN))


def run(words: Iterable[str], folder: str) -> None:
    """Runs a program of Debian's in a folder.

    Refuses its failure with the packages that are missing, with the first error that it reports, or with its last line.
    """
    program, *_ = words
    try:
        ran = subprocess.run([*words], capture_output=True, text=True, errors="replace", cwd=folder, env=ENVIRONMENT)
    except OSError as why:
        raise Refused(f"{program}: {why.strerror}: install the packages dpkg-dev and debhelper") from None
    if ran.returncode:
        unmet = [line.removeprefix(UNMET) for line in ran.stderr.splitlines() if line.startswith(UNMET)]
        if unmet:
            raise Refused(f"packages are missing that debian/control asks for: {unmet[0]}")
        told = [line for line in (ran.stdout + ran.stderr).splitlines() if line.strip()] or ["it says nothing"]
        reason = next((line for line in told if "error: " in line), told[-1])
        raise Refused(f"{program} ended with {ran.returncode}: {reason}")


if __name__ == "__main__":
    for made in made_files():
        put(sys.argv[1], made)
