"""The launchers of a checkout and the installed commands, made from the one table in `starting`.

    python3 -m cdma_tools.repository.launchers            reports what differs from the table; status 1 if anything does
    python3 -m cdma_tools.repository.launchers --write    brings the launchers and pyproject.toml up to date

A launcher is a copy of cdma_tools/launching.py: a link would do, but `rt ci` refuses links.
"""

import os
import re
import sys

from cdma_tools.places import PACKAGE, TOP
from cdma_tools.starting import COMMANDS

LAUNCHER = os.path.join(PACKAGE, "launching.py")
FOLDERS = ("tools", "conformance")
PROJECT = "pyproject.toml"
SCRIPTS = re.compile(r"(?m)^\[project\.scripts\]\n(?:cdma-.*\n)*")
MODE = 0o755


def wanted_scripts() -> str:
    """Returns the section of pyproject.toml that names the installed commands."""
    names = [name for _, _, name in COMMANDS if name]
    lines = "".join(f'{name} = "cdma_tools.entries:{name.replace("-", "_")}"\n' for name in names)
    return f"[project.scripts]\n{lines}"


def read(path: str) -> bytes:
    """Returns the bytes of a file."""
    with open(path, "rb") as file:
        return file.read()


def is_launcher(path: str) -> bool:
    """Whether a file is an executable copy of the launcher, and no link."""
    is_plain = os.path.isfile(path) and not os.path.islink(path)
    return is_plain and os.access(path, os.X_OK) and read(path) == read(LAUNCHER)


def programs_in(folder: str, top: str) -> list[str]:
    """Returns the executable files in a folder of the checkout at `top`, by their places in it."""
    paths = {
        f"{folder}/{name}": os.path.join(top, folder, name) for name in sorted(os.listdir(os.path.join(top, folder)))
    }
    return [place for place, path in paths.items() if os.path.isfile(path) and os.access(path, os.X_OK)]


def differences(top: str = TOP) -> list[str]:
    """Reports what differs from the table."""
    wanted = [launcher for _, launcher, _ in COMMANDS]
    missing = [place for place in wanted if not is_launcher(os.path.join(top, place))]
    found = [f"{place}: not a copy of cdma_tools/launching.py" for place in missing]
    there = [place for folder in FOLDERS for place in programs_in(folder, top)]
    found += [f"{place}: not in the table of commands" for place in there if place not in wanted]
    if wanted_scripts() not in read(os.path.join(top, PROJECT)).decode():
        found.append(f"{PROJECT}: its commands are not those of the table")
    return found


def write(top: str = TOP) -> None:
    """Brings the launchers and pyproject.toml up to date."""
    for _, launcher, _ in COMMANDS:
        path = os.path.join(top, launcher)
        if os.path.lexists(path):
            os.unlink(path)
        with open(path, "wb") as file:
            file.write(read(LAUNCHER))
        os.chmod(path, MODE)
    project = os.path.join(top, PROJECT)
    text = SCRIPTS.sub(lambda _: wanted_scripts(), read(project).decode())
    with open(project, "w", encoding="utf-8") as out:
        out.write(text)


def main() -> int:
    """Runs the module, and returns its exit status."""
    if sys.argv[1:] == ["--write"]:
        write()
    found = differences()
    print("".join(line + "\n" for line in found), end="")
    return 1 if found else 0


if __name__ == "__main__":
    sys.exit(main())
