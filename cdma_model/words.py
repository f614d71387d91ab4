"""The arguments of the command line (docs/FORMATS.md, "Command line and exit status")."""

import re
from typing import Callable

Options = dict[str, int]
Reader = Callable[[str], int]


class BadWords(Exception):
    """Arguments that the command line doesn't have."""


def decimal(least: int, most: int) -> Reader:
    """Reads a number of 1 to 20 digits, within bounds."""

    def read(text: str) -> int:
        if not re.fullmatch("[0-9]{1,20}", text) or not least <= int(text) <= most:
            raise BadWords
        return int(text)

    return read


def digits(text: str) -> int:
    """Reads eight hex digits."""
    if not re.fullmatch("[0-9a-fA-F]{8}", text):
        raise BadWords
    return int(text, 16)


UNLIMITED = (1 << 32) - 1
LIMIT = decimal(0, UNLIMITED)
WORKERS = decimal(1, 64)
SEARCH = {"span": decimal(64, 32_768), "workers": WORKERS}
PATHS = SEARCH | {"fingers": decimal(1, 3)}
CHANNEL = {"paging": decimal(1, 7)}
ASSIGNED = {"esn": digits, "row": decimal(1, 63), "offset": decimal(0, 15)}
LIMITS = {"pilots": LIMIT, "messages": LIMIT, "frames": LIMIT, "raw": LIMIT}
COMMANDS: dict[str, dict[str, Reader]] = {
    "find": SEARCH,
    "follow": PATHS | CHANNEL | ASSIGNED | LIMITS,
    "rate2": PATHS | ASSIGNED,
    "list": PATHS | ASSIGNED | {"k": decimal(1, 16)},
    "idle": PATHS | CHANNEL | {"key": digits, "cycle": decimal(0, 7)},
    "survey": SEARCH | {"base": decimal(0, 32_767), "width": decimal(0, 31), "top": decimal(1, 512)},
    "make": {"bits": decimal(8, 16)},
    "trial": {"number": decimal(0, (1 << 64) - 1), "workers": WORKERS},
}
NEEDED = {"rate2": {"esn", "row"}, "list": {"esn", "row", "k"}, "idle": {"key"}, "trial": {"number"}}
DEFAULTS = {"span": 2_048, "workers": 4, "fingers": 1, "paging": 1, "pilots": UNLIMITED, "messages": UNLIMITED,
            "frames": UNLIMITED, "raw": 0, "cycle": 0, "base": 0, "width": 10, "top": 512, "bits": 16}  # fmt: skip
SYNC_ROW = 32


def given_options(words: list[str], readers: dict[str, Reader]) -> Options:
    """The options that arguments give, as `--name N` or `--name=N`, each at most once."""
    given: Options = {}
    rest = list(words)
    while rest:
        name, separator, value = rest.pop(0).partition("=")
        if not separator:
            if not rest:
                raise BadWords
            value = rest.pop(0)
        if not name.startswith("--") or name[2:] not in readers or name[2:] in given:
            raise BadWords
        given[name[2:]] = readers[name[2:]](value)
    return given


def read_words(words: list[str]) -> tuple[str, Options]:
    """The command and all its options; raises `BadWords`."""
    if not words or words[0] not in COMMANDS:
        raise BadWords
    command = words[0]
    given = given_options(words[1:], COMMANDS[command])
    options = {name: DEFAULTS[name] for name in COMMANDS[command] if name in DEFAULTS} | given
    lacking = NEEDED.get(command, set()) - set(given)
    halved = ("esn" in given) != ("row" in given) or "offset" in given and "esn" not in given
    taken = options.get("row") in (SYNC_ROW, options.get("paging")) and "row" in given
    if lacking or halved or taken or options.get("bits", 8) not in (8, 16):
        raise BadWords
    return command, options | ({"offset": given.get("offset", 0)} if "esn" in given else {})
