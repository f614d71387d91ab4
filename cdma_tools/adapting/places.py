"""Command lines with places: for the names of files, and for the arguments of a case."""

import re
import shlex
from collections.abc import Mapping, Sequence

from cdma_tools.errors import WrongArguments

INPUT, OUTPUT, ARGUMENTS, COMMAND = "input", "output", "arguments", "command"
PLACE = re.compile(r"\{([a-z][a-z0-9]*)(?:=([^{}]*))?\}")


def values_of(arguments: Sequence[str]) -> dict[str, str]:
    """The values of a case's arguments by their names: `command` is the first, and --row 10 or --row=10 give `row`."""
    values = {COMMAND: arguments[0]} if arguments else {}
    given = iter(arguments[1:])
    for argument in given:
        name, equals, value = argument.removeprefix("--").partition("=")
        if argument.startswith("--"):
            values.setdefault(name, value if equals else next(given, ""))
    return values


def pieces_of(line: str) -> list[str]:
    """The arguments of a command line with places, as a shell would take it apart."""
    try:
        words = shlex.split(line)
    except ValueError as why:
        raise WrongArguments(f"--command {line!r}: {why}") from None
    if not words:
        raise WrongArguments("--command names no program")
    for word in words:
        left = PLACE.sub("", word)
        if "{" in left or "}" in left:
            raise WrongArguments(f"--command has a place that isn't {{NAME}} or {{NAME=DEFAULT}}: {word!r}")
        if any(found[1] == ARGUMENTS for found in PLACE.finditer(word)) and word != f"{{{ARGUMENTS}}}":
            raise WrongArguments(f"{{{ARGUMENTS}}} stands for several, and must be an argument of its own: {word!r}")
    return words


def has_place(words: Sequence[str], name: str) -> bool:
    """Whether a command line has a place of this name."""
    return any(found[1] == name for word in words for found in PLACE.finditer(word))


def filled(words: Sequence[str], arguments: Sequence[str], files: Mapping[str, str]) -> list[str]:
    """A command line whose places are filled with files' names and with the arguments of a case."""
    values = {**values_of(arguments), **files}

    def value_of(found: re.Match[str]) -> str:
        """Returns the value of a place: the case's, otherwise the text after the place's equals sign."""
        value = values.get(found[1], found[2])
        if value is None:
            raise WrongArguments(f"the case has no --{found[1]}, and the place {found[0]} has no default")
        return value

    whole: list[str] = []
    for word in words:
        whole += arguments if word == f"{{{ARGUMENTS}}}" else [PLACE.sub(value_of, word)]
    return whole
