"""Parameters: values are checked by the bounds of the program's options, whose names they have."""

import argparse
import numbers
import operator
import os
import re
from collections.abc import Iterable, Mapping
from typing import Any, NoReturn, SupportsIndex, TypeVar

from cdma.errors import ParameterError, as_errors
from cdma_tools.scripting import arguments
from cdma_tools.scripting.values import Wrong

Number = SupportsIndex  # int, and numpy's whole numbers
HexNumber = SupportsIndex | str  # a number, or its hex digits
Kind = TypeVar("Kind")


def whole(name: str, value: object) -> int:
    """Returns a whole number; raises ParameterError for anything that isn't one."""
    try:
        return operator.index(value)  # type: ignore[arg-type]
    except TypeError:
        raise ParameterError(name, f"a whole number is needed, not {value!r:.60}") from None


def number_within(name: str, value: object, least: int, most: int) -> int:
    """Returns a whole number from `least` to `most`."""
    number = whole(name, value)
    if not least <= number <= most:
        raise ParameterError(name, f"{number} is out of range ({least:,} to {most:,})")
    return number


def path_of(name: str, value: object) -> str:
    """Returns a path as text; raises ParameterError for anything that isn't one."""
    path = os.fspath(value) if isinstance(value, (str, os.PathLike)) else None
    if not isinstance(path, str):
        raise ParameterError(name, f"a path is needed, not {value!r:.60}")
    if "\0" in path:
        raise ParameterError(name, "a path has no zero character")
    return path


def instance_of(name: str, value: object, kind: type[Kind]) -> Kind:
    """Returns a value of a type; raises ParameterError if it is of another one."""
    if not isinstance(value, kind):
        raise ParameterError(name, f"a {kind.__name__} is needed, not {value!r:.60}")
    return value


def parts_of(name: str, value: object) -> list[Any]:
    """Returns the parts of a list or of another iterable; raises ParameterError for a text and for anything else."""
    if isinstance(value, (str, bytes)) or not isinstance(value, Iterable):
        raise ParameterError(name, f"a list is needed, not {value!r:.60}")
    return list(value)


def hex_text(name: str, value: object, digits: int) -> str:
    """Returns a number in hex digits, from a number or from such a text."""
    if isinstance(value, str):
        return value
    number = whole(name, value)
    if number < 0:
        raise ParameterError(name, f"{number} is negative")
    return f"{number:0{digits}x}"


def option_words(command: str, values: Mapping[str, object]) -> list[str]:
    """Returns the command of the program with the options that aren't None; raises ParameterError if one is wrong."""
    given: dict[str, int | None] = {}
    words = [command]
    for name, value in values.items():
        if value is None:
            continue
        bounds = arguments.COMMANDS[command][name]
        text = hex_text(name, value, 8) if isinstance(bounds, str) else str(whole(name, value))
        try:
            given[name] = arguments.number_of(name, text, bounds)
        except Wrong as why:
            raise ParameterError(name, str(why)) from None
        words += [f"--{name}", text]
    for fault in arguments.group_faults(command, given):
        name, _, reason = fault.replace("--", "").partition(" ")
        raise ParameterError(name, reason)
    return words


def parsed(parser: Any, words: list[str]) -> argparse.Namespace:
    """Returns the options that a command's parser reads; raises ParameterError instead of ending the process."""

    def refuse(message: str) -> NoReturn:
        given = "|".join(word[2:].partition("=")[0] for word in words if word.startswith("--") and word != "--")
        named = re.search(r"--([a-z][a-z0-9-]*)", message) or re.search(rf"\b({given})\b", message)
        name = named[1].replace("-", "_") if named and named[1] else "arguments"
        raise ParameterError(name, re.sub(r"^argument [^:]*: ", "", message))

    parser.error = refuse
    with as_errors():
        options: argparse.Namespace = parser.parse_args(words)
    return options


def words_of(values: Mapping[str, object], *repeated: str) -> list[str]:
    """Returns parameters as options of a command line: none for None and False, one for each part of a repeated one."""
    words = []
    for name, value in values.items():
        option = f"--{name.replace('_', '-')}"
        if value is True:
            words.append(option)
        elif name in repeated:
            words += [f"{option}={text_of(part)}" for part in parts_of(name, value)]
        elif value is not None and value is not False:
            words.append(f"{option}={text_of(value)}")
    return words


def text_of(value: object) -> str:
    """Returns a value as an option has it; the parts of a tuple stand between colons."""
    if isinstance(value, tuple):
        return ":".join(text_of(part) for part in value)
    if isinstance(value, numbers.Real) and not isinstance(value, numbers.Rational):
        return repr(float(value))
    return str(value)
