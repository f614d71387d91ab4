"""Lines of the program as JSON, one object a line, and back again."""

import json
from collections.abc import Callable, Iterable
from typing import Any, TypeVar

from cdma_tools.lines import NoLine, read_line, spell_line

Turned = TypeVar("Turned")
LONGEST = 1 << 20  # of an object: the longest line, of 1,024 bytes, has one of a few thousand


def as_json(text: str) -> str:
    """The object of a line, as JSON."""
    return json.dumps(read_line(text), separators=(",", ":"))


def only_once(pairs: list[tuple[str, Any]]) -> dict[str, Any]:
    """The object of these names and values, each name once."""
    made = dict(pairs)
    if len(made) != len(pairs):
        raise NoLine("a name appears twice")
    return made


def object_of(text: str) -> dict[str, Any]:
    """Returns the object in a line of JSON."""
    try:
        given = json.loads(text, object_pairs_hook=only_once)
    except NoLine:
        raise
    except (ValueError, RecursionError) as why:
        raise NoLine(f"not JSON: {why}") from None
    if not isinstance(given, dict):
        raise NoLine("not an object")
    return given


def as_line(text: str) -> str:
    """Returns the line of an object in JSON."""
    return spell_line(object_of(text))


def turned_lines(source: Iterable[bytes], turned: Callable[[str], Turned]) -> Iterable[Turned]:
    """Yields what each line becomes."""
    for number, line in enumerate(source, 1):
        try:
            if not line.endswith(b"\n"):
                raise NoLine("it has no line feed" if len(line) < LONGEST else "it is too long")
            yield turned(line[:-1].decode("ascii"))
        except UnicodeDecodeError:
            raise NoLine(f"line {number}: it isn't ASCII text") from None
        except NoLine as why:
            raise NoLine(f"line {number}: {why}") from None


def lines_of(file: Any) -> Iterable[bytes]:
    """The lines of a file, as long as a line may be."""
    return iter(lambda: file.readline(LONGEST), b"")
