"""What completions and manual pages are made from: the parser of a command, and a text that a package made of it."""

import importlib
import re
import sys
from unittest import mock

from cdma_tools.arguments import Parser
from cdma_tools.errors import Refused


def parser_of(name: str, module: str) -> Parser:
    """Returns the parser of a command, under its installed name."""
    with mock.patch.object(sys, "argv", [name]):
        made: Parser = importlib.import_module(f"cdma_tools.commands.{module}").parser()
    return made


def in_a_line(text: str) -> str:
    """Returns a text in one line."""
    return re.sub(r"\s+", " ", text).strip()


def mended(text: str, pattern: str, new: str, times: int = 1) -> str:
    """Returns a package's text with a pattern replaced; refuses a text that doesn't have it this number of times."""
    made, found = re.subn(pattern, lambda _: new, text)
    if found != times:
        raise Refused(f"shtab or argparse-manpage has changed: {pattern} is in its text {found} times, not {times}")
    return made
