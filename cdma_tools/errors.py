"""What the tools refuse, in words, and how they report it."""

import errno
import sys

NO_ROOM = (errno.ENOSPC, errno.EFBIG, errno.EDQUOT)


class Refused(Exception):
    """Why something can't be done with what was given, in words that end up as one line."""


class WrongArguments(Exception):
    """Reason why arguments of a command don't go together; the status is that of wrong arguments."""


def printable(text: str) -> str:
    """Returns a text as one line, with escapes for what can't be printed."""
    return "".join(letter if letter.isprintable() else ascii(letter)[1:-1] for letter in text)


def said(name: str, text: str) -> None:
    """Writes a line of a command to standard error; it is lost if nothing reads it."""
    try:
        print(f"{name}: {printable(text)}", file=sys.stderr, flush=True)
    except OSError:
        pass


def text_of(why: OSError, path: str = "") -> str:
    """Returns a fault of the system in words, with the file at fault: its own, otherwise the given one."""
    name = why.filename if isinstance(why.filename, str) else path
    if not name and why.errno in NO_ROOM:
        name = "standard output"
    return f"{name}: {why.strerror or why}" if name else str(why.strerror or why)
