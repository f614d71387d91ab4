"""The log of the merge gate that goes with the archive of a program: it says that the gate passed, for this commit.

The log is the output of `rt ci`, whose last line is `N passed, 0 failed`. A line `commit HEX`, as `git log -1` begins,
says of which commit the log is. `ts` may have written a time before each line.
"""

import re
import subprocess
from collections.abc import Iterable

from cdma_tools.errors import Refused
from cdma_tools.places import TOP

MOST_BYTES = 1 << 28  # of a log: a gate writes some hundred kilobytes
TIME = r"(?:[-\w:.+]{1,32} ){0,3}"
ENDED = re.compile(TIME + r"(\d+) passed, (\d+) failed(.*)")
COMMIT = re.compile(TIME + r"commit ([0-9a-f]{7,40})(?: \(.*\))?")


def this_commit() -> str:
    """Returns the commit of this checkout, empty if there is none."""
    words = ["git", "-C", TOP, "rev-parse", "--verify", "--quiet", "HEAD"]
    try:
        ran = subprocess.run(words, capture_output=True, text=True, timeout=60, check=False)
    except (OSError, subprocess.TimeoutExpired):
        return ""
    return ran.stdout.strip()


def check_commit(commit: str) -> None:
    """Refuses a log of another commit than this checkout's."""
    ours = this_commit()
    if not ours:
        raise Refused(f"the log is of commit {commit}, and this checkout has none to compare it with")
    if not ours.startswith(commit):
        raise Refused(f"the log is of commit {commit}, and this checkout is at {ours}")


def check_end(line: str) -> None:
    """Refuses a log whose last line is not that of a gate that passed."""
    found = ENDED.fullmatch(line)
    if not found:
        raise Refused(f"the log's last line is not that of a whole gate, 'N passed, 0 failed': {line[:80]!r}")
    passed, failed, rest = found.groups()
    if rest:
        raise Refused(f"the log is not of the whole gate: {line[:80]!r}")
    if int(failed) or not int(passed):
        raise Refused(f"the log is of a gate that did not pass: {line[:80]!r}")


def check_log(lines: Iterable[str]) -> None:
    """Refuses a log that doesn't end as a gate that passed does, or that is of another commit."""
    last = ""
    for line in map(str.rstrip, lines):
        if found := COMMIT.fullmatch(line):
            check_commit(found[1])
        last = line or last
    check_end(last)


def read_log(path: str) -> bytes:
    """Returns a log that belongs to this checkout's program; refuses any other file."""
    try:
        with open(path, "rb") as file:
            data = file.read(MOST_BYTES + 1)
    except OSError as why:
        raise Refused(f"{path}: {why.strerror}") from None
    if len(data) > MOST_BYTES:
        raise Refused(f"{path}: longer than a log of {MOST_BYTES:,} bytes")
    try:
        check_log(data.decode(errors="replace").splitlines())
    except Refused as why:
        raise Refused(f"{path}: {why}") from None
    return data
