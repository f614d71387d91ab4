"""Says what is wrong with arguments of `cdma_replay` (docs/FORMATS.md, "Command line and exit status")."""

import difflib
import re

from cdma_tools.scripting.values import Wrong, quoted

HEX = "eight hex digits"
Bounds = tuple[int, int] | str
UNLIMITED = (1 << 32) - 1
SEARCH: dict[str, Bounds] = {"span": (64, 32_768), "workers": (1, 64)}
PATHS = SEARCH | {"fingers": (1, 3)}
CHANNEL: dict[str, Bounds] = {"paging": (1, 7)}
ASSIGNED: dict[str, Bounds] = {"esn": HEX, "row": (1, 63), "offset": (0, 15)}
LIMITS: dict[str, Bounds] = {name: (0, UNLIMITED) for name in ("pilots", "messages", "frames", "raw")}
COMMANDS: dict[str, dict[str, Bounds]] = {
    "find": SEARCH,
    "follow": PATHS | CHANNEL | ASSIGNED | LIMITS,
    "rate2": PATHS | ASSIGNED,
    "list": PATHS | ASSIGNED | {"k": (1, 16)},
    "idle": PATHS | CHANNEL | {"key": HEX, "cycle": (0, 7)},
    "survey": SEARCH | {"base": (0, 32_767), "width": (0, 31), "top": (1, 512)},
    "make": {"bits": (8, 16)},
    "trial": {"number": (0, (1 << 64) - 1), "workers": (1, 64)},
}
NEEDED = {"rate2": ("esn", "row"), "list": ("esn", "row", "k"), "idle": ("key",), "trial": ("number",)}
SYNC_ROW = 32
FIRST_PAGING = 1
MOST_DIGITS = 20
HELP = ("--help", "-h", "help")  # words by which other programs show their arguments


def faults(words: list[str]) -> list[str]:
    """Returns all faults of arguments in words; none if the program accepts them."""
    if not words:
        return [f"a command is missing: {', '.join(COMMANDS)}"]
    if words[0] in HELP:
        page = "man cdma_replay has its arguments, in a checkout man docs/cdma_replay.1"
        return [f"cdma_replay has no {words[0]}: {page}"]
    if words[0] not in COMMANDS:
        return [f"{quoted(words[0])} is not a command{meant(words[0], COMMANDS)} ({', '.join(COMMANDS)})"]
    found, given = option_faults(words[1:], words[0])
    return found + group_faults(words[0], given)


def meant(word: str, names: object) -> str:
    """Asks whether a similar name is meant."""
    near = difflib.get_close_matches(word.lower()[:32], list(names), 1)  # type: ignore[call-overload]
    return f"; did you mean {near[0]}?" if near else ""


def option_faults(words: list[str], command: str) -> tuple[list[str], dict[str, int | None]]:
    """Returns the faults of options one by one, and the value of each option, None if it is refused."""
    found: list[str] = []
    given: dict[str, int | None] = {}
    options, rest = COMMANDS[command], list(words)
    while rest:
        word = rest.pop(0)
        name, equals, value = word.partition("=")
        if not name.startswith("--") or name[2:] not in options:
            found.append(why_no_option(word, name, command))
            if name.startswith("--") and not equals and rest and not rest[0].startswith("--"):
                rest.pop(0)
            continue
        if not equals and not rest:
            found.append(f"{name} needs a value ({bounds_text(name[2:], options[name[2:]])})")
            given.setdefault(name[2:], None)
            continue
        value = value if equals else rest.pop(0)
        if name[2:] in given:
            found.append(f"{name} is given twice")
            continue
        try:
            given[name[2:]] = number_of(name[2:], value, options[name[2:]])
        except Wrong as why:
            given[name[2:]] = None
            found.append(f"{name}: {why}")
    return found, given


def why_no_option(word: str, name: str, command: str) -> str:
    """Returns why a word is not an option of a command."""
    options = [f"--{one}" for one in COMMANDS[command]]
    if name in ("-h", "--help", "--version"):
        return f"the program has no {name}; man cdma_replay describes it"
    if not name.startswith("--") or name == "--":
        return f"{quoted(word)} is not an option: options are --name N or --name=N"
    others = [one for one, table in COMMANDS.items() if name[2:] in table]
    if others:
        return f"{command} has no {name}, which is an option of {', '.join(others)}"
    return f"{command} has no {quoted(name)}{meant(name, options)} ({', '.join(options)})"


def bounds_text(name: str, bounds: Bounds) -> str:
    """Describes the values of an option."""
    if isinstance(bounds, str):
        return bounds
    return "8 or 16" if name == "bits" else f"{bounds[0]:,} to {bounds[1]:,}"


def number_of(name: str, text: str, bounds: Bounds) -> int:
    """Returns the number of an option's value; raises Wrong if it has none."""
    wanted = bounds_text(name, bounds)
    if isinstance(bounds, str):
        if not re.fullmatch("[0-9a-fA-F]{8}", text):
            raise Wrong(f"{wanted} are needed, not {quoted(text)}")
        return int(text, 16)
    if not re.fullmatch("[0-9]+", text):
        raise Wrong(f"a decimal number is needed ({wanted}), not {quoted(text)}")
    if len(text) > MOST_DIGITS:
        raise Wrong(f"a number has at most {MOST_DIGITS} digits, not {len(text)}")
    if not bounds[0] <= int(text) <= bounds[1] or name == "bits" and int(text) not in bounds:
        raise Wrong(f"{text} is out of range ({wanted})")
    return int(text)


def group_faults(command: str, given: dict[str, int | None]) -> list[str]:
    """Returns what is wrong with options together."""
    needed = [f"--{name}" for name in NEEDED.get(command, ()) if name not in given]
    found = [f"{command} needs {' and '.join(needed)}"] if needed else []
    if command == "follow":
        for name, other in (("esn", "row"), ("row", "esn"), ("offset", "esn")):
            if name in given and other not in given:
                found.append(f"--{name} needs --{other}: a traffic channel has both an ESN and a row")
    row = given.get("row")
    if row == SYNC_ROW:
        found.append(f"--row {SYNC_ROW} is the sync channel's")
    if command == "follow" and row is not None and row == given.get("paging", FIRST_PAGING):
        found.append(f"--row {row} is the paging channel's: choose another --paging or --row")
    return found
