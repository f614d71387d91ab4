"""The rules of the air interface, the source of each, and the rules that a case rests on."""

from __future__ import annotations

import enum
from collections.abc import Iterable
from typing import NamedTuple

from cdma_tools.conformance.cases import Case


class Source(enum.Enum):
    """Where a rule comes from."""

    STANDARD = "standard"
    OWN = "project"


class Rule(NamedTuple):
    """A rule: its name in cases, its heading and mark in docs/LINK.md, its source, and the part that is this project's own."""

    name: str
    heading: str
    mark: str
    source: Source
    own: str = ""


STANDARD, OWN = Source.STANDARD, Source.OWN
CODES = "7.1.3.1.9"
RULES = (
    Rule("samples", "Time and samples", "own", OWN, "one sample of whole numbers per chip"),
    Rule("pilot_codes", "The pilot's codes", CODES, STANDARD, "which chip has number 0"),
    Rule("search", "The search", "own", OWN, "energy, ties, phases near the best one"),
    Rule("long_code", "The long code", "7.1.3.1.10", STANDARD),
    Rule("walsh", "Walsh rows", "7.1.3.1.8", STANDARD),
    Rule("convolution", "The convolutional code", "7.1.3.1.3.1", STANDARD),
    Rule("frames", "Channels and their frames", "7.1.3.1.1 to 7.1.3.1.5", STANDARD),
    Rule("rate_set_2", "Rate set 2", "own", OWN, "tables, dropped symbols, choice of a rate"),
    Rule("scrambling", "Scrambling and power control bits", "7.1.3.1.6, 7.1.3.1.7", STANDARD),
    Rule(
        "checks",
        "Frame quality and message checks",
        "7.1.3.5, 7.7.1, 7.7.2, 7.7.3",
        STANDARD,
        "how generators are written down; flags for complemented checks",
    ),
    Rule("fingers", "Fingers and soft values", "own", OWN, "windows, sums, soft values"),
    Rule("strength", "The strength of a pilot", "own", OWN, "windows of samples and of chips, ties"),
    Rule("capsules", "Capsules", "7.7.1, 7.7.2, 7.7.3", STANDARD, "bounds of a length"),
    Rule("sync_message", "The Sync Channel Message", "7.7.1.3", STANDARD, "which values are checked"),
    Rule("half_frames", "Paging half-frames", "7.7.2.1", STANDARD, "how bits after a capsule are read"),
    Rule("paging_messages", "Paging messages", "7.7.2.3", STANDARD, "number of bits left after the last record"),
    Rule("traffic_parts", "The parts of a traffic frame", "7.1.3.5.11", STANDARD),
    Rule("traffic_messages", "Traffic messages", "own, after 7.7.3", OWN, "the layouts"),
    Rule("best_codeword", "The best codeword", "own", OWN, "scores, ties, spans of frames"),
    Rule("cell", "What a cell sends", "7.1.3.1, 7.7.1", STANDARD, "cycles of messages, pages and frames; gains"),
    Rule("handset", "What a handset receives", "own", OWN, "places, order of events, choice of a rate"),
    Rule("slots", "Slots", "6.6.2.1.1.3, 6.6.7.1; the hash own", OWN, "hash from a key to a slot"),
    Rule("pilot_sets", "Pilot sets and soft handoff", "6.6.6.2; own as a whole, after the standard", OWN, "all of it"),
    Rule("workers", "The search by workers", "own", OWN, "all of it"),
    Rule("survey", "The survey of pilots", "own", OWN, "all of it"),
    Rule("clean_link", "A clean link", "own", OWN, "what is received of what was sent"),
    Rule("noise", "A link with noise", "own", OWN, "noise that a channel bears in the worst case"),
)
# docs/FORMATS.md specifies files, arguments, lines and statuses, which are not rules of the air interface.
FORMATS = "formats"

CELL = {"samples", "pilot_codes", "walsh", "cell"}
HEARING = {"samples", "pilot_codes", "search", "walsh", "convolution", "frames", "fingers", "best_codeword", "handset"}
MESSAGES = {"checks", "capsules"}
SCRAMBLED = {"long_code", "scrambling"}
# The rules for each line of a receiver, and for each line of a script that a cell sends.
LINES = {
    "sync": MESSAGES | {"sync_message"},
    "paging": MESSAGES | SCRAMBLED | {"sync_message", "half_frames", "paging_messages"},
    "traffic": MESSAGES | SCRAMBLED | {"sync_message", "traffic_parts", "traffic_messages"},
    "frame": SCRAMBLED | {"checks", "sync_message"},
    "frame2": SCRAMBLED | {"checks", "sync_message", "rate_set_2"},
    "raw": MESSAGES,
    "slot": {"slots"},
    "sets": {"pilot_sets", "strength"},
    "page": MESSAGES | SCRAMBLED | {"half_frames", "paging_messages"},
}
COMMANDS = {
    "find": {"samples", "pilot_codes", "search"},
    "survey": {"samples", "pilot_codes", "search", "strength", "survey"},
    "follow": HEARING,
    "list": HEARING,
    "rate2": HEARING | {"rate_set_2"},
    "idle": HEARING | {"slots"},
    "make": CELL,
    "trial": {"cell", "clean_link"},
}


def first_words(lines: Iterable[str]) -> set[str]:
    """Returns the first words of lines."""
    return {line.split(" ", 1)[0] for line in lines}


def rules_of(case: Case, status: int, lines: Iterable[str]) -> list[str]:
    """Returns the rules that a case rests on, in order, by its arguments, its expected lines and what its cell sends."""
    commands = {words[0] for words in case.runs if words}
    if status > 1 or not commands <= set(COMMANDS):
        return [FORMATS]
    found: set[str] = set().union(*(COMMANDS[command] for command in commands))
    words = first_words(lines)
    if "make" in commands:
        words |= first_words(line for script in case.scripts for line in script)
        found |= {"convolution", "frames"} if words & {"sync", "page", "frame", "frame2"} else set()
    found = found.union(*(LINES[word] for word in words & set(LINES)))
    found |= {"noise"} if case.near is not None else set()
    return [rule.name for rule in RULES if rule.name in found] + [FORMATS]


def table_rows() -> Iterable[str]:
    """Yields the rows of the table of all rules in docs/LINK.md."""
    yield "| Name in cases | Rule | Source | Own part |"
    yield "|---|---|---|---|"
    for rule in RULES:
        yield f"| `{rule.name}` | {rule.heading} | {rule.source.value} | {rule.own} |"
