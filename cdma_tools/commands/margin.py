"""Reports how much noise the channels of a script's cell and the search for it can take, whatever the noise is.

SCRIPT is the script of a cell, as `make` takes it (docs/FORMATS.md), or - for standard input. If each part, I and Q,
of each sample differs by at most a channel's margin from what the cell sends, no symbol of the channel is turned,
whatever the noise is. If the search and the sync channel bear that noise too, and no handoff is directed, everything
that the channel sends comes back over one finger: that is proved (docs/PROOFS.md). Another cell, another path of the
same cell and rounding are such noise too (docs/LINK.md, "A link with noise").

    channel      search, sync, or the kind of the channel and its Walsh row; the search depends on the pilot
    gain         as in the script
    amplitude    the root mean square of what it adds to a sample's I or Q: the gain times the size of the link's factor
    margin       the greatest noise that is borne, in the same units
    of channel   the margin's share of that amplitude
    of signal    the margin's share of the root mean square of all that the cell sends

The search's margin follows from the energies of the cell's clean samples at all phases, over the first --span samples.

COMMAND and its arguments, as those of `cdma_replay`, name the channels that are meant: the sync channel, which each of
follow, rate2, list and idle needs, the paging channel of --paging, and the traffic channel of --row. Its --span is
taken too. Without a command, all channels of the script are meant. The last line has the least margin of all rows.

With --file FILE, the tool reports which frames of a sample file come back in any case. FILE may have any origin: noise
of any size, other cells, other paths, a radio. It must have as many samples as the script's cell sends, the script's
flags, and the cell's phase as the best one of the search. A frame is covered if each of its soft values, as one finger
reads it, has the sign that was sent. Whatever the other channels do, a channel is received as it was sent if all of its
frames are covered. A covered frame of a traffic channel is received as it was sent if no other codeword has the same
symbols, and as long as no handoff is directed. That is proved too.

    channel      sync, or the kind of the channel and its Walsh row
    first        the sample at which the first of the frames begins
    frames       those of sync that lie in the file, and those of other channels that do from the mark on
    covered      how many of them are covered
    least        the least soft value of all of them, times the sign that was sent: above 0 if all are covered

    tools/margin examples/second_of_paging.script
    tools/margin --span 4096 examples/lesson.script
    tools/margin examples/call.script follow --paging 1 --esn 00c0ffee --row 12
    tools/margin --json - < examples/call.script
    tools/margin --file noisy.is95 examples/second_of_paging.script follow

Exit status: 0 reported, 1 the script or the file can't be read, 2 wrong arguments, no script, no sample file, a channel
that the script doesn't send, a margin of 0, the search's or a channel's, or a file and a script that don't belong
together.
"""

import argparse
import dataclasses
import json
import sys
from collections.abc import Sequence

from cdma_model.handset import Mark
from cdma_model.script import BadScript, Cell
from cdma_model.script import read_script as read_cell
from cdma_tools.arguments import Parser, Within, whole_within
from cdma_tools.captures import read_whole
from cdma_tools.errors import Refused, WrongArguments
from cdma_tools.margins import Margin, all_margins, name_of, rows_sent
from cdma_tools.overwriting import InputFile
from cdma_tools.scripts import SYNC_ROW, Script, read_script
from cdma_tools.signs import Signs, signs

MOST_BYTES = 1_048_576
FIRST_PAGING = 1
HEARING = {"follow": ("paging", "row"), "rate2": ("row",), "list": ("row",), "idle": ("paging",)}
NEEDS_ROW = ("rate2", "list")
ROWS = {"paging": whole_within(1, 7), "row": whole_within(1, 63)}
SPAN, DEFAULT_SPAN = whole_within(64, 32_768), 2_048
FINGERS = whole_within(1, 3)
UNMARKED = "no message sets the cell's mark, so no frame of a paging or traffic channel is covered\n"


def parser() -> argparse.ArgumentParser:
    """Returns the parser of the command line."""
    arguments = Parser("margin", __doc__)
    arguments.add_argument(
        "script", type=InputFile, metavar="SCRIPT", help="the script of a cell, - for standard input"
    )
    arguments.add_argument(
        "command", nargs=argparse.REMAINDER, metavar="COMMAND ..", help="what receives the cell: a command of cdma_replay with its options"
    )
    file = "report which frames of this sample file are covered instead"
    arguments.add_argument("--file", type=InputFile, metavar="FILE", help=file)
    arguments.add_argument("--json", action="store_true", help="an object for each row, a line each, not the table")
    span = f"first samples, which the search takes, default {DEFAULT_SPAN:,}"
    arguments.add_argument("--span", type=SPAN, default=DEFAULT_SPAN, metavar="N", help=span)
    return arguments


@dataclasses.dataclass(frozen=True)
class Heard:
    """Reception of a command of the program: the span of its search, the Walsh rows of its channels but the pilot's,
    and the number of its fingers.

    `rows` is None if no command is given: all channels are meant.
    """

    span: int
    rows: list[int] | None = None
    fingers: int = 1


def options_of(command: list[str]) -> dict[str, str]:
    """Returns the values of a command's options by their names; Refused if one has no value."""
    found: dict[str, str] = {}
    words = command[1:]
    while words:
        option, sign, value = words.pop(0).partition("=")
        if not option.startswith("--") or not (sign or words):
            raise Refused(f"{option!r} is not an option with a value")
        found[option[2:]] = value if sign else words.pop(0)
    return found


def read_option(name: str, kind: Within, value: str) -> int:
    """Returns the number of an option; Refused if its value isn't one within its bounds."""
    try:
        return int(kind(value))
    except argparse.ArgumentTypeError:
        raise Refused(f"--{name} is {kind.told()}, not {value!r}") from None


def heard_by(command: list[str], span: int, script: Script) -> Heard:
    """Returns what a command receives from a script's cell.

    Options that name neither a channel nor a span are ignored with their values. Without --paging, the first paging
    channel is meant if it is sent. Raises Refused if the command receives no cell.
    """
    if not command:
        return Heard(span)
    name, options = command[0], options_of(command)
    if name not in HEARING:
        raise Refused(f"{name!r} isn't one of {', '.join(HEARING)}")
    named = {word: read_option(word, ROWS[word], options[word]) for word in HEARING[name] if word in options}
    if name in NEEDS_ROW and "row" not in named:
        raise Refused(f"{name} needs --row")
    if "paging" in HEARING[name] and "paging" not in named and FIRST_PAGING in script.paging:
        named["paging"] = FIRST_PAGING
    if "span" in options:
        span = read_option("span", SPAN, options["span"])
    fingers = read_option("fingers", FINGERS, options.get("fingers", "1"))
    return Heard(span, [SYNC_ROW, *named.values()], fingers)


def table(found: list[Margin]) -> str:
    """Returns the margins as a table, with the least in its last line."""
    head = f"{'channel':<12}{'gain':>7}{'amplitude':>11}{'margin':>8}{'of channel':>12}{'of signal':>11}\n"
    rows = [
        f"{one.name:<12}{one.gain:>7}{one.amplitude:>11.1f}{one.margin:>8}{one.of_channel:>12.3f}{one.of_signal:>11.3f}\n"
        for one in found
    ]
    return head + "".join(rows) + f"{'all of these':<30}{min(one.margin for one in found):>8}\n"


def signs_table(mark: Mark | None, found: list[Signs]) -> str:
    """Returns what is covered of a file as a table, with the mark in its last line."""
    head = f"{'channel':<12}{'first':>10}{'frames':>8}{'covered':>9}{'least':>22}\n"
    rows = [
        f"{one.name:<12}{shown(one.first):>10}{one.frames:>8}{one.covered:>9}{shown(one.least):>22}\n" for one in found
    ]
    return head + "".join(rows) + (f"the mark is at sample {mark.sample}\n" if mark else UNMARKED)


def shown(number: int | None) -> str:
    """Returns a number of the table, or a dash if there is none."""
    return "-" if number is None else str(number)


def objects(found: Sequence[Margin | Signs]) -> str:
    """Returns the rows as JSON, an object a line."""
    return "".join(json.dumps(dataclasses.asdict(one)) + "\n" for one in found)


def script_text(path: str, name: str) -> str:
    """Returns the text of a script's file; Refused if it has more bytes than a script may have, or isn't ASCII."""
    if path == "-":
        data = sys.stdin.buffer.read(MOST_BYTES + 1)
    else:
        with open(path, "rb") as file:
            data = file.read(MOST_BYTES + 1)
    if len(data) > MOST_BYTES:
        raise Refused(f"{name}: not a script: it has more than {MOST_BYTES:,} bytes")
    try:
        return data.decode("ascii")
    except UnicodeDecodeError:
        raise Refused(f"{name}: not a script: it isn't ASCII text") from None


def cell_of(text: str, name: str) -> Cell:
    """Returns the cell that a script names; Refused if it names none."""
    try:
        return read_cell(text.encode("ascii"))
    except BadScript as why:
        raise Refused(f"{name}: bad script: {why}") from None


def report(path: str, command: list[str], options: argparse.Namespace, is_json: bool) -> str:
    """Returns the report on a script and what a command receives from it; raises Refused if there is nothing to report.
    """
    name = "standard input" if path == "-" else path
    text = script_text(path, name)
    script, cell = read_script(text, name), cell_of(text, name)
    heard = heard_by(command, options.span, script)
    try:
        names = {row: name_of(script, row) for row in rows_sent(script, heard.rows)}
        found = [] if options.file else all_margins(script, cell, heard.span, heard.rows)
    except Refused as why:
        raise Refused(f"{name}: {why}") from None
    if not options.file:
        return objects(found) if is_json else table(found)
    mark, covered = signs_in(options.file, cell, name, heard, names)
    return objects(covered) if is_json else signs_table(mark, covered)


def signs_in(path: str, cell: Cell, name: str, heard: Heard, names: dict[int, str]) -> tuple[Mark | None, list[Signs]]:
    """Returns the cell's mark in a file, and what is covered of the named channels; Refused if the file is foreign.

    `name` is that of the cell's script.
    """
    if heard.fingers != 1:
        raise Refused(f"the law is about one finger, but the command has --fingers {heard.fingers}")
    capture = read_whole(path, heard.span)
    try:
        return signs(capture, cell, heard.span, names)
    except Refused as why:
        raise Refused(f"{path} isn't a file of {name}: {why}") from None


def main(arguments: list[str] | None = None) -> int:
    """Runs the tool, and returns the exit status."""
    options = parser().parse_args(arguments)
    # No command of the program has --json, so it is this tool's at any place.
    command = [argument for argument in options.command if argument != "--json"]
    try:
        sys.stdout.write(report(options.script, command, options, options.json or command != options.command))
    except Refused as why:
        raise WrongArguments(str(why)) from None
    return 0
