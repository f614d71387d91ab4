"""Turns the program's lines into JSON, one object per line, and back into the same lines; or into a table or packets.

LINES is a file of lines that the program wrote, or - for standard input (default). The names of an object are those of
the line's fields, in its order; docs/FORMATS.md lists them. "line" is the line's first word, "message" the kind of a
paging or traffic message, and "channel" the channel of a raw one. Numbers are numbers, including LC_STATE. Bits are
text as in the line, N:HEX. Lists are lists, and the power control bits of a frame a list of sixteen numbers.

    cdma_replay follow < second.is95 | tools/lines | jq -c 'select(.line == "paging") | [.at, .message]'
    cdma_replay follow < second.is95 | tools/lines > heard.json
    tools/lines --back heard.json > heard.txt

In Python, pandas.read_json("heard.json", lines=True) makes a table of it, and the output of to_json(orient="records",
lines=True) goes back too.

--csv KIND writes only the lines of one kind, as a table of RFC 4180: a row with the names of the fields, then a row for
each line. Lists are written as JSON and all other values as in the line, so LC_STATE and bits stay text. An absent
field is an empty cell. docs/FORMATS.md says how pandas and a spreadsheet read such a table.

    cdma_replay follow < second.is95 | tools/lines --csv paging-system > system.csv

--pcapng writes messages and frames as packets that Wireshark reads with the dissector share/cdma-replay/is95.lua. Their
times are in UTC from the first sync message on; before it they count from 1970.

    cdma_replay follow < second.is95 | tools/lines --pcapng | wireshark -k -i -

Each line is read and written by itself, as it comes. A text that the program can't have written is an error: its line
number is reported, and what was written before it remains.

Exit status: 0 all lines were converted, 1 a line is wrong or can't be read or written, 2 wrong arguments.
"""

import argparse
import io
import sys
from functools import partial
from typing import Callable, Iterable

from cdma_tools.arguments import Parser
from cdma_tools.csv_lines import KINDS, csv_row, header_row
from cdma_tools.errors import Refused
from cdma_tools.json_lines import as_json, as_line, lines_of, turned_lines
from cdma_tools.lines import NoLine, table_rows
from cdma_tools.overwriting import InputFile


def turn(source: Iterable[bytes], turned: Callable[[str], str]) -> None:
    """Writes what each line becomes."""
    for text in turned_lines(source, turned):
        sys.stdout.write(text)


def turning(options: argparse.Namespace) -> Callable[[str], str]:
    """Returns the function that makes the output of a line, with its end."""
    if options.csv:
        return partial(csv_row, options.csv)
    turned = as_line if options.back else as_json
    return lambda text: turned(text) + "\n"


def write_packets(source: Iterable[bytes]) -> None:
    """Writes the packets of lines, each as soon as its line is there."""
    from cdma_tools.wireshark.stream import LinePackets  # it loads numpy

    packets = LinePackets(sys.stdout.buffer.write)
    for _ in turned_lines(source, packets.take):
        sys.stdout.buffer.flush()
    sys.stdout.buffer.flush()


def write_output(options: argparse.Namespace, source: Iterable[bytes]) -> None:
    """Writes what the options ask for."""
    if options.pcapng:
        write_packets(source)
        return
    if isinstance(sys.stdout, io.TextIOWrapper):
        sys.stdout.reconfigure(line_buffering=True)
    if options.csv:
        sys.stdout.write(header_row(options.csv))
    turn(source, turning(options))


def parser() -> argparse.ArgumentParser:
    """The command line."""
    words = Parser("lines", __doc__)
    words.add_argument(
        "lines",
        type=InputFile,
        nargs="?",
        default="-",
        metavar="LINES",
        help="lines to convert, - for standard input (default)",
    )
    form = words.add_mutually_exclusive_group()
    form.add_argument("--back", action="store_true", help="turn JSON into lines")
    form.add_argument(
        "--csv", choices=KINDS, metavar="KIND", help=f"write a table of the lines of one kind: {', '.join(KINDS)}"
    )
    form.add_argument("--pcapng", action="store_true", help="write packets of messages and frames")
    words.add_argument("--table", action="store_true", help="write the list of all fields in docs/FORMATS.md, and end")
    return words


def main(arguments: list[str] | None = None) -> int:
    """Runs the tool, and returns its exit status."""
    options = parser().parse_args(arguments)
    if options.table:
        print("\n".join(table_rows()))
        return 0
    try:
        if options.lines == "-":
            write_output(options, lines_of(sys.stdin.buffer))
        else:
            with open(options.lines, "rb") as file:
                write_output(options, lines_of(file))
    except NoLine as why:
        raise Refused(f"{'standard input' if options.lines == '-' else options.lines}: {why}") from None
    return 0
