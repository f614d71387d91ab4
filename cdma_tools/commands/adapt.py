"""Runs a receiver that doesn't read standard input as if it did.

conformance/run, tools/curve and the other tools run a receiver with the arguments of docs/FORMATS.md, and with a sample
file on its standard input. This command takes both, and passes them on to a receiver with another interface. The
program that these tools are given is then a script of two lines:

    #!/bin/sh
    exec tools/adapt --command "my_receiver --in {input} --out {output} --walsh {row=1}" -- "$@"

--command LINE runs a command line, which is split as a shell splits it, but run without a shell. These places in it are
filled:

    {input}        name of a file with the content of standard input; without it the receiver reads standard input
    {output}       name of a file to which the receiver writes its lines; without it they are its standard output
    {arguments}    all arguments of the case, each by itself
    {command}      the first of them: follow, find and so on
    {row}          value of the argument --row, and so for any other name; {row=1} gives 1 if the case has none

--connect HOST:PORT asks a receiver at a TCP port. Each connection is one run. The receiver gets a line with the case's
arguments, quoted as for a shell, and then the input to its end. It writes lines, and closes. A last line `status 1 no
sync message` has its exit status (default 0) and its line for standard error.

With --json the lines are JSON, one object per line, in the form of tools/lines, and the last line at a port is
{"status": 1, "error": "no sync message"}.

Exit status: the receiver's own, 128 and the signal's number if a signal ended it; 2 wrong arguments, 4 reading the
input failed (line `read fault`), 5 the output wasn't taken (line `write fault`), 9 the receiver can't be run or
reached, or one of its lines isn't JSON of this form.
"""

import argparse
import sys

from cdma_tools.adapting.asking import ReadFault, WriteFault, ask_command, ask_port
from cdma_tools.adapting.places import pieces_of
from cdma_tools.arguments import Parser, wrong
from cdma_tools.commands import close_quietly

READ_FAULT, WRITE_FAULT = 4, 5
MOST_PORT = 65_535


def place_of(text: str) -> tuple[str, int]:
    """A host and a port, as localhost:5000 or [::1]:5000."""
    host, _, port = text.rpartition(":")
    if not host or not port.isdecimal() or not 0 < int(port[:6]) <= MOST_PORT:
        raise wrong(f"not HOST:PORT with a port from 1 to {MOST_PORT:,}", text)
    return host.removeprefix("[").removesuffix("]"), int(port)


def parser() -> Parser:
    """The command line."""
    words = Parser("adapt", __doc__)
    ways = words.add_mutually_exclusive_group(required=True)
    ways.add_argument("--command", metavar="LINE", help="command line to run, with its places filled")
    ways.add_argument("--connect", metavar="HOST:PORT", type=place_of, help="TCP port at which to ask the receiver")
    words.add_argument("--json", action="store_true", help="the receiver's lines are JSON")
    words.add_argument("arguments", nargs="*", metavar="ARGUMENT", help="arguments of the case, after --")
    return words


def asked(options: argparse.Namespace) -> int:
    """Asks the receiver, and returns its status."""
    if options.connect:
        return ask_port(options.connect, options.arguments, sys.stdin.buffer, options.json)
    return ask_command(pieces_of(options.command), options.arguments, sys.stdin.buffer, options.json)


def main(arguments: list[str] | None = None) -> int:
    """Runs the tool, and returns its exit status."""
    options = parser().parse_args(arguments)
    try:
        return asked(options)
    except ReadFault:
        print("read fault", file=sys.stderr)
        return READ_FAULT
    except WriteFault:
        print("write fault", file=sys.stderr)
        close_quietly()
        return WRITE_FAULT
