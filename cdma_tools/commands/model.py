"""Runs the Python model instead of cdma_replay, with the same arguments and the same output, 10 to 30 times slower.

It needs no built program, only python3-numpy. ARGS and what each exit status means are those of cdma_replay
(docs/FORMATS.md). Every tool that runs the program takes `--program model`, which runs this command instead.

    tools/model find < examples/pilot_in_noise.is95
    tools/model make < examples/call.script > call.is95
    tools/model follow --esn 00c0ffee --row 12 --offset 2 < call.is95
    tools/report --program model call.is95 --out call.html

Exit status: 0 done, 1 no sync message was decoded, 2 wrong arguments, 3 bad sample file, 4 read fault, 5 write fault,
8 bad script.
"""

import argparse
import importlib
import sys

from cdma_model.__main__ import main as run_model
from cdma_tools.arguments import Parser

OURS = ("-h", "--help", "--version")
importlib.import_module("cdma_model.run")  # with numpy, while an interrupt still ends the process at once


def parser() -> Parser:
    """The command line."""
    arguments = Parser("model", __doc__)
    arguments.add_argument("words", nargs=argparse.REMAINDER, metavar="ARGS", help="arguments of cdma_replay")
    return arguments


def main(arguments: list[str] | None = None) -> int:
    """Runs the tool, and returns its exit status."""
    words = sys.argv[1:] if arguments is None else arguments
    parser().parse_args([word for word in words[:1] if word in OURS])
    return run_model(words)
