"""Parts of the command line that all commands which ask a receiver share."""

import argparse
import fnmatch
import itertools
import os

from cdma_tools.arguments import Parser, add_minutes_option
from cdma_tools.overwriting import InputFile, OutputFolder
from cdma_tools.program import add_program_option, find_program
from cdma_tools.workers import add_jobs_option

SUFFIX = ".case"


def names_in(folder: str) -> list[str]:
    """The names of the cases in a folder, in order."""
    return sorted(name[: -len(SUFFIX)] for name in os.listdir(folder) if name.endswith(SUFFIX))


def add_options(parser: Parser, made: str, kept: str) -> None:
    """Adds what names the receiver, the program that makes something, the cases, and a folder that keeps something."""
    receiver = "receiver to ask (default that of --program)"
    parser.add_argument("receiver", nargs="?", type=InputFile, metavar="PROGRAM", help=receiver)
    add_program_option(parser)
    maker = f"program that makes the {made} (default PROGRAM)"
    parser.add_argument("--maker", type=InputFile, metavar="MAKER", help=maker)
    only = "only cases of this name or pattern, as 'follow_*'; may be repeated"
    parser.add_argument("--only", metavar="NAME", action="append", help=only)
    parser.add_argument("--exitfirst", action="store_true", help="stop after the first case that differs")
    parser.add_argument("--keep", type=OutputFolder, metavar="FOLDER", help=f"keep {kept} in this folder")
    add_minutes_option(parser)
    add_jobs_option(parser, "cases that are asked", 1)
    parser.add_argument("--list", action="store_true", help="print the purpose of each case, and run none")


def checked(parser: Parser, arguments: list[str] | None, names: list[str]) -> tuple[argparse.Namespace, list[str]]:
    """Returns the options and the names of the requested cases; ends the program if an argument is wrong."""
    options = parser.parse_args(arguments)
    chosen = [fnmatch.filter(names, pattern) for pattern in options.only or []]
    if [] in chosen:
        parser.error(f"no case {options.only[chosen.index([])]}: --list prints them all")
    if options.keep and not os.path.isdir(options.keep):
        parser.error(f"no folder {options.keep}")
    if not options.list and not getattr(options, "rules", False):
        options.program = options.receiver or find_program(options.program)
    return options, list(dict.fromkeys(itertools.chain(*chosen))) or names
