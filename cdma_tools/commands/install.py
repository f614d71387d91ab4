"""Installs the built program, the tools, manual pages and documents below a prefix, as the package of tools/package has
them.

PREFIX/bin gets cdma_replay and the commands cdma-NAME, PREFIX/share the rest. It builds nothing: build the program
first, with `tools/build` or with `rt ci` at the top of the repository. Manual pages and completions are made by the
packages python3-argparse-manpage and python3-shtab, which the installed tools don't need. Missing folders are made, and
older files of these names are replaced, each at once. --remove removes what was installed, and folders that are then
empty.

    tools/install /usr/local
    tools/install --program ./cdma_replay "$HOME/.local"
    tools/install --remove "$HOME/.local"

Exit status: 0 all is in place, or nothing is left, 1 there is no program that runs here or a file can't be written, 2
wrong arguments.
"""

import os

from cdma_tools.arguments import Parser
from cdma_tools.packaging import tree
from cdma_tools.overwriting import InputFile, OutputFolder
from cdma_tools.places import BUILT
from cdma_tools.program import NAME


class Prefix(OutputFolder):
    """The folder that gets the program."""

    names = (os.path.join("bin", NAME),)


def parser() -> Parser:
    """The command line."""
    arguments = Parser("install", __doc__)
    arguments.add_argument("prefix", type=Prefix, metavar="PREFIX", help="folder for bin/ and share/")
    arguments.add_argument(
        "--program", type=InputFile, metavar="FILE", help="built program (default the one built in this checkout)"
    )
    arguments.add_argument("--remove", action="store_true", help="remove what was installed")
    return arguments


def main(arguments: list[str] | None = None) -> int:
    """Runs the tool, and returns its exit status."""
    words = parser()
    options = words.parse_args(arguments)
    if not options.prefix:
        words.error("PREFIX is empty")
    if options.remove:
        places = tree.take_away(options.prefix)
    else:
        places = tree.put_all(options.prefix, tree.entries(options.program or BUILT))
    for place in places:
        print(os.path.join(options.prefix, place))
    return 0
