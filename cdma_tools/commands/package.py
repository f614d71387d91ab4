"""Makes a Debian package of the built program, the tools, the model, the cases and the documents.

It takes only the program that `rt` built in this checkout, which it builds only from proved crates. The package is
cdma-replay_VERSION_amd64.deb in FOLDER. dpkg-buildpackage makes it by the rules in debian/, in a copy of the checkout,
and needs the packages that debian/control names. The same files make the same package. --tarball writes only the
program, its manual page and its completions instead, as cdma-replay_VERSION_amd64.tar.gz, and its checksum for
`sha256sum --check`. With --log the output of `rt ci` is kept next to the archive as
cdma-replay_VERSION_amd64.gate.log. It must end with the line of a gate that passed. If it has a line `commit HEX`, that
must be the commit of this checkout.

    tools/package
    tools/package --tarball /tmp
    (git log -1 --format='commit %H' && rt ci) > gate.log 2>&1 && tools/package --tarball --log gate.log /tmp
    tools/package /tmp && sudo apt install /tmp/cdma-replay_*.deb

Exit status: 0 made, 1 there is no built program that runs here, the log is refused, or the package can't be made, 2
wrong arguments.
"""

import os

from cdma_tools.arguments import Parser
from cdma_tools.overwriting import InputFile, OutputFolder
from cdma_tools.packaging import archive, debian, gate_log, tree
from cdma_tools.places import BUILT


class Packages(OutputFolder):
    """The folder that gets the package, or the archive with its checksum and log."""

    names = (archive.LOG, archive.FILE, archive.CHECKSUM, debian.FILE)


def parser() -> Parser:
    """The command line."""
    arguments = Parser("package", __doc__)
    arguments.add_argument(
        "folder",
        type=Packages,
        nargs="?",
        default=".",
        metavar="FOLDER",
        help="folder for the package (default this one)",
    )
    arguments.add_argument(
        "--tarball", action="store_true", help="write an archive of the program and its checksum instead of a package"
    )
    arguments.add_argument(
        "--log", type=InputFile, metavar="FILE", help="with --tarball: the log of the gate, kept next to the archive"
    )
    return arguments


def main(arguments: list[str] | None = None) -> int:
    """Runs the tool, and returns its exit status."""
    words = parser()
    options = words.parse_args(arguments)
    if not os.path.isdir(options.folder):
        words.error(f"no folder {options.folder}")
    if options.log is not None and not options.tarball:
        words.error("--log goes with --tarball")
    if options.tarball:
        log = None if options.log is None else gate_log.read_log(options.log)
        for path in archive.build(tree.program_files(BUILT), options.folder, log):
            print(path)
        return 0
    path = os.path.join(options.folder, debian.FILE)
    debian.build(BUILT, path)
    print(path)
    return 0
