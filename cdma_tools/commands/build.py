"""Proves and builds the program, or another crate, and all crates below it, several at once.

`rt run` and `rt lib` build the crates below one after the other, and keep each part of each proof. This tool checks a
crate by `rattle build`, from nothing, as soon as those below it are built, the longest chain of work first, as many at
once as processors and memory allow. A crate gets several jobs if processors are left over. A library holds statements
and no proofs, since the crates above it read nothing else. A crate is checked again only if its files, the kit or a
crate below it changed.

    tools/build
    tools/build mobile_core --jobs 2 --memory 8

The program is crates/NAME/out/NAME, a library crates/NAME/out/statements/NAME.rlib. `rt` doesn't use these libraries,
nor this tool those of `rt`. A line says when a crate begins and when it is built, with the time since the start. The
output of `rattle` for a crate is in crates/NAME/out/build.log.

A crate is planned with 1 GB, 1 MB for each line of its .rt files, 0.2 MB for each line of .antt, and 0.08 MB for each
line of .rt of the crates below it. Each job but the first takes 0.6 of that more. A crate whose plan exceeds the
memory is built by itself.

Exit status: 0 all is built, 1 a crate isn't, and those under way are ended, or another build works in this checkout, 2
if the arguments are wrong, rt is not on the path, or the folder is not a checkout.
"""

from __future__ import annotations

import os
import time

from cdma_tools.arguments import Parser, number_above
from cdma_tools.errors import Refused, WrongArguments
from cdma_tools.places import TOP
from cdma_tools.repository.building import OF_FREE, Builder, Failed, Room, alone_in, free_memory, kit_folder, made_by
from cdma_tools.repository.crate_list import NoList, longest_chain
from cdma_tools.repository.plan import Crate, clock_text, crates_of, stands_on
from cdma_tools.workers import add_jobs_option

PROGRAM = "cdma_replay"
MOST_MEMORY = 100_000  # GB


def parser() -> Parser:
    """The command line."""
    words = Parser("build", __doc__)
    words.add_argument("name", metavar="NAME", nargs="?", default=PROGRAM, help=f"crate to build (default {PROGRAM})")
    add_jobs_option(words, "jobs of all crates")
    words.add_argument(
        "--memory",
        type=number_above(0, MOST_MEMORY),
        metavar="GB",
        help=f"memory to plan with, in GB (default {100 * OF_FREE:g} %% of what is free)",
    )
    words.add_argument("--root", metavar="FOLDER", default=TOP, help="checkout to build in (default this one)")
    return words


def crates_in(root: str, name: str) -> dict[str, Crate]:
    """The crates of a checkout, of which one has this name."""
    try:
        crates = crates_of(root)
        longest_chain(stands_on(crates))  # which refuses a cycle
    except (NoList, Refused) as why:
        raise WrongArguments(f"{root} is not a checkout with crates: {why}") from None
    if name not in crates:
        raise WrongArguments(f"crates.txt has no crate {name}")
    try:
        kit_folder()
    except Refused as why:
        raise WrongArguments(str(why)) from None
    return crates


def tell(line: str) -> None:
    """Writes a line at once."""
    print(line, flush=True)


def main(arguments: list[str] | None = None) -> int:
    """Builds, and returns the exit status."""
    options = parser().parse_args(arguments)
    root, name, begun = os.path.abspath(options.root), options.name, time.monotonic()
    crates = crates_in(root, name)
    memory = OF_FREE * free_memory() if options.memory is None else 1_000 * options.memory
    try:
        with alone_in(root):
            builder = Builder(root, crates, name, Room(options.jobs, memory), tell)
            builder.build()
    except Failed as why:
        raise Refused(str(why)) from None
    took, count = clock_text(time.monotonic() - begun), len(builder.built)
    kept = f", {builder.kept} of them before" if builder.kept else ""
    tell(f"{count} crates are built{kept}, in {took}: {os.path.relpath(made_by(root, name), root)}")
    return 0
