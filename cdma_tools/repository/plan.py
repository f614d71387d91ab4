"""Work of each crate: the lines of its files, the memory planned for a check, and the crates that wait for it."""

from __future__ import annotations

import os
from collections.abc import Collection
from dataclasses import dataclass, field

from cdma_tools.errors import Refused
from cdma_tools.repository.crate_list import all_below, listed_crates

# The folders of a crate that a check reads.
PARTS = ("src", "specs", "proofs")
# Of a check, in MB: the least, and that of a line of .rt, of .antt, and of .rt in the crates below.
LEAST, OF_CODE, OF_PROOF, OF_BELOW = 1_000.0, 1.0, 0.2, 0.08
# Of the time of a check, in that of a line of .rt: what any takes, and a line of .antt. So say the times of 25 crates.
TIME_OF_ANY, TIME_OF_PROOF = 50.0, 0.04


@dataclass
class Crate:
    """A crate: its dependencies, the numbers of lines of its files, whether it has tests and edits, and the libraries
    of the kit that it names."""

    name: str
    below: list[str]
    code: int = 0
    proof: int = 0
    has_tests: bool = False
    edits: int = 0
    of_kit: list[str] = field(default_factory=list)


def crates_of(root: str) -> dict[str, Crate]:
    """The crates of a repository by their names, in the order of crates.txt, with the lines of their files."""
    listed = listed_crates(root)
    found = {name: Crate(name, [it for it in below if it in listed]) for name, below in listed.items()}
    for crate in found.values():
        crate.of_kit = [it for it in listed[crate.name] if it not in listed]
        count_lines(crate, os.path.join(root, "crates", crate.name))
    return found


def count_lines(crate: Crate, folder: str) -> None:
    """Counts the lines of a crate's files."""
    if not os.path.isdir(folder):
        raise Refused(f"no folder {folder}, which crates.txt names")
    for part in PARTS:
        for at, _, names in os.walk(os.path.join(folder, part)):
            for name in names:
                with open(os.path.join(at, name), "rb") as file:
                    text = file.read()
                crate.code += text.count(b"\n") * name.endswith(".rt")
                crate.proof += text.count(b"\n") * name.endswith(".antt")
                crate.has_tests |= name.endswith(".rt") and b"#[test]" in text
    edits = os.path.join(folder, "must-fail")
    if os.path.isdir(edits):
        crate.edits = sum(name.endswith(".edit") for name in os.listdir(edits))


def stands_on(crates: dict[str, Crate]) -> dict[str, list[str]]:
    """The crates right below each."""
    return {name: crate.below for name, crate in crates.items()}


def planned(crates: dict[str, Crate], name: str) -> float:
    """The memory that a check of a crate is planned with, in MB."""
    crate = crates[name]
    below = sum(crates[it].code for it in all_below(stands_on(crates), name))
    return LEAST + OF_CODE * crate.code + OF_PROOF * crate.proof + OF_BELOW * below


def time_of(crate: Crate) -> float:
    """The time that a check of a crate takes, in that of a line of .rt."""
    return TIME_OF_ANY + crate.code + TIME_OF_PROOF * crate.proof


def work_ahead(crates: dict[str, Crate], names: Collection[str]) -> dict[str, float]:
    """Returns for each crate the time of the longest chain that begins with it, in which each depends on the one
    before."""
    found: dict[str, float] = {}
    for name in sorted(names, key=lambda it: len(all_below(stands_on(crates), it)), reverse=True):
        above = [found[it] for it in found if name in crates[it].below]
        found[name] = time_of(crates[name]) + max(above, default=0.0)
    return found


def clock_text(seconds: float) -> str:
    """A time as H:MM:SS."""
    whole = int(seconds)
    return f"{whole // 3600}:{whole // 60 % 60:02}:{whole % 60:02}"
