"""The built program as an archive, for users without the kit: the program, its manual page and its completions.

Next to the archive is its SHA-256 checksum, in the form that `sha256sum --check` reads. If there is a log of the gate
that proved the program, it is there too, with its checksum.
"""

import gzip
import hashlib
import io
import os
import tarfile
from collections.abc import Iterable

from cdma_tools import __version__
from cdma_tools.packaging.debian import ARCHITECTURE, SECONDS
from cdma_tools.packaging.tree import NAME, PLAIN, Entry, put

TITLE = f"{NAME}_{__version__}_{ARCHITECTURE}"
FILE = f"{TITLE}.tar.gz"
CHECKSUM = f"{FILE}.sha256"
LOG = f"{TITLE}.gate.log"


def archived(files: Iterable[Entry]) -> bytes:
    """Returns the archive of files; the same files give the same bytes."""
    packed = io.BytesIO()
    with tarfile.open(fileobj=packed, mode="w", format=tarfile.USTAR_FORMAT) as archive:
        for entry in files:
            member = tarfile.TarInfo(f"{TITLE}/{entry.place}")
            member.size, member.mode, member.mtime = len(entry.data), entry.mode, SECONDS
            archive.addfile(member, io.BytesIO(entry.data))
    return gzip.compress(packed.getvalue(), 9, mtime=0)


def build(files: Iterable[Entry], folder: str, log: bytes | None = None) -> list[str]:
    """Writes the archive, the gate's log if there is one, and their checksums into a folder; returns the paths.

    Each file is written completely or not at all.
    """
    made = [Entry(FILE, archived(files), PLAIN)]
    if log is not None:
        made.append(Entry(LOG, log, PLAIN))
    checksums = "".join(f"{hashlib.sha256(entry.data).hexdigest()}  {entry.place}\n" for entry in made)
    made.append(Entry(CHECKSUM, checksums.encode(), PLAIN))
    for entry in made:
        put(folder, entry)
    return [os.path.join(folder, entry.place) for entry in made]
