"""Places of data that the tools use besides the package.

They are at the top of a checkout, next to an installed package, or in the folder `share/cdma-replay` of the prefix
below which the package is installed.
"""

import os
from collections.abc import Iterator

PACKAGE = os.path.dirname(os.path.abspath(__file__))
TOP = os.path.dirname(PACKAGE)
BUILT = os.path.join(TOP, "crates", "cdma_replay", "out", "cdma_replay")
SHARED = os.path.join("share", "cdma-replay")


def tops(package: str) -> Iterator[str]:
    """Yields the folders in which data may be, the nearest first: the package's, and the shared one of each prefix."""
    top = os.path.dirname(package)
    yield top
    while (above := os.path.dirname(top)) != top:
        yield os.path.join(top, SHARED)
        top = above


def data_folder(name: str, package: str = PACKAGE) -> str:
    """Returns a folder of data, next to the package or below its prefix; if it is missing, the place where it should
    be."""
    found = (os.path.join(top, name) for top in tops(package))
    return next((path for path in found if os.path.isdir(path)), os.path.join(os.path.dirname(package), name))


EXAMPLES = data_folder("examples")
CONFORMANCE = data_folder("conformance")
