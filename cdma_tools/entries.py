"""The commands that are installed: `cdma_NAME` here runs the command `cdma-NAME` of the table in `starting`."""

from collections.abc import Callable
from functools import partial

from cdma_tools.starting import INSTALLED, start


def __getattr__(name: str) -> Callable[[], int]:
    """Returns the function that runs an installed command."""
    for module, command in INSTALLED.items():
        if command.replace("-", "_") == name:
            return partial(start, module)
    raise AttributeError(f"no installed command is named {name!r}")
