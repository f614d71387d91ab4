"""`python3 -m cdma_tools NAME ARGUMENT ..` runs a command of the package."""

import os
import pkgutil
import sys

from cdma_tools.starting import start


def main() -> int:
    """Runs the command that the first argument names, and returns its exit status."""
    folder = os.path.join(os.path.dirname(os.path.abspath(__file__)), "commands")
    names = [module.name for module in pkgutil.iter_modules([folder])]
    if len(sys.argv) < 2 or sys.argv[1] not in names:
        print(f"usage: python3 -m cdma_tools NAME ARGUMENT ..\nNAME is one of {', '.join(names)}", file=sys.stderr)
        return 2
    return start(sys.argv.pop(1))


if __name__ == "__main__":
    sys.exit(main())
