"""Runs the model in a checkout: `python3 -m model COMMAND ..` is `python3 -m cdma_model COMMAND ..`."""

import sys

from cdma_model.__main__ import start

if __name__ == "__main__":
    sys.exit(start())
