"""Tests of the tools: `/usr/bin/python3 -B -m tools.tests` at the top of the repository.

None needs a network. Those that need a built program run if CDMA_REPLAY names it, and are skipped otherwise.
"""
