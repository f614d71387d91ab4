#!/usr/bin/python3 -S
"""Starts a command in a checkout: tools/NAME and conformance/NAME are copies of this file, whose paths name it."""
import sys

if __name__ == "__main__":
    # Python may drop an interrupt that comes in an import, so it waits here until `start` takes it.
    signals = sys.modules["_signal"]
    signals.pthread_sigmask(signals.SIG_BLOCK, (signals.SIGINT, signals.SIGTERM))
try:
    import os

    sys.path[0] = os.path.dirname(os.path.dirname(os.path.realpath(__file__)))
    from cdma_tools.starting import named_by, start

    if __name__ == "__main__":
        sys.exit(start(named_by(sys.argv[0])))
except KeyboardInterrupt:
    print("/".join(sys.argv[0].split("/")[-2:]).removeprefix("tools/") + ": broken off", file=sys.stderr)
    raise SystemExit(130) from None
