"""The model's command line: `python3 -m cdma_model COMMAND ..`, with the arguments, texts and statuses of
`cdma_replay`.

    python3 -m cdma_model make < SCRIPT > FILE
    python3 -m cdma_model follow --esn 0000abcd --row 10 < FILE

At the top of a checkout, `python3 -m model` does the same. Ctrl-C ends it with one line and status 130, also while
numpy is imported.
"""

import os
import sys

INTERRUPTED = 130


def main(words: list[str]) -> int:
    """Runs a command on standard input, and returns its exit status."""
    from cdma_model.run import WRITE_FAULT, run

    outcome = run(words, sys.stdin.buffer.read)
    try:
        for piece in outcome.written:
            sys.stdout.buffer.write(piece)
        sys.stdout.buffer.flush()
    except OSError:
        os.dup2(os.open(os.devnull, os.O_WRONLY), sys.stdout.fileno())  # what is left in the buffer goes there
        outcome = WRITE_FAULT
    if outcome.said:
        print(outcome.said, file=sys.stderr)
    return outcome.status


def start() -> int:
    """Runs the arguments of this process, and returns the exit status; an interrupt ends the process with one line."""
    try:
        return main(sys.argv[1:])
    except KeyboardInterrupt:
        os.write(2, b"model: broken off\n")
        os._exit(INTERRUPTED)  # what was written stays as it is


if __name__ == "__main__":
    sys.exit(start())
