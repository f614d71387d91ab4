"""Shells as a user has them: what bash and zsh make of a line and the Tab key."""

import os
import pty
import re
import select
import subprocess
import time
import unittest

from tools.tests.helping import temporary_folder


class AtATerminal(unittest.TestCase):
    """What a shell makes of a line and the Tab key."""

    def setUp(self) -> None:
        self.folder = temporary_folder(self.addCleanup)
        for name in ("alpha.is95", "my file"):
            with open(os.path.join(self.folder, name), "wb"):
                pass

    def write(self, name: str, text: str) -> None:
        """Writes a file of completions."""
        with open(os.path.join(self.folder, name), "w", encoding="utf-8") as file:
            file.write(text)

    def read(self, terminal: int, pattern: bytes) -> bytes:
        """Reads what a terminal shows up to a pattern's group, and returns that."""
        shown, until = b"", time.monotonic() + 60
        while time.monotonic() < until:
            if select.select([terminal], [], [], 0.2)[0]:
                shown += os.read(terminal, 4_096)
            if found := re.search(pattern, shown):
                return found[1]
        self.fail(f"the shell shows {shown!r}, and not {pattern!r}")

    def typed(self, shell: list[str], start: str, keys: str) -> str:
        """Returns what a shell prints after TOLD when it has run its start and has got these keys."""
        ours, theirs = pty.openpty()
        environment = {"PATH": "/usr/bin:/bin", "HOME": self.folder, "TERM": "dumb"}
        with subprocess.Popen(
            shell,
            stdin=theirs,
            stdout=theirs,
            stderr=theirs,
            env=environment,
            cwd=self.folder,
            start_new_session=True,
        ) as process:
            os.close(theirs)
            os.write(ours, f"{start}; echo READ''Y\n".encode())
            self.read(ours, rb"(READY)\r\n")
            os.write(ours, keys.encode())
            told = self.read(ours, rb"TOLD (.*?)\r\n")
            process.kill()
        os.close(ours)
        return told.decode()

    def typed_into_zsh(self, line: str, then: str = "\x01print -r -- TOL''D '\x05'\n") -> str:
        """Returns the line after the Tab key in zsh, which finds completions in the folder.

        `then` are the keys by which zsh prints the line.
        """
        start = f"fpath=({self.folder} $fpath); autoload -Uz compinit; compinit -u -D; bindkey -e; PS1="
        # The end of the line shows what the tabulator did, whenever zsh has done it: keys wait for their turn.
        return self.typed(["zsh", "-f", "-i"], start, f"{line}\t{then}").rstrip()


def offered_by_bash(completion: str, *words: str) -> tuple[list[str], str]:
    """Returns what the Tab key offers for the last word of a command, and what is said, by a completion for bash."""
    script = f"""{completion}
        COMP_WORDS=("$@") COMP_CWORD=$(($# - 1)) COMP_LINE="$*"
        _{words[0].replace("-", "_")}
        printf '%s\\n' "${{COMPREPLY[@]}}" """
    ran = subprocess.run(["bash", "-c", script, "bash", *words], capture_output=True, text=True, timeout=60)
    return ran.stdout.split(), ran.stderr.strip().split("\n")[0]
