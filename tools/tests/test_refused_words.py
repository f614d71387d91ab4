"""Arguments and spellings that the command line does not have, and spellings that it has, given to the built program.

Wrong arguments end with status 2 and `bad words` before anything is read. After accepted arguments the input is read,
which is empty here, so the run ends with the fault of an empty input.
"""

import subprocess
import unittest

from tools.tests.helping import NO_PROGRAM, PROGRAM

# Other commands and options.
FAULTY_NAMES = [
    "",
    "fin",
    "finds",
    "Find",
    "help",
    "--help",
    "--version",
    "--",
    "-- find",
    "--span 64 find",
    " find",
    "find find",
    "find ",
    "find -",
    "find --",
    "find -h",
    "find --help",
    "find --spa 64",
    "find --Span 64",
    "find -span 64",
    "find --=64",
    "find --span 64 --span=64",
    "find --span --",
    "find --span 64 --",
    "find -- --span=64",
    "find --span=64 --help",
    "find --fingers 1",
    "find --esn 0000abcd --row 10",
    "find --key 00000000",
    "find --number 1",
    "find --top 1",
    "follow --bits=8",
    "follow --raw 1 --pilots 1 --raw 2",
    "follow --k 4",
    "rate2 --esn 0000abcd --row 10 --frames 1",
    "list --esn 0000abcd --row 10 --k 4 --paging 1",
    "idle --key 00000000 --messages 1",
    "survey --fingers 1",
    "make --workers 4",
    "trial --number 1 --span 64",
]

# Options that are missing or don't go together.
FAULTY_GROUPS = [
    "follow --esn 0000abcd",
    "follow --row 10",
    "follow --offset 0",
    "follow --esn 0000abcd --offset 3",
    "follow --row 10 --offset 3",
    "follow --esn 0000abcd --row 32",
    "follow --row=032 --esn=0000abcd --paging=2",
    "follow --esn 0000abcd --row 1",
    "follow --esn 0000abcd --row 7 --paging 7",
    "rate2",
    "rate2 --esn 0000abcd",
    "rate2 --row 10 --offset 3",
    "rate2 --esn 0000abcd --row 32",
    "list --k 4",
    "list --esn 0000abcd --row 10",
    "list --esn 0000abcd --k 4",
    "idle",
    "idle --cycle 0",
    "trial",
    "trial --workers 1",
]

# Other values.
FAULTY_VALUES = [
    "find --span",
    "find --span=",
    "find --span ",
    "find --span= 64",
    "find --span=-64",
    "find --span --workers=2",
    "find --span 63",
    "find --span=32769",
    "find --span=+64",
    "find --span=6_4",
    "find --span 64.0",
    "find --span 0x40",
    "find --span \u0666\u0664",
    "find --span 18446744073709551680",
    "find --span=000000000000000000064",
    "find --workers 0",
    "find --workers=65",
    "follow --fingers 0",
    "follow --fingers=4",
    "follow --paging 0",
    "follow --paging=8",
    "follow --raw=4294967296",
    "follow --span=64=64",
    "follow --esn 000abcd --row 10",
    "follow --esn 00000abcd --row 10",
    "follow --esn 0x00abcd --row 10",
    "follow --esn 0000abcg --row 10",
    "follow --esn +000abcd --row 10",
    "follow --esn=000 abcd --row 10",
    "follow --esn= --row 10",
    "follow --esn 0000abcd --row 0",
    "follow --esn 0000abcd --row 64",
    "follow --esn 0000abcd --row 0x10",
    "follow --esn 0000abcd --row 10 --offset 16",
    "follow --esn 0000abcd --row 10 --offset f",
    "list --esn 0000abcd --row 10 --k 0",
    "list --esn 0000abcd --row 10 --k 17",
    "idle --key 0000000",
    "idle --key 0000000g",
    "idle --key 00000000 --cycle 8",
    "idle --key 00000000 --cycle -1",
    "survey --base 32768",
    "survey --width 32",
    "survey --top 0",
    "survey --top 513",
    "make --bits 9",
    "make --bits=",
    "make --bits 8 16",
    "trial --number -1",
    "trial --number a",
    "trial --number 18446744073709551616",
    "trial 1",
]

# Arguments that are taken, of commands that read a sample file, that reads a script, and that reads nothing.
RECEIVING = [
    "find",
    "find --span=0064",
    "find --span 00000000000000000064",
    "find --workers 64 --span=32768",
    "follow",
    "follow --paging=1 --offset 0 --esn 00000000 --row=31",
    "follow --raw=4294967295 --pilots 0 --fingers=3 --messages 7 --span 64 --paging 007",
    "follow --frames 5 --paging 2 --row 1 --esn DeadBeef",
    "rate2 --esn 0000abcd --row 10",
    "rate2 --fingers=3 --row=063 --offset 15 --esn=FFFFffff --span 64 --workers 64",
    "list --span 64 --k 016 --esn 0000abcd --workers 64 --row 1 --offset 2",
    "idle --key 12345678",
    "idle --cycle=7 --paging 7 --key=FFFFffff --fingers 3 --workers 64 --span 64",
    "survey",
    "survey --base=32767 --width 31 --top 1",
    "survey --top=512 --width=0 --base 00 --workers 64 --span 64",
]
MAKING = [
    "make",
    "make --bits 016",
    "make --bits=8",
]
TRIALS = [
    "trial --number=18446744073709551615",
    "trial --workers=64 --number 007",
]


@unittest.skipUnless(PROGRAM, NO_PROGRAM)
class RefusedWords(unittest.TestCase):
    def expect(self, lines: list[str], status: int, error: str) -> None:
        """Asserts that the arguments of each line end a run so. One blank separates two words, so two blanks give an
        empty word."""
        for line in lines:
            with self.subTest(line):
                self.expect_words(line.split(" "), status, error)

    def expect_words(self, words: list[str], status: int, error: str) -> None:
        assert PROGRAM is not None
        ran = subprocess.run([PROGRAM, *words], stdin=subprocess.DEVNULL, capture_output=True, timeout=60)
        self.assertEqual((ran.returncode, ran.stderr.decode()), (status, error))
        if status:
            self.assertEqual(ran.stdout, b"")

    def test_other_words(self) -> None:
        self.expect_words([], 2, "bad words\n")
        self.expect(FAULTY_NAMES, 2, "bad words\n")
        self.expect(FAULTY_GROUPS, 2, "bad words\n")
        self.expect(FAULTY_VALUES, 2, "bad words\n")

    def test_words_that_are_taken(self) -> None:
        self.expect(RECEIVING, 3, "bad file: short at 0\n")
        self.expect(MAKING, 8, "bad script: line 1\n")
        self.expect(TRIALS, 0, "")
