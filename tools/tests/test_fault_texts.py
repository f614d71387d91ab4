"""The line on standard error of each fault with which a run can end, by the built program.

The texts of the faults themselves, as the crates print them, have a table in `crates/line_tests`.
"""

import shutil
import subprocess
import unittest

from tools.tests.helping import HEADER, NO_PROGRAM, PROGRAM, example, run_tool

ZEROS = HEADER.pack(b"IS95", 1, 0, 2_048) + bytes(4 * 2_048)
SCRIPT = example("second_of_paging.script")
TRAFFIC = b"traffic row=1 esn=0000abcd offset=0 gain=40\nframe 1200 16:8001 0101010101010101\n"


def with_gain(gain: int) -> bytes:
    return SCRIPT.replace(b"channel=1 gain=60", b"channel=1 gain=%d" % gain)


# Arguments, the input, the exit status, and the line.
ROWS: list[tuple[str, bytes, int, str]] = [
    ("find", ZEROS, 0, ""),
    ("follow", ZEROS, 1, "no sync message\n"),
    ("follow --esn 0000abcd", ZEROS, 2, "bad words\n"),
    ("find", b"IS96" + ZEROS[4:], 3, "bad file: magic at 0\n"),
    ("find", HEADER.pack(b"IS95", 3, 0, 2_048) + ZEROS[HEADER.size :], 3, "bad file: version at 4\n"),
    ("find", HEADER.pack(b"IS95", 1, 4, 2_048) + ZEROS[HEADER.size :], 3, "bad file: flags at 6\n"),
    ("find", HEADER.pack(b"IS95", 1, 0, 33_554_433), 3, "bad file: count at 8\n"),
    ("find", HEADER.pack(b"IS95", 1, 0, 2_047), 3, "bad file: too few at 8\n"),
    ("find", ZEROS[:15], 3, "bad file: short at 15\n"),
    ("find", ZEROS[:8_206], 3, "bad file: short at 8206\n"),
    ("find", ZEROS + b"\0", 3, "bad file: extra at 8208\n"),
    ("make", b"", 8, "bad script: line 1\n"),
    ("make", SCRIPT + TRAFFIC, 8, "bad script: walsh 1\n"),
    ("make", with_gain(0), 8, "bad script: gain 1\n"),
    ("make", SCRIPT.replace(b"re=0", b"re=32767"), 8, "bad script: too loud 6226300\n"),
    ("make", SCRIPT.replace(b"samples=1228800", b"samples=33554433"), 8, "bad script: too long 33554433\n"),
    ("make", bytes(1_048_577), 8, "bad script: too big\n"),
]


@unittest.skipUnless(PROGRAM, NO_PROGRAM)
class FaultTexts(unittest.TestCase):
    def test_lines_of_statuses(self) -> None:
        assert PROGRAM is not None
        for line, data, status, told in ROWS:
            with self.subTest(line=line, told=told):
                ran = subprocess.run([PROGRAM, *line.split()], input=data, capture_output=True, timeout=60)
                self.assertEqual((ran.returncode, ran.stderr.decode()), (status, told))

    def test_a_read_that_fails(self) -> None:
        """Each read of a directory fails."""
        assert PROGRAM is not None
        for command in ("find", "make"):
            with self.subTest(command):
                told = f'"$0" {command} < /'
                ran = subprocess.run(["sh", "-c", told, PROGRAM], capture_output=True, timeout=60)
                self.assertEqual((ran.returncode, ran.stdout, ran.stderr), (4, b"", b"read fault\n"))

    def test_a_write_that_fails(self) -> None:
        assert PROGRAM is not None
        for line, data in (("find", ZEROS), ("make", SCRIPT), ("trial --number 0", b"")):
            with self.subTest(line), open("/dev/full", "wb") as full:
                ran = subprocess.run(
                    [PROGRAM, *line.split()], input=data, stdout=full, stderr=subprocess.PIPE, timeout=60
                )
                self.assertEqual((ran.returncode, ran.stderr), (5, b"write fault\n"))

    @unittest.skipUnless(shutil.which("gcc"), "no gcc")
    def test_each_want_of_memory(self) -> None:
        """Each refused allocation ends a run of each command with status 6, its line, and no text."""
        status, told, fault = run_tool("starve", "--program", PROGRAM)
        self.assertEqual((status, told.splitlines()[-1:], fault), (0, [b"0 faults"], ""))


if __name__ == "__main__":
    unittest.main()
