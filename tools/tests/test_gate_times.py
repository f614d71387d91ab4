"""tools/gate_times: the times in a log, the plans of crates and the longest chain, worked out by hand."""

from __future__ import annotations

import os
import subprocess
import unittest

from tools.tests.helping import ROOT, run_inside, temporary_folder

CRATES = """# Those that stand on nothing come first.
core:
left tests_may=Threads: core thiserror
right: core
top: left right
"""
LOG = [
    ("20:00:00", "== core"),
    ("20:00:00", "fn core::one: proved"),
    ("20:01:05", "rt: core proved"),
    ("20:02:00", "rt: left proved"),
    ("20:02:30", "rt: core: its tests are proved"),
    ("20:03:00", "rt: core: trying its must-fail edits (2)"),
    ("20:03:01", "rt: right is kept: an earlier run on this machine proved the same files over the same libraries"),
    ("21:30:59", "rt: left: its tests are NOT PROVED"),
    ("21:31:00", "rt: top NOT PROVED: its library left failed"),
    ("22:00:10", "rt: must-fail core/one.edit: refused, as it must be: specs/One.antt:1:1: error"),
    ("22:00:10", "rt: must-fail core/two.edit: NOT REFUSED: the crate is still proved with this edit"),
    ("22:00:10", "1 passed, 3 failed"),
]
# Of core: 1,000 + 1,000 + 0.2 of 500. Of left and right: 1,000 + 100 + 0.08 of 1,000. Of top: 1,000 + 10 + 0.08 of 1,200.
TABLE = """\
crate  planned           proof           tests  edits begun     told  edits
core    2.1 GB         0:01:05         0:02:30      0:03:00  2:00:10      2
left    1.2 GB         0:02:00  1:30:59 failed
right   1.2 GB            kept
top     1.1 GB  1:31:00 failed
longest chain: 3 crates: core left top
the log's last line: 2:00:10
"""


class GateTimes(unittest.TestCase):
    """A repository of four crates, and logs of runs over it."""

    def setUp(self) -> None:
        self.root = temporary_folder(self.addCleanup)
        self.write("crates.txt", CRATES)
        self.write("crates/core/src/lib.rt", "\n" * 900)
        self.write("crates/core/src/tests.rt", "#[test]\n" + "\n" * 99)
        self.write("crates/core/specs/Lib.antt", "\n" * 300)
        self.write("crates/core/proofs/one/Lib.antt", "\n" * 200)
        self.write("crates/core/must-fail/one.edit", "file: src/lib.rt\n")
        self.write("crates/core/must-fail/two.edit", "file: src/lib.rt\n")
        self.write("crates/core/out/made.rt", "\n" * 70)
        self.write("crates/left/src/lib.rt", "#[test]\n" + "\n" * 99)
        self.write("crates/right/src/lib.rt", "\n" * 100)
        self.write("crates/top/src/lib.rt", "\n" * 10)

    def write(self, name: str, text: str) -> str:
        path = os.path.join(self.root, name)
        os.makedirs(os.path.dirname(path), exist_ok=True)
        with open(path, "w") as file:
            file.write(text)
        return path

    def told(self, lines: list[str], root: str | None = None) -> tuple[int, str, str]:
        log = self.write("gate.log", "".join(line + "\n" for line in lines))
        status, wrote, faults = run_inside("gate_times", log, "--root", root or self.root)
        return status, wrote.decode(), faults

    def logged(self, form: str) -> list[str]:
        return [form.format(clock) + " " + text for clock, text in LOG]

    def test_a_whole_log(self) -> None:
        for form in ("Nov 28 {}", "2026-11-28T{}", "2026-11-28 {}.250", "{}"):
            with self.subTest(form):
                self.assertEqual(self.told(self.logged(form))[:2], (0, TABLE))

    def test_seconds(self) -> None:
        """Times as `ts -s %.s` writes them."""
        lines = [f"{3600 * int(c[:2]) + 60 * int(c[3:5]) + int(c[6:]) - 72_000}.000001 {text}" for c, text in LOG]
        self.assertEqual(self.told(lines)[:2], (0, TABLE))

    def test_over_midnight(self) -> None:
        for first, second in (
            ("23:59:50", "00:00:20"),
            ("Nov 30 23:59:50", "Dec  1 00:00:20"),
            ("Dec 31 23:59:50", "Jan  1 00:00:20"),
        ):
            with self.subTest(first):
                status, wrote, _ = self.told([f"{first} == core", f"{second} rt: core proved"])
                self.assertEqual(status, 0)
                self.assertIn("core    2.1 GB  0:00:30      -            -     -      2\n", wrote)
                self.assertTrue(wrote.endswith("the log's last line: 0:00:30\n"))

    def test_a_run_in_progress(self) -> None:
        status, wrote, _ = self.told(self.logged("Nov 28 {}")[:4])
        self.assertEqual(status, 0)
        self.assertIn("core    2.1 GB  0:01:05      -            -     -      2\n", wrote)
        self.assertIn("top     1.1 GB        -\n", wrote)

    def test_a_crate_that_is_gone(self) -> None:
        status, wrote, _ = self.told(["00:00:01 rt: core proved", "00:00:02 rt: old proved"])
        self.assertEqual(status, 0)
        self.assertIn("in the log, but not in crates.txt: old\n", wrote)

    def test_this_repository(self) -> None:
        status, wrote, _ = self.told(["00:00:01 rt: chip_core proved"], root=ROOT)
        self.assertEqual(status, 0)
        self.assertRegex(wrote, r"(?m)^longest chain: \d crates: chip_core .*cdma_replay$")

    def test_the_gate_says_how_long_it_took(self) -> None:
        """A gate whose first part fails prints the time it took, keeps its output and returns its status."""
        gate = self.write("rt", "#!/bin/sh\necho 1 passed, 2 failed\nexit 3\n")
        os.chmod(gate, 0o700)
        path = self.root + os.pathsep + os.environ["PATH"]
        ran = subprocess.run([os.path.join(ROOT, ".ci", "run")], env={**os.environ, "PATH": path}, capture_output=True)
        self.assertEqual((ran.returncode, ran.stdout), (3, b"1 passed, 2 failed\n"))
        self.assertRegex(ran.stderr, rb"^rt ci took 0:0[0-9]:[0-9]{2}\n$")

    def test_bad_input(self) -> None:
        good = "00:00:01 rt: core proved"
        bad: tuple[tuple[list[str], str], ...] = (
            ([good, "rt: left proved"], "line 2 has no time before it"),
            (["Nov 99 00:00:01 rt: core proved"], "month Nov, day 99 is not a day"),
            (["2026-13-01T00:00:01 rt: core proved"], "month 13, day 1 is not a day"),
            (["00:00:01 nothing"], "the log names no crate"),
            ([], "the log names no crate"),
        )
        for lines, why in bad:
            with self.subTest(why):
                status, wrote, faults = self.told(lines)
                self.assertEqual((status, wrote), (2, ""))
                self.assertIn(f"gate_times: {why}", faults)
        for text, why in (
            ("core", "names no crate"),
            ("core: top\ntop: core\n", "has a cycle: core top core"),
            ("core:\nnew:\n", "no folder"),
        ):
            with self.subTest(why):
                self.write("crates.txt", text)
                status, wrote, faults = self.told([good])
                self.assertEqual((status, wrote), (2, ""))
                self.assertIn(why, faults)
        self.assertEqual(run_inside("gate_times", os.path.join(self.root, "none"))[0], 2)
        self.assertEqual(run_inside("gate_times")[0], 2)
        faults = run_inside("gate_times", self.write("a.log", good), "--root", self.root + "/none")[2]
        self.assertIn("crates.txt: No such file", faults)


if __name__ == "__main__":
    unittest.main()
