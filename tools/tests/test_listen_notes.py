"""tools/listen --meta: notes of SigMF on the samples in which messages and frames were sent."""

import json
import os
import re
import subprocess
import tempfile
import unittest
import unittest.mock
from typing import Any

from tools.tests.helping import NO_PROGRAM, PROGRAM, PYTHON, ROOT, made_once, needs, run_inside, temporary_folder

needs("numpy", "scipy", "matplotlib", "plotly", "jinja2")

from cdma_tools.commands import report  # noqa: E402
from cdma_tools.listening.listening import Anchor  # noqa: E402
from cdma_tools.listening.notes import time_at  # noqa: E402
from cdma_tools.listening.parts import chip_at  # noqa: E402
from tools.tests.listening_cell import HANDSET, made_cell, write_cell  # noqa: E402

SECONDS, RATE, CHIP_RATE, CLOCK = 4, 1_500_000, 1_228_800, 40
STREAM = ["--type", "cu8", "--rate", str(RATE)]
FRAME = 24_576
LABELS = {"sync": "IS-95 sync", "paging": "IS-95 paging", "frame": "IS-95 frame", "traffic": "IS-95 traffic"}


def make_recording(place: str) -> None:
    """Writes a recording of the cell by a radio with a clock error, so that chips and samples drift apart."""
    with tempfile.TemporaryDirectory() as folder:
        cell = write_cell(os.path.join(folder, "cell.is95"), made_cell(PROGRAM or "", SECONDS, 0))
        path = os.path.join(folder, "radio.cu8")
        words = [*STREAM, "--clock", str(CLOCK), cell, path]
        subprocess.run([PYTHON, "-B", f"{ROOT}/tools/channel", *words], check=True, capture_output=True)
        os.replace(path, place)


@unittest.skipUnless(PROGRAM, NO_PROGRAM)
class Noted(unittest.TestCase):
    """A recording of some seconds."""

    seconds = 15

    def test_notes_match_the_samples(self) -> None:
        """A frame or message that ends with chip `at` ends there in the samples of the wrong clock."""
        folder = temporary_folder(self.addCleanup)
        samples, meta = os.path.join(folder, "radio.cu8"), os.path.join(folder, "radio.sigmf-meta")
        os.symlink(made_once(f"notes_{SECONDS}_{CLOCK}.cu8", make_recording), samples)
        status, wrote, said = run_inside("listen", *STREAM, samples, *HANDSET, "--meta", meta)
        self.assertEqual((status, said), (0, ""))
        lines = [line for line in wrote.decode().splitlines() if line.split()[0] in LABELS]
        with open(meta, encoding="utf-8") as file:
            described = json.load(file)
        self.assertEqual(described["global"]["core:dataset"], "radio.cu8")
        notes = described["annotations"]
        self.check_rules(notes, os.path.getsize(samples) // 2)
        self.assertEqual(len(notes), len(lines))
        for line in lines:
            self.check_note(line, notes)
        self.check_again(samples, meta, described)
        self.check_report(samples, notes)

    def check_again(self, samples: str, meta: str, described: dict[str, Any]) -> None:
        """Checks that a listening that continues after some lines notes all of them, and none twice."""
        out = f"{samples}.txt"
        words = [*STREAM, samples, *HANDSET, "--meta", meta, "--out", out]
        self.assertEqual(run_inside("listen", *words)[0], 0)
        with open(out, encoding="ascii") as file:
            lines = file.readlines()
        with open(out, "w", encoding="ascii") as file:
            file.writelines(lines[:20])
        os.unlink(meta)
        self.assertEqual(run_inside("listen", *words)[0], 0)
        with open(out, encoding="ascii") as file:
            self.assertEqual(file.readlines(), lines)
        with open(meta, encoding="utf-8") as file:
            self.assertEqual(json.load(file), described)

    def check_report(self, samples: str, notes: list[dict[str, Any]]) -> None:
        """Checks the notes of a report, which begins later and counts other chips: the same at the same samples."""
        meta, skipped = os.path.join(os.path.dirname(samples), "report.sigmf-meta"), 200_000
        words = [*STREAM, samples, *HANDSET[:6], "--out", f"{samples}.html", "--meta", meta]
        status, _, said = run_inside("report", *words, f"--import=--skip {skipped}")
        self.assertEqual((status, said), (0, ""))
        with open(meta, encoding="utf-8") as file:
            reported = json.load(file)["annotations"]
        self.check_rules(reported, os.path.getsize(samples) // 2)
        self.assertGreater(len(reported), len(notes) // 2)
        starts: dict[tuple[str, str], list[int]] = {}
        for note in notes:
            starts.setdefault((note["core:label"], note["core:comment"]), []).append(note["core:sample_start"])
        for note in reported:
            self.assertEqual(note["core:generator"], "tools/report")
            begun = note["core:sample_start"]
            self.assertGreaterEqual(begun, skipped)
            near = [start for start in starts[note["core:label"], note["core:comment"]] if abs(start - begun) < 3]
            self.assertEqual(len(near), 1, note)
        os.unlink(meta)
        with unittest.mock.patch.object(report, "MOST_SECONDS", 1.0):
            self.assertEqual(run_inside("report", *words)[0], 0)
        with open(meta, encoding="utf-8") as file:
            self.assertEqual(json.load(file)["annotations"], notes, "a long recording has the notes of a listening")

    def check_rules(self, notes: list[dict[str, Any]], count: int) -> None:
        """Checks SigMF 1.0's rules for annotations: whole numbers, within the samples, ordered by their beginnings."""
        starts = [note["core:sample_start"] for note in notes]
        self.assertEqual(starts, sorted(starts))
        for note in notes:
            self.assertIs(type(note["core:sample_start"]), int)
            self.assertIs(type(note["core:sample_count"]), int)
            self.assertGreaterEqual(note["core:sample_start"], 0)
            self.assertLessEqual(note["core:sample_start"] + note["core:sample_count"], count)
            for name in ("core:label", "core:comment", "core:generator"):
                self.assertIs(type(note[name]), str)

    def check_note(self, line: str, notes: list[dict[str, Any]]) -> None:
        """Checks that the line has one note, which ends where its last frame does."""
        kind, at, comment = line.split(" ", 2)
        told = [note for note in notes if note["core:label"] == LABELS[kind] and note["core:comment"] == comment]
        late = {"sync": 32_768, "paging": FRAME}.get(kind, 0)
        scale = RATE / CHIP_RATE / (1 + CLOCK * 1e-6)  # the clock is slow, so a chip has fewer samples
        end = (int(re.sub("at=", "", at)) - late) * scale
        near = [note for note in told if abs(note["core:sample_start"] + note["core:sample_count"] - end) < 3]
        self.assertEqual(len(near), 1, line[:80])
        if kind != "sync":
            self.assertAlmostEqual(near[0]["core:sample_count"], FRAME * scale, delta=2)


class Rules(unittest.TestCase):
    """What needs no recording."""

    seconds = 1

    def test_times_of_chips(self) -> None:
        """They are the times at which the chips arrive."""
        anchors = [Anchor(0.0, 64.0), Anchor(1_000.0, 1_065.0), Anchor(3_000.0, 3_064.0)]
        for count in (1, 2, 3):
            for time in (0.0, 400.0, 1_000.0, 1_700.0, 2_900.0, 4_000.0):
                self.assertAlmostEqual(time_at(anchors[:count], chip_at(anchors[:count], time)), time)

    def test_refusals(self) -> None:
        words = [*STREAM, "--program", "/bin/true"]
        folder = temporary_folder(self.addCleanup)
        out, meta, samples = (os.path.join(folder, name) for name in ("lines.txt", "none.sigmf-meta", "samples"))
        with open(samples, "wb"):
            pass
        needed = "--meta goes with a .sigmf-meta or a file of raw samples"
        for tool, more, why in (
            ("listen", [*words, "/dev/null", "--meta", meta], needed),
            ("listen", [*words, "-", "--append", "--out", out, "--meta", meta], needed),
            ("listen", [*words, "udp://127.0.0.1:9", "--meta", meta], needed),
            ("listen", ["--program", "/bin/true", "radio.wav", "--meta", meta], needed),
            ("listen", ["radio.sigmf-meta", "--capture", "2", "--meta", meta], "--meta goes with a whole recording"),
            ("listen", [*words, "/dev/null", "--meta", "none.json"], "--meta names a .sigmf-meta"),
            ("report", [*words, "-", "--out", out, "--meta", meta], needed),
            ("report", ["radio.is95", "--out", out, "--meta", meta], "--meta goes with a recording"),
            ("report", [*words, samples, "--out", out, "--meta", meta, "--import=--cell 2"], "the strongest cell"),
        ):
            ended, wrote, said = run_inside(tool, *more)
            self.assertEqual((ended, wrote, said.count("\n")), (2, b"", 1), said)
            self.assertIn(why, said)
        self.assertEqual(os.listdir(folder), ["samples"])


if __name__ == "__main__":
    unittest.main()
