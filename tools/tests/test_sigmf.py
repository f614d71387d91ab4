"""Every .sigmf-meta that the tools write keeps the rules of SigMF 1.0.0, and captures begin after lost samples."""

import copy
import json
import os
import unittest
from typing import Any

from tools.tests.helping import NO_PROGRAM, PROGRAM, needs, run_inside, run_program, temporary_folder

needs("numpy", "scipy", "matplotlib", "plotly", "jinja2")

import cdma  # noqa: E402
from cdma_tools import sigmf  # noqa: E402
from tools.tests.listening_cell import script_of  # noqa: E402
from tools.tests.sigmf_rules import faults_of  # noqa: E402

RATE, CHIP_RATE = 2_400_000, 1_228_800
LOST_AT, LOST = 1_500_000, 5_000
META = {
    "global": {"core:datatype": "ci16_le", "core:version": "1.0.0", "core:sample_rate": RATE},
    "captures": [{"core:sample_start": 0}, {"core:sample_start": 50, "core:global_index": 70}],
    "annotations": [{"core:sample_start": 10, "core:sample_count": 90}],
}  # the object of a file of 100 samples


class Rules(unittest.TestCase):
    """The rules accept what is right and name what is wrong."""

    seconds = 1

    def test_what_is_right(self) -> None:
        self.assertEqual(faults_of(META, 100), [])

    def test_what_is_wrong(self) -> None:
        for place, name, value, fault in (
            ("global", "core:version", "0.9", "global: core:version is not 1.0.0"),
            ("global", "core:datatype", "ci16", "global: core:datatype is none of SigMF"),
            ("global", "core:sample_rate", "1", "global: core:sample_rate is no number"),
            ("global", "core:gain", 1, "global: core:gain is unknown"),
            ("global", "other:gain", 1, "global: other:gain is in no namespace"),
            ("global", "gain", 1, "global: gain is in no namespace"),
            ("global", "core:extensions", [{}], "global: an extension without name, version and optional"),
            ("captures", "core:sample_start", 60, "captures: not in the order of core:sample_start"),
            ("captures", "core:sample_start", True, "captures: core:sample_start is no count"),
            ("captures", "core:datetime", "yesterday", "captures: core:datetime is no time in UTC"),
            ("captures", "core:global_index", 80, "captures: core:global_index falls"),
            ("annotations", "core:sample_count", 91, "annotations: a range after the last sample"),
            ("annotations", "core:sample_count", 1.5, "annotations: core:sample_count is no count"),
            ("annotations", "core:freq_lower_edge", 1, "annotations: one edge without the other"),
        ):
            with self.subTest(fault):
                meta: dict[str, Any] = copy.deepcopy(META)
                (meta[place] if place == "global" else meta[place][0])[name] = value
                self.assertEqual(faults_of(meta, 100), [fault])
        meta = copy.deepcopy(META)
        del meta["captures"][0]["core:sample_start"]
        self.assertEqual(faults_of(meta, 100), ["captures: no core:sample_start"])

    def test_a_capture_after_a_loss(self) -> None:
        """It has the frequency of the one before; indices count what was lost; one that is there isn't added again."""
        meta: dict[str, Any] = {"captures": [{"core:sample_start": 0, "core:frequency": 1e9}]}
        for first, second in ((30, 80), (30, 80), (28, 82)):
            sigmf.begin_capture(meta, first, 7, near=2)
            sigmf.begin_capture(meta, second, 1, near=2)
        self.assertEqual(
            meta["captures"],
            [
                {"core:sample_start": 0, "core:frequency": 1e9},
                {"core:sample_start": 30, "core:global_index": 37, "core:frequency": 1e9},
                {"core:sample_start": 80, "core:global_index": 88, "core:frequency": 1e9},
            ],
        )


@unittest.skipUnless(PROGRAM, NO_PROGRAM)
class Written(unittest.TestCase):
    """A recording that lost samples."""

    seconds = 15

    def setUp(self) -> None:
        self.folder = temporary_folder(self.addCleanup)
        cell = os.path.join(self.folder, "cell.is95")
        with open(cell, "wb") as file:
            file.write(run_program("make", data=script_of(1, 0, 0, CHIP_RATE * 3 // 2).encode())[1])
        self.meta, self.samples = (os.path.join(self.folder, f"radio.sigmf-{end}") for end in ("meta", "data"))
        words = ["--type", "cu8", "--rate", RATE, "--seconds", 1.4, "--lose", f"{LOST_AT}:{LOST}", cell, self.meta]
        self.assertEqual(run_inside("channel", *words)[0], 0)

    def object_of(self, path: str) -> dict[str, Any]:
        """The object of a .sigmf-meta, which keeps the rules."""
        with open(path, encoding="utf-8") as file:
            meta: dict[str, Any] = json.load(file)
        self.assertEqual(faults_of(meta, os.path.getsize(self.samples) // 2), [], path)
        return meta

    def test_each_tool(self) -> None:
        """channel, import_capture, listen, report; a capture begins where the samples were lost, within some chips."""
        self.object_of(self.meta)
        for name, words in (
            ("import_capture", ["--lock", "--meta", self.meta, self.meta, os.path.join(self.folder, "out.is95")]),
            ("listen", ["--meta", self.meta, self.meta]),
            ("report", ["--meta", self.meta, self.meta, "--out", os.path.join(self.folder, "radio.html")]),
        ):
            self.assertEqual(run_inside(name, *words)[0], 0, name)
            meta = self.object_of(self.meta)
        labels = {note["core:label"] for note in meta["annotations"]}
        self.assertLessEqual({"truth", "IS-95 pilot", "IS-95 sync"}, labels)
        makers = {note["core:generator"] for note in meta["annotations"] if note["core:label"] == "IS-95 sync"}
        self.assertEqual(makers, {"tools/listen", "tools/report"})
        first, after = meta["captures"]  # one of two tools that place it some samples apart
        self.assertEqual(first["core:sample_start"], 0)
        self.assertAlmostEqual(after["core:sample_start"], LOST_AT, delta=200)
        self.assertAlmostEqual(after["core:global_index"] - after["core:sample_start"], LOST, delta=RATE / CHIP_RATE)

    def test_the_library(self) -> None:
        """A recording that a program makes and saves."""
        other: dict[str, Any] = {"type": "cf32_le", "rate": 2_457_600.5, "lose": [(20_000, 300)], "ec_io": -9}
        for given in ({"type": "cu8"}, other):
            with self.subTest(given):
                recording = cdma.record(os.path.join(self.folder, "cell.is95"), seconds=0.05, **given)
                path = os.path.join(self.folder, "saved.sigmf-meta")
                recording.save(path)
                with open(path, encoding="utf-8") as file:
                    meta = json.load(file)
                self.assertEqual(faults_of(meta, recording.samples), [])
                self.assertEqual(meta["global"]["core:datatype"], given["type"])


if __name__ == "__main__":
    unittest.main()
