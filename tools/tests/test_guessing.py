"""What a file does not state: the samples' type by their bytes, how checks are sent, and flags that are set in place.
"""

import os
import subprocess
import unittest

from tools.tests.helping import NO_PROGRAM, PROGRAM, example, needs, read_file

needs("numpy", "scipy")

import numpy  # noqa: E402

from cdma_tools import checks  # noqa: E402
from cdma_tools.errors import Refused  # noqa: E402
from cdma_tools.radio.guessing import type_of  # noqa: E402
from tools.tests.radio_helping import Recordings, run_main, whole_cell, write_cell  # noqa: E402

KINDS = ("cu8", "ci8", "ci16_le", "ci16_be", "cf32_le")


class Types(Recordings):
    CHIPS = 100_000

    def test_each_type_at_each_level(self) -> None:
        for kind in KINDS:
            for level in (-4, -12, -20, -30):
                more = ("--dc", 0.1, "--iq", "1:5") if level == -12 else ()
                path = self.recorded("--type", kind, "--level", level, "--ec-io", -9, *more, name="in.raw")
                self.assertEqual(type_of(path), kind, level)

    def test_other_signals(self) -> None:
        time = numpy.arange(100_000)
        tone = 0.7 * numpy.exp(2j * numpy.pi * 0.01234 * time)
        for kind, form, middle, scale in (
            ("cu8", "u1", 127.5, 127),
            ("ci8", "i1", 0, 127),
            ("ci16_le", "<i2", 0, 32_767),
            ("ci16_be", ">i2", 0, 32_767),
            ("cf32_le", "<f4", 0, 1),
        ):
            parts = numpy.stack([tone.real, tone.imag], axis=1) * scale + middle
            (parts if form == "<f4" else numpy.rint(parts)).astype(form).tofile(self.at("tone.raw"))
            self.assertEqual(type_of(self.at("tone.raw")), kind)

    def test_what_tells_none(self) -> None:
        for data, why in (
            (bytes(100_000), "nearly all bytes are the same"),
            (b"\x7f" * 90_000, "nearly all bytes are the same"),
            (b"ab" * 90, "180 bytes are too few"),
        ):
            with open(self.at("none.raw"), "wb") as file:
                file.write(data)
            with self.assertRaisesRegex(Refused, why):
                type_of(self.at("none.raw"))
        numpy.random.default_rng(1).integers(0, 256, 100_000).astype("u1").tofile(self.at("none.raw"))
        with self.assertRaisesRegex(Refused, "spread over the whole range"):
            type_of(self.at("none.raw"))
        with self.assertRaisesRegex(Refused, "No such file"):
            type_of(self.at("nothing"))

    def test_it_is_told(self) -> None:
        path = self.recorded("--type", "cu8", "--ec-io", -9, name="in.cu8")
        found = self.locked(path, "--type", "auto", "--rate", 2_400_000)
        self.assertIn("import_capture: the sample type is guessed from the bytes: cu8\n", self.said)
        self.assertEqual(found, self.locked(path, "--type", "cu8", "--rate", 2_400_000))
        self.assertNotIn("bytes look", self.said)
        self.locked(path, "--type", "ci8", "--rate", 2_400_000)
        self.assertIn("the samples are read as ci8, but their bytes look like cu8: is the type right?", self.said)
        for name, words in (("scan", ("--search", 3_000)), ("domain", ())):
            said = run_main(name, "--type", "auto", "--rate", 2_400_000, *words, path)[2]
            self.assertIn(f"{name}: the sample type is guessed from the bytes: cu8", said)


class Flags(Recordings):
    CHIPS = 70_000

    def test_a_file_is_reflagged(self) -> None:
        chips = whole_cell(9_000)
        path = write_cell(self.at("kept.is95"), chips)
        samples = read_file(path)[2]
        for words, flags in (
            ((), 0),
            (("--complement-30",), 1),
            (("--complement-16",), 2),
            (("--complement-30", "--complement-16"), 3),
        ):
            before = read_file(path)[1]
            status, wrote, said = run_main("import_capture", "--reflag", path, *words)
            self.assertEqual(
                (status, wrote, said),
                (0, "", f"import_capture: {path}: its flags are {flags} now, and were {before}\n"),
            )
            self.assertEqual(read_file(path)[1:], (flags, samples))

    def test_words(self) -> None:
        for status, why, words in (
            (1, "No such file", ("--reflag", self.at("none.is95"))),
            (1, "not a sample file", ("--reflag", os.path.abspath(__file__))),
            (2, "unrecognized arguments: .*two.is95", ("--reflag", self.cell, self.at("two.is95"))),
            (2, "unrecognized arguments: --count", ("--reflag", "--count", 3, self.cell)),
            (2, "unrecognized arguments: --lock", ("--reflag", "--lock", self.cell)),
            (2, "can't be given together", ("--reflag", "--checks", "auto", "--complement-30", self.cell)),
            (2, "--reflag goes only with one sample file", ("--refl", self.cell, self.at("two.is95"))),
            (2, "can't be given together", ("--checks", "auto", "--complement-30", self.cell, self.at("two.is95"))),
            (2, "required: FILE", ("--type", "cu8", "--rate", "2e6", self.cell)),
            (1, "no program at /none", ("--reflag", "--checks", "auto", "--program", "/none", self.cell)),
        ):
            with self.subTest(why):
                ended, wrote, said = run_main("import_capture", *words)
                self.assertEqual((ended, wrote), (status, ""), said)
                self.assertRegex(said, why)

    def test_what_is_told(self) -> None:
        self.assertEqual([checks.Heard(0, 4).flag, checks.Heard(3, 1).flag, checks.Heard(0, 0).flag], [1, 0, 0])
        self.assertIn("no message passes its check, plain or complemented", checks.Heard(0, 0).told())
        told = checks.Heard(1, 4).told()
        self.assertIn("assumed to be complemented: 4 messages pass that way, and 1 the other way", told)

    @unittest.skipUnless(PROGRAM, NO_PROGRAM)
    def test_checks_are_tried(self) -> None:
        for sent in (0, 1):
            script = example("second_of_paging.script").replace(b"checks=0", f"checks={sent}".encode())
            with open(self.at("cell.is95"), "wb") as file:
                file.write(subprocess.run([str(PROGRAM), "make"], input=script, stdout=subprocess.PIPE, check=True).stdout)
            path = self.recorded("--ec-io", -9, cells=(self.at("cell.is95"),))
            self.locked(path, "--checks", "auto", "--program", PROGRAM)
            self.assertEqual(read_file(self.at("out.is95"))[1], sent)
            way = "complemented" if sent else "plain"
            self.assertRegex(
                self.said, rf"30-bit checks are assumed to be {way}: \d+ messages pass that way, and 0 the other way"
            )
            run_main("import_capture", "--reflag", self.at("out.is95"), "--complement-16")
            self.assertEqual(
                run_main("import_capture", "--reflag", self.at("out.is95"), "--checks", "auto", "--complement-16")[0], 0
            )
            self.assertEqual(read_file(self.at("out.is95"))[1], sent | 2)


if __name__ == "__main__":
    unittest.main()
