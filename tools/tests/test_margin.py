"""`tools/margin`, the model's margin, and files with noise within a margin and beyond it."""

import contextlib
import io
import json
import os
import random
import unittest
from collections.abc import Iterator
from typing import Any

from tools.tests.helping import EXAMPLES, ROOT, ToolRun, example, needs, run_inside, run_tool, temporary_folder

needs("numpy")

import numpy as np  # noqa: E402
from numpy.typing import NDArray  # noqa: E402

from cdma_model.air import Noise, received  # noqa: E402
from cdma_model.cell import samples  # noqa: E402
from cdma_model.codes import POINTS  # noqa: E402
from cdma_model.files import header_bytes, sample_bytes  # noqa: E402
from cdma_model.noise import Roots, bears, own_phase, search_roots  # noqa: E402
from cdma_model.noise import margin as margin_by_model  # noqa: E402
from cdma_model.run import run  # noqa: E402
from cdma_model.script import Cell, read_script  # noqa: E402
from cdma_tools.commands import margin as command  # noqa: E402
from cdma_tools.conformance import cases  # noqa: E402
from cdma_tools.conformance.random_case import drawn_scene  # noqa: E402
from cdma_tools.conformance.random_case import script_of as random_script  # noqa: E402
from cdma_tools.errors import Refused  # noqa: E402
from cdma_tools.margins import margin_of, margins, search_margin  # noqa: E402
from cdma_tools.scripts import Script  # noqa: E402
from cdma_tools.scripts import read_script as read_by_tools  # noqa: E402

SECOND = "second_of_paging.script"
CALL = "call.script"
SYNC_ROW = 32
RANDOM_SEEDS = (1, 2, 3, 5, 8, 13)
SHORT_SPAN = 256
"""Samples over which energies are added up one by one."""


def cell_of(re: int, im: int, pilot: int) -> Cell:
    """Returns a cell with this link and pilot, and nothing else."""
    return Cell(re=re, im=im, pilot_gain=pilot)


def script_of(re: int, im: int, gains: dict[int, int]) -> Script:
    """Returns the same as the tools read it, with channels of these gains."""
    return Script(complex(re, im), 0, 1, 0, gains, (), ())


class Worked(unittest.TestCase):
    """Margins by hand: over a link along one axis whatever is less than the channel's own amplitude, otherwise by
    products."""

    # re, im, the pilot's gain, the channel's, and the margin. With -2 + j, 200 and 60 noise of 131 takes the pilot's level
    # from -400 + 200 j to -400 + 69 j and the channel's from -120 + 60 j to 11 + 60 j, whose product has the real part
    # -4,400 + 4,140; of 130 it leaves -400 + 70 j and 10 + 60 j, and -4,000 + 4,200.
    VALUES = [(0, -3, 100, 30, 89), (0, -3, 100, 60, 179), (3, 0, 100, 100, 299), (1, 0, 1, 1, 0), (-2, 1, 200, 60, 130)]

    def test_values_by_hand(self) -> None:
        for re, im, pilot, gain, wanted in self.VALUES:
            with self.subTest(re=re, im=im, pilot=pilot, gain=gain):
                self.assertEqual(margin_of(script_of(re, im, {0: pilot}), gain), wanted)
                self.assertEqual(margin_by_model(cell_of(re, im, pilot), gain), wanted)

    def test_a_margin_is_the_greatest_that_is_borne(self) -> None:
        for re, im, pilot, gain in [(7, -11, 3, 65_535), (-1, 0, 1, 2), (32_767, -32_768, 1, 1), (5, 5, 999, 1)]:
            with self.subTest(re=re, im=im, pilot=pilot, gain=gain):
                cell = cell_of(re, im, pilot)
                found = margin_of(script_of(re, im, {0: pilot}), gain)
                self.assertEqual(found, margin_by_model(cell, gain))
                self.assertIsNotNone(found)
                self.assertTrue(bears(cell, gain, found or 0))
                self.assertFalse(bears(cell, gain, (found or 0) + 1))

    def test_a_channel_without_a_gain_bears_not_even_none(self) -> None:
        self.assertIsNone(margin_of(script_of(3, 0, {0: 100}), 0))
        self.assertIsNone(margin_by_model(cell_of(3, 0, 100), 0))
        self.assertIsNone(margin_of(script_of(0, 0, {0: 100}), 5))

    def test_a_channel_that_is_missing_is_refused(self) -> None:
        script = script_of(0, -3, {0: 100, SYNC_ROW: 30})
        self.assertEqual([one.margin for one in margins(script)], [89])
        with self.assertRaisesRegex(Refused, "row 7"):
            margins(script, [SYNC_ROW, 7])
        with self.assertRaisesRegex(Refused, "nothing but a pilot"):
            margins(script_of(0, -3, {0: 100}))


def scripts() -> Iterator[tuple[str, bytes]]:
    """Returns the names and texts of the examples, of the cells of the cases with noise, and of drawn cells."""
    for name in sorted(os.listdir(EXAMPLES)):
        if name.endswith(".script"):
            yield name, example(name)
    cases.CASES = os.path.join(ROOT, "conformance", "cases")
    for name in cases.names_of_cases():
        if name.startswith("noise_"):
            yield name, cases.as_text(cases.Case(name).scripts[0])
    for seed in RANDOM_SEEDS:
        scene = drawn_scene(random.Random(seed))
        yield f"seed {seed}", cases.as_text(random_script(scene, 2_100, "all"))


def direct_energies(cell: Cell, span: int) -> list[int]:
    """Returns the energies of a cell's first samples at all phases, each summed sample by sample in whole numbers."""
    clean = next(samples(cell))[:span]
    codes = np.concatenate([POINTS, POINTS[: span - 1]])
    parts = [[np.rint(part).astype(np.int64) for part in (one.real, one.imag)] for one in (clean, codes)]
    (i, q), (c, d) = parts
    re = np.correlate(c, i, "valid") + np.correlate(d, q, "valid")
    im = np.correlate(c, q, "valid") - np.correlate(d, i, "valid")
    return [int(energy) for energy in re**2 + im**2]


def finds_through(roots: Roots, found: list[int], own: int, noise: int) -> bool:
    """Returns whether the search bears noise of a size, by these roots: each energy stays on its side of them."""
    others = max(energy for phase, energy in enumerate(found) if phase != own)
    is_apart = roots.others + 4 * noise * roots.span < roots.own
    return is_apart and roots.own**2 <= found[own] and others <= roots.others**2


class Twenty(unittest.TestCase):
    """Margins of many scripts by two formulas, and those of the search by energies that are summed one by one."""

    def test_the_margins_of_twenty_scripts(self) -> None:
        looked_at = 0
        for name, text in scripts():
            with self.subTest(name):
                cell, script = read_script(text, 16), read_by_tools(text.decode("ascii"), name)
                for row, gain in cell.gains()[1:]:
                    self.assertEqual(margin_of(script, gain), margin_by_model(cell, gain), row)
                found, own, roots = direct_energies(cell, SHORT_SPAN), own_phase(cell), search_roots(cell, SHORT_SPAN)
                self.assertEqual(roots.span, SHORT_SPAN)
                self.assertLess(found[own], (roots.own + 1) ** 2)
                self.assertGreater(max(found[:own] + found[own + 1 :]), (roots.others - 1) ** 2)
                margin = roots.margin()
                self.assertEqual(finds_through(roots, found, own, margin or 0), margin is not None)
                self.assertFalse(finds_through(roots, found, own, 0 if margin is None else margin + 1))
            looked_at += 1
        self.assertGreaterEqual(looked_at, 20)

    def test_the_search_of_examples(self) -> None:
        """A is 2 N times the pilot's amplitude if all other channels cancel in the mean of N samples."""
        for name, margin, own in ((SECOND, 138, 2 * 2_048 * 300), (CALL, 275, 2 * 2_048 * 600)):
            with self.subTest(name):
                text = example(name)
                cell, script = read_script(text, 16), read_by_tools(text.decode("ascii"), name)
                self.assertEqual(search_roots(cell, 2_048).own, own)
                self.assertEqual(search_margin(script, cell, 2_048).margin, margin)

    def test_roots_by_hand(self) -> None:
        """Four samples of noise e change each root by at most 8 e."""
        for roots, margin in (
            (Roots(100, 19, 4), 5),
            (Roots(100, 20, 4), 4),
            (Roots(100, 99, 4), 0),
            (Roots(100, 100, 4), None),
        ):
            with self.subTest(roots):
                self.assertEqual(roots.margin(), margin)


class Tool(unittest.TestCase):
    """The table, its JSON, and what is refused."""

    def told(self, *arguments: str, data: bytes = b"", way: ToolRun = run_inside) -> tuple[int, str, str]:
        status, wrote, said = way("margin", *arguments, data=data)
        return status, wrote.decode(), said

    def test_the_example_has_its_two_margins(self) -> None:
        status, wrote, said = self.told(os.path.join(EXAMPLES, SECOND))
        self.assertEqual((status, said), (0, ""))
        rows = [line.split() for line in wrote.splitlines()]
        # 138 of 300, and of sqrt(100^2 + 30^2 + 60^2) * 3 = 361.2; 89 of 90; 179 of 180
        self.assertEqual(rows[1], ["search", "100", "300.0", "138", "0.460", "0.382"])
        self.assertEqual(rows[2], ["sync", "30", "90.0", "89", "0.989", "0.246"])
        self.assertEqual(rows[3], ["paging", "1", "60", "180.0", "179", "0.994", "0.496"])
        self.assertEqual(rows[4], ["all", "of", "these", "89"])

    def test_the_last_line_is_the_least_of_all_rows(self) -> None:
        """With a louder paging channel the search bears less than the sync channel does."""
        loud = example(SECOND).replace(b"paging channel=1 gain=60", b"paging channel=1 gain=400")
        loud = loud.replace(b"sync gain=30", b"sync gain=60")
        status, wrote, _ = self.told("--json", "-", data=loud)
        rows = {found["name"]: found["margin"] for found in map(json.loads, wrote.splitlines())}
        self.assertLess(rows["search"], rows["sync"])
        status, wrote, _ = self.told("-", data=loud)
        self.assertEqual((status, wrote.split()[-1]), (0, str(rows["search"])))

    def test_the_span_is_the_tools_or_the_commands(self) -> None:
        script = example(SECOND)
        asked = [("--span", "64", "-"), ("-", "follow", "--span=64"), ("--span", "2048", "-"), ("-",)]
        margins_told = [self.told("--json", *words, data=script)[1].splitlines()[0] for words in asked]
        self.assertEqual(margins_told[0], margins_told[1])
        self.assertEqual(margins_told[2], margins_told[3])
        self.assertNotEqual(margins_told[0], margins_told[2])

    def test_a_command_names_the_channels(self) -> None:
        script = example(CALL)
        words = ("--json", "-", "rate2", "--esn", "00c0ffee", "--row=12", "--fingers", "2")
        status, wrote, _ = self.told(*words, data=script, way=run_tool)
        self.assertEqual((status, [json.loads(line)["row"] for line in wrote.splitlines()]), (0, [0, SYNC_ROW, 12]))
        status, wrote, _ = self.told("-", "follow", "--json", data=script)
        self.assertEqual((status, [json.loads(line)["row"] for line in wrote.splitlines()]), (0, [0, SYNC_ROW, 1]))

    def test_wrong_input_is_a_line(self) -> None:
        weak = example(SECOND).replace(b"sync gain=30", b"sync gain=1").replace(b"pilot gain=100", b"pilot gain=1")
        weak = weak.replace(b"im=-3", b"im=-1")
        unfound = example(SECOND).replace(b"pilot gain=100", b"pilot gain=2")
        short = example(SECOND).replace(b"samples=1228800", b"samples=2047")
        cases: list[tuple[int, str, tuple[str, ...], bytes]] = [
            (2, "row 9", ("-", "rate2", "--esn", "0", "--row", "9"), example(SECOND)),
            (2, "needs --row", ("-", "list"), example(SECOND)),
            (2, "sync bears no noise: its margin is 0", ("-",), weak),
            (2, "search over 2,048 samples bears no noise: the root of the energy is", ("-",), unfound),
            (2, "the cell sends 2,047 samples, but the search needs 2,048", ("-",), short),
            (2, "--span is 64 to 32,768, not '63'", ("-", "follow", "--span", "63"), example(SECOND)),
            (2, "bad script: line 2", ("-",), example(SECOND).replace(b"im=-3", b"im=-03")),
            (2, "isn't one of", ("-", "find"), example(SECOND)),
            (2, "not an option with a value", ("-", "follow", "--paging"), example(SECOND)),
            (2, "--paging is 1 to 7", ("-", "follow", "--paging", "8"), example(SECOND)),
            (2, "not a script: it has no link line", ("-",), b""),
            (2, "line 1 is not a line of a script", ("-",), b"hello\n"),
            (2, "not a script: it isn't ASCII text", ("-",), b"\xff\n"),
            (2, "not a script: it has more than", ("-",), b"#" * 2_000_000),
            (1, "No such file", ("/nowhere/at/all",), b""),
        ]
        for status, said, arguments, data in cases:
            with self.subTest(said=said, arguments=arguments):
                ended, wrote, told = self.told(*arguments, data=data)
                self.assertEqual((ended, wrote, told.count("\n")), (status, "", 1))
                self.assertIn(said, told)

    def test_no_argument_is_a_usage(self) -> None:
        with contextlib.redirect_stderr(io.StringIO()), self.assertRaises(SystemExit) as ended:
            command.main([])
        self.assertEqual(ended.exception.code, 2)


class File(unittest.TestCase):
    """The files that the law by signs covers: without noise, with noise, of another cell, and changed by hand.

    A soft value without noise is 4 V C g g0 |h|^2, where V and C are the chips of a window and of a symbol. The first
    whole sending sets the mark: it begins at sample 32,704, has three superframes, and gives the time of four
    superframes later.
    """

    SYNC, SYNC_SOFT = 25, 4 * 1_024 * 256 * 30 * 100 * 9
    PAGING, PAGING_SOFT = 7, 4 * 1_536 * 64 * 60 * 100 * 9
    MARK = 7 * 98_304
    samples = MARK + PAGING * 24_576
    folder, script, text = "", "", b""

    @classmethod
    def setUpClass(cls) -> None:
        cls.folder = temporary_folder(cls.addClassCleanup)
        cls.text = example(SECOND).replace(b"samples=1228800", b"samples=%d" % cls.samples)
        cls.script = cls.put("cell.script", cls.text)

    @classmethod
    def put(cls, name: str, data: bytes) -> str:
        """Returns the path of a file in the folder."""
        path = os.path.join(cls.folder, name)
        with open(path, "wb") as file:
            file.write(data)
        return path

    def made(self, noise: Noise = Noise(), change: tuple[bytes, bytes] = (b"", b"")) -> NDArray[Any]:
        """Returns the cell's samples with noise, or those of a cell whose script is changed."""
        return received(16, [read_script(self.text.replace(*change), 16)], [], noise)

    def wrote(self, total: NDArray[Any], *words: str, flags: int = 0, script: str = "") -> tuple[int, str, str]:
        """Runs the tool over these samples and a script; returns its status, its output and its standard error."""
        path = self.put("made.is95", header_bytes(16, flags, len(total)) + sample_bytes(16, total))
        status, wrote, said = run_inside("margin", "--file", path, *words[:1], script or self.script, *words[1:])
        return status, wrote.decode(), said

    def rows(self, total: NDArray[Any], script: str = "") -> list[list[Any]]:
        """Returns the rows over these samples: name, first, frames, covered, least."""
        status, wrote, said = self.wrote(total, "--json", script=script)
        self.assertEqual((status, said), (0, ""))
        found = [json.loads(line) for line in wrote.splitlines()]
        return [[row[name] for name in ("name", "first", "frames", "covered", "least")] for row in found]

    def expect(self, total: NDArray[Any], sync: tuple[int, float], paging: tuple[int, float]) -> None:
        """Asserts that these numbers of frames of the channels are covered, with these least soft values."""
        self.assertEqual(self.rows(total), [
            ["sync", 32_704, self.SYNC, *sync], ["paging 1", self.MARK, self.PAGING, *paging],
        ])  # fmt: skip

    def test_without_noise_all_is_covered(self) -> None:
        self.expect(self.made(), (self.SYNC, self.SYNC_SOFT), (self.PAGING, self.PAGING_SOFT))

    def test_noise_against_the_sync_channel(self) -> None:
        """Of 90 one is left at the margin, and the paging channel loses nothing; beyond it nothing is covered."""
        at_margin = self.made(Noise(against=(SYNC_ROW, 89)))
        self.expect(at_margin, (self.SYNC, self.SYNC_SOFT // 90), (self.PAGING, self.PAGING_SOFT))
        beyond = self.rows(self.made(Noise(against=(SYNC_ROW, 90))))
        self.assertEqual(beyond, [["sync", 32_704, self.SYNC, 0, 0], ["paging 1", None, 0, 0, None]])

    def test_a_frame_without_a_symbol(self) -> None:
        """64 zeros are a symbol of a paging channel, a quarter of one of the sync channel, and no noise to other rows."""
        total = self.made()
        total[self.MARK + 24_576 : self.MARK + 24_576 + 64] = 0
        self.expect(total, (self.SYNC, self.SYNC_SOFT * 15 // 16 * 3 // 4), (self.PAGING - 1, 0))

    def test_a_symbol_that_is_turned(self) -> None:
        total = self.made()
        total[self.MARK + 64 : self.MARK + 128] *= -1
        rows = self.rows(total)
        self.assertEqual(rows[1][3:], [self.PAGING - 1, -self.PAGING_SOFT * (1_536 - 128) // 1_536])

    def test_the_mark_counts_and_not_each_frame_of_the_sync_channel(self) -> None:
        """The last sync frame is lost, after the message that sets the mark."""
        total = self.made()
        last = 32_704 + 32_768 * (self.SYNC - 1)
        total[last : last + 256] = 0
        self.assertEqual(self.rows(total)[0][3:], [self.SYNC - 1, 0])
        self.assertEqual(self.rows(total)[1][1:3], [self.MARK, self.PAGING])

    def test_a_mark_of_another_cell_covers_no_paging_frame(self) -> None:
        other = self.made(change=(b"time=1000", b"time=2000"))
        sync, paging = self.rows(other)
        self.assertLess(sync[3], self.SYNC)
        self.assertEqual(paging, ["paging 1", None, 0, 0, None])
        self.assertIn("no message sets the cell's mark", self.wrote(other)[1])

    def test_what_is_covered_is_heard(self) -> None:
        """Noise of four times the margin flips no symbol here, and what was sent is received, as the law claims."""
        total = self.made(Noise(uniform=(7, 4 * 89)))
        sync, paging = self.rows(total)
        self.assertEqual((sync[3], paging[3]), (self.SYNC, self.PAGING))
        said = []
        for one in (total, self.made()):
            data = header_bytes(16, 0, len(one)) + sample_bytes(16, one)
            text = run(["follow", "--pilots", "0"], lambda: data).text()
            said.append(text)
        self.assertEqual(said[0], said[1])
        self.assertTrue(said[0].startswith(b"sync "))
        self.assertIn(b"\npaging ", said[0])

    def test_a_traffic_channel_with_an_offset(self) -> None:
        """Its frames begin 1,536 chips later for each unit, power control bits included."""
        text = self.text + b"traffic row=10 esn=0000abcd offset=3 gain=40\nframe 1200 16:be08 1010001100010011\n"
        script = self.put("call.script", text)
        total = received(16, [read_script(text, 16)], [])
        rows = self.rows(total, script)
        first = self.MARK + 3 * 1_536
        self.assertEqual(rows[2], ["traffic 10", first, self.PAGING - 1, self.PAGING - 1, self.PAGING_SOFT * 2 // 3])
        total[first : first + 64] = 0
        self.assertEqual(self.rows(total, script)[2][3:], [self.PAGING - 2, 0])

    def test_a_table(self) -> None:
        status, wrote, _ = self.wrote(self.made(), script=self.script)
        self.assertEqual(status, 0)
        self.assertEqual(wrote.splitlines()[1].split(), ["sync", "32704", "25", "25", str(self.SYNC_SOFT)])
        self.assertEqual(wrote.splitlines()[-1], f"the mark is at sample {self.MARK}")

    def test_a_file_of_another_cell_is_a_line(self) -> None:
        clean = self.made()
        later = self.made(change=(b"start=0", b"start=64"))
        for total, flags, said in (
            (clean[:-1], 0, f"the file has {self.samples - 1:,} samples, but the script's cell sends {self.samples:,}"),
            (clean, 3, "the file's flags are 3, but the script has checks=0"),
            (later, 0, "the search finds phase 128 in the file, but the script's cell has 64"),
        ):
            with self.subTest(said):
                status, wrote, told = self.wrote(total, "--json", flags=flags)
                self.assertEqual((status, wrote, told.count("\n")), (2, "", 1))
                self.assertIn(said, told)

    def test_what_is_no_file_or_no_single_finger(self) -> None:
        for status, words, said in (
            (2, ("--file", self.script, self.script), "bad file: magic at 0"),
            (2, ("--file", self.script, self.script, "follow", "--fingers", "2"), "the law is about one finger"),
            (2, ("--file", self.script, self.script, "follow", "--fingers", "4"), "--fingers is 1 to 3"),
            (1, ("--file", "/nowhere/at/all", self.script), "No such file"),
        ):
            with self.subTest(said):
                ended, wrote, told = run_inside("margin", *words)
                self.assertEqual((ended, wrote, told.count("\n")), (status, b"", 1))
                self.assertIn(said, told)


class Beyond(unittest.TestCase):
    """The bound is tight: noise of one more than the margin, against the channel's chips, loses what is sent."""

    def lines(self, size: int) -> list[str]:
        """Returns what the model decodes from the example's first 0.4 seconds, with noise of a size against the sync
        channel."""
        text = example(SECOND).replace(b"samples=1228800", b"samples=500000")
        cell = read_script(text, 16)
        total = received(16, [cell], [], Noise(against=(SYNC_ROW, size)))
        data = header_bytes(16, cell.checks, len(total)) + sample_bytes(16, total)
        outcome = run(["follow"], lambda: data)
        return [line for line in outcome.text().decode().splitlines() if line.startswith("sync ")]

    def test_at_the_margin_the_message_is_heard_and_one_beyond_it_is_lost(self) -> None:
        heard = self.lines(0)
        self.assertEqual(len(heard), 1)
        self.assertEqual(self.lines(89), heard)
        self.assertEqual(self.lines(90), [])


if __name__ == "__main__":
    unittest.main()
