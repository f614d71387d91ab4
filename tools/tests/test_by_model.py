"""conformance/write and conformance/check, tools/agree and tools/explain: what they write, and what they refuse."""

import contextlib
import io
import os
import unittest
from typing import ClassVar

from tools.tests.helping import (
    EXAMPLES, PYTHON, ROOT, ToolRun, needs, run_inside, run_tool, sample_file, temporary_folder,
)  # fmt: skip

needs("numpy")

from cdma_model.run import run  # noqa: E402
from cdma_tools.commands import status_of  # noqa: E402
from cdma_tools.conformance import by_model, cases, random_case  # noqa: E402
from cdma_tools.conformance.by_model import Draft, input_of, items_of  # noqa: E402

WRITE, CHECK = "conformance_write", "conformance_check"
DRAFT = """purpose: a pilot that turns the other way
words: find
bits: 16
script:
  cell pn=4 time=1 lc=00000000001 checks=0
  link re=0 im=-1 start=0 samples=3000
  pilot gain=100
"""
WANTED = "  pilot phase=32512 energy=167772160000\n"  # start - 64 pn, and (2 times 2,048 samples times 100) squared


class Folder(unittest.TestCase):
    """A folder with its own cases."""

    def setUp(self) -> None:
        self.folder = temporary_folder(self.addCleanup)
        before = cases.CASES
        self.addCleanup(setattr, cases, "CASES", before)
        cases.CASES = self.folder

    def put(self, text: str, name: str = "one") -> None:
        with open(os.path.join(self.folder, name + ".case"), "w", encoding="ascii") as file:
            file.write(text)

    def got(self, name: str = "one") -> str:
        with open(os.path.join(self.folder, name + ".case"), encoding="ascii") as file:
            return file.read()

    def said(self, tool: str, *words: str) -> tuple[int, str, str]:
        """Runs a command; returns its status, its output and its standard error."""
        out, err = io.StringIO(), io.StringIO()
        with contextlib.redirect_stdout(out), contextlib.redirect_stderr(err):
            status = status_of(tool, list(words))
        return status, out.getvalue(), err.getvalue()


class Write(Folder):
    def test_a_draft_becomes_a_case(self) -> None:
        self.put(DRAFT)
        self.assertEqual(self.said(WRITE, "one")[:2], (0, "one: written\n"))
        found = self.got()
        front = "purpose: a pilot that turns the other way\nwords: find\n"
        front += "rules: samples pilot_codes search formats\nstatus: 0\nbits: 16\nsha256: "
        self.assertTrue(found.startswith(front))
        self.assertTrue(found.endswith("  pilot gain=100\ntext:\n" + WANTED))
        self.assertEqual(self.said(WRITE, "one")[:2], (0, "one: nothing to change\n"))
        self.assertEqual(self.said(CHECK, "--jobs", "1", "one")[:2], (0, "1 cases, 0 differ\n"))

    def test_what_is_wrong_is_put_right(self) -> None:
        self.put(DRAFT + "text:\n  another\n")
        self.said(WRITE, "one")
        self.assertIn("text:\n" + WANTED, self.got())
        self.assertNotIn("another", self.got())

    def test_a_status_with_its_line(self) -> None:
        self.put(DRAFT.replace("samples=3000", "samples=30"))
        self.said(WRITE, "one")
        self.assertIn("words: find\nrules: formats\nstatus: 3\nerror: bad file: too few at 8\nbits: 16\n", self.got())

    def test_samples_that_are_asked_for(self) -> None:
        self.put(DRAFT.replace("words: find\nbits: 16\n", "words: make\ninput: script\n"))
        self.said(WRITE, "one")
        self.assertRegex(self.got(), r"status: 0\noutput: 12016 [0-9a-f]{64}\nscript:")
        self.assertNotIn("text:", self.got())

    def test_print_writes_nothing(self) -> None:
        self.put(DRAFT)
        self.assertIn(WANTED, self.said(WRITE, "--print", "one")[1])
        self.assertEqual(self.got(), DRAFT)

    def test_refusals(self) -> None:
        self.assertEqual(self.said(WRITE, "none")[0], 2)
        self.put(DRAFT.replace("gain=100", "gain=0"))
        status, out, err = self.said(WRITE, "one")
        self.assertEqual((status, out, err), (1, "", "conformance/write: the case one: gain 0\n"))
        self.put(DRAFT + "nothing of a case\n")
        self.assertEqual(self.said(WRITE, "one")[0], 1)
        self.assertEqual(os.listdir(self.folder), ["one.case"])


class Check(Folder):
    def test_what_differs(self) -> None:
        self.put(DRAFT)
        self.said(WRITE, "one")
        for old, new, said in (
            ("phase=32512", "phase=32513", "line 1 wanted: pilot phase=32513"),
            ("status: 0", "status: 1", "status 0, wanted 1"),
            ("gain=100\n", "gain=101\n", "don't have the case's checksum"),
        ):
            good = self.got()
            self.put(good.replace(old, new))
            status, out, _ = self.said(CHECK, "--jobs", "1", "one")
            self.assertEqual(status, 1)
            self.assertIn(said, out)
            self.assertTrue(out.endswith("1 cases, 1 differ\n"))
            self.put(good)

    def test_noise_that_the_search_does_not_bear(self) -> None:
        """Noise of half of the pilot's amplitude may hide its phase, whatever the other energies are."""
        self.put(DRAFT.replace("bits: 16\n", "bits: 16\nnear: 40\n"))
        self.said(WRITE, "one")
        self.assertEqual(self.said(CHECK, "--jobs", "1", "one")[:2], (0, "1 cases, 0 differ\n"))
        self.put(self.got().replace("near: 40", "near: 50"))
        status, out, _ = self.said(CHECK, "--jobs", "1", "one")
        self.assertEqual(status, 1)
        self.assertRegex(out, "the search bears 4[0-9], less than near: 50")

    def test_long_cases_are_left(self) -> None:
        self.put(DRAFT)
        self.said(WRITE, "one")
        self.put(self.got().replace("samples=3000", "samples=30000000"), "long")
        self.assertEqual(self.said(CHECK, "--jobs", "1")[1], "1 cases, 0 differ; 1 that take long are left to --all\n")

    def test_bad_words(self) -> None:
        self.put(DRAFT)
        self.assertEqual(self.said(CHECK, "another")[0], 2)
        self.assertEqual(self.said(CHECK, "--jobs", "0")[0], 2)
        self.assertEqual(self.said(CHECK, "one")[0], 2, "a draft is no case")


class Agree(unittest.TestCase):
    seconds = 10

    def setUp(self) -> None:
        self.folder = temporary_folder(self.addCleanup)

    def program(self, behind: str = "") -> str:
        """Returns the model as a program, whose output may be piped through a filter."""
        path = os.path.join(self.folder, "program")
        with open(path, "w", encoding="ascii") as file:
            file.write(f"#!/bin/sh\ncd {ROOT}\n{PYTHON} -B -m model \"$@\"{behind}\n")
        os.chmod(path, 0o755)
        return path

    def test_the_same_program_agrees(self) -> None:
        status, out, _ = run_tool("agree", "--seed", 1, "--count", 4, "--jobs", 1, "--keep", self.folder, self.program())
        self.assertEqual(status, 0)
        self.assertRegex(out.decode(), r"^4 runs, 0 differ, \d+ s: ")

    def test_another_program_is_found_out(self) -> None:
        seed = next(seed for seed in range(1_000) if "words: find\nbits:" in random_case.random_case(seed))
        program = self.program(" | sed s/phase=/phase=1/")
        status, out, _ = run_tool("agree", "--seed", seed, "--count", 1, "--jobs", 1, "--keep", self.folder, program)
        self.assertEqual(status, 1)
        self.assertIn(f"seed {seed}: find: {self.folder}/seed_{seed}.case\n", out.decode())
        self.assertIn("    line 1: pilot phase=1", out.decode())
        with open(os.path.join(self.folder, f"seed_{seed}.case"), encoding="ascii") as file:
            self.assertEqual(file.read(), random_case.random_case(seed))

    def test_bad_words(self) -> None:
        for words in (["--seed", 1], ["--seed", -1, "--count", 1, "x"], ["--seed", 1, "--count", 0, "x"],
                      ["--seed", 1, "--count", 1, "--jobs", 0, "x"]):  # fmt: skip
            self.assertEqual(run_inside("agree", *words)[0], 2)
        status, _, err = run_inside("agree", "--seed", 5, "--count", 1, "--jobs", 1, "/nowhere/program")
        self.assertEqual((status, err), (2, "agree: no program at /nowhere/program\n"))

    def test_cases_are_the_same_for_a_seed_and_can_be_read(self) -> None:
        commands = set()
        for seed in range(150):
            text = random_case.random_case(seed)
            self.assertEqual(text, random_case.random_case(seed))
            case = Draft(f"seed_{seed}", items_of(text))
            commands |= set(case.words[:1])
            if not case.scripts or "samples=2100" in text:
                self.assertEqual(input_of(case) == b"", case.input == "nothing" or case.cut == 0)
        self.assertLessEqual({"find", "follow", "rate2", "list", "idle", "survey", "make"}, commands)

    def test_no_case_is_long(self) -> None:
        drawn = [Draft("one", items_of(random_case.random_case(seed))) for seed in range(50)]
        self.assertFalse(any(by_model.is_long(case) for case in drawn))


class Explain(unittest.TestCase):
    seconds = 10

    folder: ClassVar[str]
    path: ClassVar[str]

    @classmethod
    def setUpClass(cls) -> None:
        cls.folder = temporary_folder(cls.addClassCleanup)
        cls.path = os.path.join(cls.folder, "lesson.is95")
        with open(os.path.join(EXAMPLES, "lesson.script"), "rb") as file, open(cls.path, "wb") as made:
            made.write(run(["make"], file.read).text())

    def lines(self, *words: object, way: ToolRun = run_inside) -> list[str]:
        """Returns the lines that explain a frame."""
        status, out, err = way("explain", self.path, *words)
        self.assertEqual((status, err), (0, ""))
        lines = out.decode().splitlines()
        self.assertLessEqual(len(lines), 50)
        self.assertLessEqual(max(map(len, lines)), 80)
        return lines

    def test_a_sync_frame(self) -> None:
        """Sums of whole chips: 2,048 and 512 times the gains 100 and 40, times the link 2 + j."""
        text = "\n".join(self.lines("--sync", way=run_tool))
        self.assertIn("32 pilot sums, all 409600+204800j", text)
        self.assertRegex(text, r"symbol sums: (-40960-20480j|40960\+20480j) ")
        self.assertIn("7 bits: SOM=1 MSG_LENGTH=25 MSG_TYPE=1 prev=3 min=7:00 (7 of 8", text)

    def test_a_paging_frame(self) -> None:
        text = " ".join(" ".join(self.lines("--paging", 1)).split())
        self.assertIn("SCI=1 MSG_LENGTH=9 MSG_TYPE=4 pn=2 seq=0 freq=283 CHECK=", text)
        self.assertIn("a capsule of 9 octets ends here, and its check is right: a message", text)

    def test_a_traffic_frame(self) -> None:
        text = "\n".join(self.lines("--traffic", "0000abcd", 10))
        self.assertIn("primary=80:48454c4c4f2043444d41", text)
        self.assertIn("power control bits 0101010101010101", text)
        self.assertIn("=> good, at 4800 bits a second", text)

    def test_what_isnt_good(self) -> None:
        lines = self.lines("--traffic", "0000abcd", 11)
        self.assertIn("=> not good: no candidate's score is above 0 (step 5)", lines)

    def test_a_picture(self) -> None:
        needs("matplotlib")
        path = os.path.join(self.folder, "frame.png")
        self.lines("--traffic", "0000abcd", 10, "--picture", path)
        with open(path, "rb") as file:
            data = file.read()
        self.assertTrue(data.startswith(b"\x89PNG") and len(data) < 200_000)
        status, _, err = run_inside("explain", self.path, "--sync", "--picture", os.path.join(self.folder, "none", "x.png"))
        self.assertEqual(status, 1)
        self.assertIn("No such file or directory", err)
        self.assertEqual(sorted(os.listdir(self.folder)), ["frame.png", "lesson.is95"])

    def test_refusals(self) -> None:
        bad = os.path.join(self.folder, "bad.is95")
        self.addCleanup(os.unlink, bad)
        for data, fault in ((b"", "short at 0"), (sample_file([(0, 0)] * 9), "too few at 8")):
            with open(bad, "wb") as file:
                file.write(data)
            self.assertEqual(run_inside("explain", bad, "--sync")[::2], (1, f"explain: {bad}: bad file: {fault}\n"))
        with open(bad, "wb") as file:
            file.write(sample_file([(0, 0)] * 2_048))
        for words in ("--sync", "--paging 1", "--traffic 0000abcd 10"):
            status, out, err = run_inside("explain", bad, *words.split())
            self.assertEqual((status, out, err.count("\n")), (1, b"", 1))
        for words in ("", "--sync --paging 1", "--paging 8", "--traffic abcd 10", "--sync --frame -1",
                      "--sync --picture x.gif", "--traffic 0000abcd 64", "--sync --span 1"):  # fmt: skip
            self.assertEqual(run_inside("explain", bad, *words.split())[0], 2)
        self.assertEqual(run_inside("explain", "/nowhere", "--sync")[0], 1)
