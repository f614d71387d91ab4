"""The owner of each rule, the rules on which each case rests, and what `conformance/run --standard` runs and compares.
"""

from __future__ import annotations

import contextlib
import io
import os
import re
import unittest

from cdma_tools.commands import status_of
from cdma_tools.conformance import cases, standard
from cdma_tools.conformance.rules import RULES, Source, rules_of, table_rows
from tools.tests.helping import NO_PROGRAM, PROGRAM, ROOT, needs, temporary_folder

needs("numpy")

SYNC = "sync at={} prev=3 min=1 sid=1"
LIST = "paging at={} channels pn=4 seq={} freqs=283 rest=0:"
BITS = "172:7021f5d3d07bbeef9f55fa34a33cc74e32ae83629860"
OTHER = "80:bb6c466d9f45c239658a"
ZEROS = "16:0000"


class Table(unittest.TestCase):
    """The table of rules is docs/LINK.md's, and each case names the rules on which it rests."""

    def setUp(self) -> None:
        with open(os.path.join(ROOT, "docs", "LINK.md"), encoding="utf-8") as file:
            self.text = file.read()

    def test_each_section_is_a_rule_and_has_its_mark(self) -> None:
        headings = re.findall(r"(?m)^## (.*)$", self.text)
        self.assertEqual(headings[0], "Which rules are the standard's")
        self.assertEqual(headings[1:], [f"{rule.heading} ({rule.mark})" for rule in RULES])

    def test_the_table_there(self) -> None:
        self.assertIn("\n\n" + "\n".join(table_rows()) + "\n\n", self.text)

    def test_marks_and_sources_agree(self) -> None:
        self.assertEqual(len({rule.name for rule in RULES}), len(RULES))
        for rule in RULES:
            with self.subTest(rule.name):
                self.assertEqual("own" in rule.mark, rule.source is Source.OWN)
                self.assertTrue(rule.own or rule.source is Source.STANDARD)

    def test_each_case_names_its_rules(self) -> None:
        used = set()
        for name in cases.names_of_cases():
            with self.subTest(name):
                case = cases.Case(name)
                self.assertEqual(case.rules, rules_of(case, case.status, case.text or []))
                used |= set(case.rules)
        self.assertEqual(used - {"formats"}, {rule.name for rule in RULES} - {"workers"})


class Distinct(unittest.TestCase):
    """Frames to which no codeword of another rate comes near."""

    def test_bits_without_a_pattern_are(self) -> None:
        for speed, bits in ((9_600, BITS), (4_800, OTHER), (2_400, "40:0a59e4b440"), (1_200, "16:d87d")):
            with self.subTest(speed):
                self.assertTrue(standard.is_distinct(speed, bits))

    def test_zeros_of_the_rates_without_quality_bits_are_not(self) -> None:
        """A frame of zeros without quality bits has symbols 0 at every rate."""
        self.assertFalse(standard.is_distinct(1_200, ZEROS))
        self.assertFalse(standard.is_distinct(2_400, "40:0000000000"))

    def test_what_is_no_frame_is_not(self) -> None:
        self.assertFalse(standard.is_distinct(9_600, OTHER))
        self.assertFalse(standard.is_distinct(14_400, BITS))


class Compared(unittest.TestCase):
    """Receivers that are shell scripts, over a case of the standard."""

    def setUp(self) -> None:
        self.folder = temporary_folder(self.addCleanup)
        self.addCleanup(setattr, cases, "CASES", cases.CASES)
        cases.CASES = self.folder
        self.lines = [
            "pilot phase=64 energy=100",
            SYNC.format(100),
            LIST.format(200, 1),
            f"frame at=300 rate=9600 good=1 bits={BITS} commands=0101010101010101",
            LIST.format(300, 2),
            f"frame at=400 rate=1200 good=1 bits={ZEROS} commands=0101010101010101",
            f"frame at=500 rate=4800 good=1 bits={OTHER} commands=0101010101010101",
        ]

    def case(self, *more: str, words: str = "follow", text: list[str] | None = None, checks: int = 0) -> cases.Case:
        """Writes a case of a cell that sends three frames."""
        frames = [f"9600 {BITS}", f"1200 {ZEROS}", f"4800 {OTHER}"]
        script = [f"cell pn=4 checks={checks}", "link re=0 im=1"]
        script += [f"frame {frame} 0101010101010101" for frame in frames]
        head = ["purpose: one", f"words: {words}", "status: 0", "bits: 16", "sha256: 00", *more]
        blocks = ["script:", *("  " + line for line in script), "text:"]
        with open(os.path.join(self.folder, "one.case"), "w", encoding="ascii") as file:
            file.write("".join(line + "\n" for line in [*head, *blocks, *("  " + line for line in text or self.lines)]))
        return cases.Case("one")

    def said(self, lines: list[str], status: int = 0) -> list[str]:
        """Returns what differs if a receiver writes these lines."""
        wrote = "".join(line + "\n" for line in lines).encode("ascii")
        return standard.differences(self.case(), cases.Answer(status, wrote, b"chatter\n", 0))

    def test_what_may_differ(self) -> None:
        moved = [re.sub(r" at=(\d+)", lambda at: f" at={int(at[1]) + 7}", line) for line in self.lines[1:]]
        self.assertEqual(self.said(self.lines), [])
        self.assertEqual(self.said([line.replace("commands=01", "commands=10") for line in moved]), [])
        sooner, later = LIST.format(9, 9), SYNC.format(900) + " more"
        more = [later, "sets at=1", f"frame at=9 rate=9600 good=1 bits={BITS} "]
        self.assertEqual(self.said([sooner, *moved, *more]), [])
        other_rate = self.lines[5].replace("rate=1200", "rate=2400").replace(ZEROS, "40:0000000000")
        self.assertEqual(self.said([*self.lines[:5], other_rate, self.lines[6]]), [])
        frames_last = [line for line in self.lines if not line.startswith("frame")] + [
            line for line in self.lines if line.startswith("frame")
        ]
        self.assertEqual(self.said(frames_last), [])

    def test_what_may_not(self) -> None:
        for place, old, new in (
            (1, "sid=1", "sid=2"),
            (2, "seq=1", "seq=3"),
            (3, "rate=9600", "rate=4800"),
            (3, "bits=172:7", "bits=172:6"),
            (6, "good=1", "good=0"),
        ):
            with self.subTest(old):
                lines = [*self.lines]
                lines[place] = lines[place].replace(old, new)
                self.assertEqual(len(self.said(lines)), 1)
        for place in range(1, 7):
            with self.subTest(place):
                self.assertEqual(len(self.said(self.lines[:place] + self.lines[place + 1 :])), 1)
        between = [*self.lines[:3], LIST.format(250, 9), *self.lines[3:]]
        self.assertEqual(
            self.said(between),
            [f"paging line 2 of 2 wanted, and not written in this order: {LIST.replace(' at={}', '').format(2)}"],
        )
        self.assertEqual(self.said(self.lines, status=5), ["status 5, wanted 0"])

    def test_which_cases_are_asked(self) -> None:
        self.assertEqual(standard.reason(self.case()), "")
        self.assertEqual(standard.reason(self.case("noise: 1 5", "near: 5")), "")
        for case, why in (
            (lambda: self.case("noise: 1 5"), "aren't one cell's only"),
            (lambda: self.case("cut: 100"), "aren't one cell's only"),
            (lambda: self.case(words="idle --key 00000000"), "its command is this project's own"),
            (lambda: self.case(checks=3), "checks are complemented"),
            (lambda: self.case(text=["traffic at=5 seq=1 handoff 1", *self.lines]), "handoff"),
            (lambda: self.case(text=self.lines[:1]), "no line of it"),
            (lambda: self.case(text=[self.lines[0], self.lines[5]]), "no line of it"),
        ):
            with self.subTest(why):
                self.assertIn(why, standard.reason(case()))

    def test_the_real_ones(self) -> None:
        """Most of the cases of follow are run, among them each with noise within the margins in which a channel is
        received."""
        cases.CASES = os.path.join(ROOT, "conformance", "cases")
        asked = [name for name in cases.names_of_cases() if not standard.reason(cases.Case(name))]
        self.assertGreaterEqual(len(asked), 50)
        self.assertLessEqual({"noise_uniform", "noise_second_cell", "traffic_9600", "second_of_sync"}, set(asked))
        self.assertFalse({"find_pilot", "rate2_strong_noise", "idle_slots", "traffic_noise"} & set(asked))


@unittest.skipUnless(PROGRAM, NO_PROGRAM)
class OfTheProgram(unittest.TestCase):
    """The program, and one with other places and no pilot: right by the standard, not by the cases."""

    def test_places_are_not_asked_for(self) -> None:
        path = os.path.join(temporary_folder(self.addCleanup), "receiver")
        with open(path, "w", encoding="ascii") as file:
            file.write(f"#!/bin/sh\n'{PROGRAM}' \"$@\" | sed -E '/^pilot/d; s/ at=/ at=1/'\n")
        os.chmod(path, 0o700)
        words = ["--maker", str(PROGRAM), "--only", "second_of_sync", "--only", "traffic_4800", path]
        for more, status, end in (("--standard", 0, "2 cases, 0 differ\n"), ("", 1, "2 cases, 2 differ\n")):
            out = io.StringIO()
            with contextlib.redirect_stdout(out):
                self.assertEqual(status_of("conformance", [*more.split(), *words]), status, out.getvalue())
            self.assertTrue(out.getvalue().endswith(end), out.getvalue())


if __name__ == "__main__":
    unittest.main()
