"""Results for machines, limits of curves, and receivers that hang, die, write something other than text or write
without end."""

from __future__ import annotations

import argparse
import contextlib
import dataclasses
import io
import json
import os
import signal
import subprocess
import time
import unittest
from xml.etree import ElementTree

from cdma_tools.commands import status_of
from cdma_tools.conformance import cases
from cdma_tools.curves import limits
from cdma_tools.curves.report import Row
from cdma_tools.errors import Refused, WrongArguments
from cdma_tools.receiver_run import Ran, ended_text, run_receiver, time_text
from cdma_tools.results import Result, Results, Verdict, add_result_options
from tools.tests.helping import is_gone, temporary_folder

ROW = Row(
    "rx follow", "frame 9600", 2.0, 2.001, 300.0, 1, 1_000, 20, 20, 0, 0, 0, 0, 0, 0.02, 0.013, 0.0307, 0.01, "white"
)  # fmt: skip
HOSTILE = "a <case> & \x1b[31m # \\ \x00"


def options(*words: str) -> argparse.Namespace:
    """Returns the options for results."""
    parser = argparse.ArgumentParser()
    add_result_options(parser)
    return parser.parse_args(words)


class Forms(unittest.TestCase):
    """The three forms, over one case of each verdict, with letters that the forms must escape."""

    def setUp(self) -> None:
        self.path = os.path.join(temporary_folder(self.addCleanup), "results.xml")

    def written(self, *words: str) -> str:
        """Returns what becomes of three results."""
        out = io.StringIO()
        with contextlib.redirect_stdout(out):
            results = Results("suite", options(*words), 3)
            results.take(Result("good", "passes", 0.25, figures={"sent": 7}))
            results.take(Result("bad", HOSTILE, 1.0, ("line 1 \x07", "line 2 <&>")), "bad: text\n")
            results.take(Result("left", "isn't tried", left_out="no maker"))
            self.assertEqual(results.end("3 cases\n"), 1)
        return out.getvalue()

    def test_text(self) -> None:
        self.assertEqual(self.written(), "bad: text\n3 cases\n")

    def test_tap(self) -> None:
        self.assertEqual(
            self.written("--tap").splitlines(),
            [
                "TAP version 13",
                "1..3",
                "ok 1 - good: passes",
                "not ok 2 - bad: a <case> & \\\\x1b[31m \\# \\\\ \\\\x00",
                "# line 1 \\x07",
                "# line 2 <&>",
                "ok 3 - left: isn't tried # SKIP no maker",
            ],
        )

    def test_json(self) -> None:
        told = json.loads(self.written("--json"))
        self.assertEqual([told[key] for key in ("suite", "passed", "failed", "left_out")], ["suite", 1, 1, 1])
        self.assertEqual([case["verdict"] for case in told["cases"]], ["passed", "failed", "left out"])
        self.assertEqual((told["cases"][0]["sent"], told["cases"][0]["seconds"]), (7, 0.25))
        self.assertEqual(told["cases"][1]["said"], ["line 1 \\x07", "line 2 <&>"])
        self.assertEqual(told["cases"][2]["why"], "no maker")

    def test_junit(self) -> None:
        self.assertEqual(self.written("--junit", self.path), "bad: text\n3 cases\n")
        suite = ElementTree.parse(self.path).getroot()[0]
        self.assertEqual([suite.get(name) for name in ("tests", "failures", "skipped")], ["3", "1", "1"])
        good, bad, left = suite.findall("testcase")
        self.assertEqual((good.find("failure"), good.find("skipped")), (None, None))
        failure = bad.find("failure")
        assert failure is not None
        self.assertEqual((failure.get("message"), failure.text), ("line 1 \\x07", "line 1 \\x07\nline 2 <&>"))
        purpose = bad.find("properties/property")
        assert purpose is not None
        self.assertEqual(purpose.get("value"), "a <case> & \\x1b[31m # \\ \\x00")
        skipped = left.find("skipped")
        assert skipped is not None
        self.assertEqual(skipped.get("message"), "no maker")

    def test_refusals(self) -> None:
        for place, why in (("-", "needs a file"), ("/none/at/all.xml", "its folder doesn't exist")):
            with self.assertRaisesRegex(WrongArguments, why):
                Results("suite", options("--junit", place), 0)
        with contextlib.redirect_stderr(io.StringIO()), self.assertRaises(SystemExit) as end:
            options("--tap", "--json")
        self.assertEqual(end.exception.code, 2)


class Runs(unittest.TestCase):
    """A receiver that is a shell command, run within limits of time and length."""

    def ran(self, line: str, seconds: float = 20, most: int = 1_000) -> Ran:
        """A run."""
        return run_receiver(["/bin/sh", "-c", line], subprocess.DEVNULL, seconds, most, is_group=True)

    def test_one_that_ends(self) -> None:
        self.assertEqual(self.ran("echo out; echo told >&2; exit 3"), Ran(3, b"out\n", b"told\n"))

    def test_one_that_hangs_leaves_nothing(self) -> None:
        began = time.monotonic()
        ran = self.ran("echo $$; sleep 50 & sleep 50", seconds=0.5)
        self.assertEqual(ran.fault, "it didn't end within 0.5 seconds")
        self.assertLess(time.monotonic() - began, 10)
        self.assertTrue(is_gone(int(ran.wrote)), "a process is left")

    def test_one_whose_output_is_held(self) -> None:
        ran = self.ran("sleep 50 & echo $$", seconds=0.5)
        self.assertEqual(ran.fault, "it ended, but a process that it began held its output longer than 0.5 seconds")
        self.assertTrue(is_gone(int(ran.wrote)), "a process is left")

    def test_one_that_closes_its_outputs_and_hangs(self) -> None:
        self.assertEqual(self.ran("exec >&- 2>&-; sleep 50", seconds=0.5).fault, "it didn't end within 0.5 seconds")

    def test_one_that_writes_without_end(self) -> None:
        self.assertEqual(self.ran("yes").fault, "it wrote more than 1,000 bytes on standard output, and was stopped")
        self.assertEqual(
            self.ran("yes >&2").fault, "it wrote more than 1,048,576 bytes on standard error, and was stopped"
        )
        self.assertEqual(self.ran("head -c 1000 /dev/zero").fault, "")

    def test_one_that_dies(self) -> None:
        self.assertEqual(self.ran("kill -SEGV $$").status, -signal.SIGSEGV)
        self.assertEqual(ended_text(-signal.SIGSEGV), "ended by SIGSEGV")
        self.assertEqual(ended_text(-(signal.SIGRTMIN + 5)), f"ended by signal {signal.SIGRTMIN + 5}")
        self.assertEqual(ended_text(7), "status 7")

    def test_one_that_is_not_there(self) -> None:
        with self.assertRaisesRegex(Refused, "No such file"):
            run_receiver(["/none/at/all"], subprocess.DEVNULL, 1)

    def test_times_in_words(self) -> None:
        self.assertEqual([time_text(time) for time in (3, 60, 300)], ["3 seconds", "1 minute", "5 minutes"])


class BadReceivers(unittest.TestCase):
    """Cases in a separate folder, each of which a receiver fails in another way; it passes the last one."""

    def setUp(self) -> None:
        self.folder = temporary_folder(self.addCleanup)
        self.addCleanup(setattr, cases, "CASES", cases.CASES)
        cases.CASES = self.folder
        for name in ("1_dies", "2_no_text", "3_endless", "4_many_lines", "5_real_time_signal", "6_good"):
            lines = f"purpose: it {name[2:]}\nwords: {name[2:]}\nstatus: 0\nfile:\n  00\ntext:\n  said\n"
            self.keep(name + ".case", lines)
        self.receiver = self.keep(
            "receiver",
            "#!/bin/sh\ncase $1 in dies) kill -9 $$;; no_text) printf 'said\\n\\377\\033[2J\\n';; endless) yes;;\n"
            f"many_lines) yes | head -n 3000000;; real_time_signal) kill -{signal.SIGRTMIN + 3} $$; sleep 9;;\n"
            "*) echo said;; esac\n",
        )
        os.chmod(self.receiver, 0o700)

    def keep(self, name: str, text: str) -> str:
        """A file."""
        path = os.path.join(self.folder, name)
        with open(path, "w", encoding="ascii") as file:
            file.write(text)
        return path

    def asked(self, *words: str) -> tuple[int, str]:
        """Returns the status of a run over the cases, and its output."""
        out = io.StringIO()
        with contextlib.redirect_stdout(out):
            status = status_of("conformance", [*words, self.receiver])
        return status, out.getvalue()

    def test_each_says_which_and_the_rest_go_on(self) -> None:
        status, said = self.asked()
        self.assertEqual(status, 1)
        for line in (
            "ended by SIGKILL, wanted 0",
            "byte 5, on line 2, is 0xff, which isn't ASCII text",
            "line 2 written: \\xff\\x1b[2J",
            f"it wrote more than {(1 << 26) + 5:,} bytes on standard output, and was stopped",
            ".. and 2999998 more",
            f"ended by signal {signal.SIGRTMIN + 3}, wanted 0",
        ):
            self.assertIn(f"    {line}\n", said)
        self.assertTrue(said.endswith("6 cases, 5 differ\n"))
        self.assertNotIn("6_good", said)

    def test_results_for_machines(self) -> None:
        status, said = self.asked("--tap", "--only", "1_dies", "--only", "6_good")
        self.assertEqual((status, said.splitlines()[1:3]), (1, ["1..2", "not ok 1 - 1_dies: it dies"]))
        path = os.path.join(self.folder, "results.xml")
        status, said = self.asked("--json", "--junit", path, "--only", "6_good")
        self.assertEqual((status, json.loads(said)["passed"]), (0, 1))
        self.assertEqual(len(ElementTree.parse(path).getroot().findall("testsuite/testcase")), 1)


class Limits(unittest.TestCase):
    """Which rows meet a limit, by the ends of their interval, and files of limits."""

    def setUp(self) -> None:
        self.path = os.path.join(temporary_folder(self.addCleanup), "limits.csv")

    def read(self, text: str) -> list[limits.Limit]:
        """Returns the limits in a file of this text, at points of 1 and 2 dB."""
        with open(self.path, "w", encoding="utf-8") as file:
            file.write(text)
        return limits.read_limits(self.path, [1_000, 2_000])

    def test_a_row_passes_where_its_interval_is_below(self) -> None:
        self.assertEqual(limits.failure_of(ROW, limits.Limit(2_000, "", 0.0307)), "")
        for share, why in ((0.03, "^too few frames .* of 0.03: 20 of 1000"), (0.01, "^above the limit of 0.01: ")):
            self.assertRegex(limits.failure_of(ROW, limits.Limit(2_000, "", share)), why)

    def test_whose_limit_it_is(self) -> None:
        other = dataclasses.replace(ROW, receiver="ours")
        sync = dataclasses.replace(ROW, channel="sync")
        rows = [ROW, other, sync, dataclasses.replace(ROW, point_db=1.0)]
        found = limits.results_of(rows, self.read("point_db,share\n2,0.5\n"))
        names = [f"{name}, frame 9600 at 2 dB" for name in ("rx follow", "ours")]
        self.assertEqual([result.name for result in found], names)
        self.assertEqual([result.verdict() for result in found], [Verdict.PASSED] * 2)
        found = limits.results_of(rows, self.read("point_db,channel,share\n2.000,sync,0.001\n"))
        verdicts = [(result.name, result.verdict()) for result in found]
        self.assertEqual(verdicts, [("rx follow, sync at 2 dB", Verdict.FAILED)])
        self.assertEqual(found[0].figures["limit"], 0.001)
        self.assertEqual(len(limits.results_of(rows, None)), 4)

    def test_files_that_are_none(self) -> None:
        head = "point_db,share\n"
        for text, why in (
            ("", "the first line is neither"),
            ("ebnt,share\n2,0.5\n", "the first line is neither point_db,share nor point_db,channel,share"),
            (head, "it has no limits"),
            (head + "2\n", "limit 1: it has another number of fields"),
            (head + "2,0.1,3\n", "limit 1: it has another number of fields"),
            (head + "x,0.1\n", "limit 1: its point or its share is not a number"),
            (head + "inf,0.1\n", "limit 1: its point or its share is not a number"),
            (head + "2,0.1\n2,nan\n", "limit 2: its share isn't above 0"),
            (head + "2,0\n", "limit 1: its share isn't above 0"),
            (head + "2,1.01\n", "limit 1: its share isn't above 0"),
            (head + "2.0001,0.1\n", "limit 1: its point has more than three decimal places"),
            (head + "3,0.1\n", "limit 1: 3 dB is not a point of --from, --to and --step"),
            (head + "\u00e9,0.1\n", "isn't ASCII text"),
        ):
            with self.subTest(why, text=text), self.assertRaisesRegex(Refused, why):
                self.read(text)
        with self.assertRaisesRegex(Refused, "No such file"):
            limits.read_limits(self.path + ".none", [])
        with self.assertRaisesRegex(Refused, "channel 'frame 4800' is not counted, only frame 9600"):
            limits.check_channels([limits.Limit(0, "frame 4800", 1.0)], ["frame 9600"], self.path)


if __name__ == "__main__":
    unittest.main()
