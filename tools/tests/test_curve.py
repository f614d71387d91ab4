"""`tools/curve` as a program: counts that don't depend on workers, broken runs, each fault; and curves of the program.

Most of it runs over a stand-in for the program, `fake_receiver.py`, in which only the noise decides what is received.
"""

import csv
import gc
import json
import os
import re
import resource
import shutil
import signal
import sqlite3
import subprocess
import unittest
import xml.etree.ElementTree
from typing import Any

from tools.tests.cluster_helping import started, started_scheduler, started_worker, wait_for
from tools.tests.helping import (
    EXAMPLES, NO_PROGRAM, PROGRAM, PYTHON, ROOT, TOOLS, example, made_once, needs, run_inside, temporary_folder,
)  # fmt: skip

needs("numpy", "scipy", "matplotlib", "distributed")

import numpy  # noqa: E402

from cdma_tools.curves import levels, noise  # noqa: E402
from cdma_tools.scripts import read_script  # noqa: E402
from tools.tests import fake_receiver  # noqa: E402

CURVE = os.path.join(TOOLS, "curve")
FAKE = os.path.join(ROOT, "tools", "tests", "fake_receiver.py")
# A file of the stand-in has six frames; a run has 36 frames at each of two points, and so 12 batches.
SAMPLES = 200_000
FRAMES_A_FILE = 6
FRAMES = 36
BATCHES = 12
SECONDS = 240
ENDS = ("lost", "marked_bad", "bad_but_right", "other_rate", "wrong_but_good")


def rows_of(path: str) -> list[dict[str, str]]:
    """Returns the rows of a table."""
    with open(path, newline="", encoding="ascii") as file:
        return list(csv.DictReader(file))


class Curves(unittest.TestCase):
    def setUp(self) -> None:
        self.folder = temporary_folder(self.addCleanup)
        text = re.sub(r"samples=\d+", f"samples={SAMPLES}", example("frames_9600.script").decode())
        self.script = self.keep("it.script", text)
        self.fake = self.program("fake")

    def at(self, name: str) -> str:
        """Returns the path of a file in the test's folder."""
        return os.path.join(self.folder, name)

    def keep(self, name: str, text: str) -> str:
        """Writes a file into the test's folder, and returns its path."""
        with open(self.at(name), "w", encoding="ascii") as file:
            file.write(text)
        return self.at(name)

    def program(self, name: str, fault: str = "") -> str:
        """Returns a stand-in for the program, with a fault."""
        path = self.keep(
            name,
            f"#!/bin/sh\nFAKE_SCRIPT='{self.at('it.script')}' FAKE_FAULT='{fault}' exec {PYTHON} -S -B {FAKE} \"$@\"\n",
        )
        os.chmod(path, 0o755)
        return path

    def words(self, *more: str, frames: int = FRAMES, maker: str | None = None, out: str = "out") -> list[str]:
        """Returns a run's command: two points of the script in a separate folder, over the stand-in."""
        maker = maker or self.fake
        return [
            PYTHON, "-B", CURVE, self.script, "--from", "1", "--to", "1.5", "--step", "0.5",
            "--frames", str(frames), "--maker", maker, "--out", self.at(out),
            *(() if {"--workers", "--scheduler"} & set(more) else ("--workers", "1")), *more,
        ]  # fmt: skip

    def rows_of_one_worker(self) -> list[dict[str, str]]:
        """Returns the rows of a complete run by one worker, which is made once."""

        def make(path: str) -> None:
            self.assertEqual(self.ran(self.words(out="whole"))[0::2], (0, []))
            shutil.copyfile(self.at("whole/curve.csv"), path)

        return rows_of(made_once("curve_of_one_worker.csv", make))

    def ran(self, words: list[str], **more: Any) -> tuple[int, list[str], list[str]]:
        """Runs the tool, in a separate process if there are settings; returns its status and its lines on both
        outputs."""
        if not more:
            status, wrote, said = run_inside("curve", *words[words.index(CURVE) + 1 :])
            return status, wrote.decode().splitlines(), said.splitlines()
        ended = subprocess.run(words, capture_output=True, text=True, timeout=SECONDS, **more)
        return ended.returncode, ended.stdout.splitlines(), ended.stderr.splitlines()

    def refused(self, said: str, words: list[str], status: int = 1, **more: Any) -> None:
        """Asserts that a run ends with a status and one line that gives the reason."""
        code, _, lines = self.ran(words, **more)
        self.assertEqual(code, status, lines)
        self.assertRegex(lines[-1], said)
        if status == 1:
            self.assertEqual(len(lines), 1, lines)

    def rows(self, out: str = "out") -> list[dict[str, str]]:
        """Returns the rows of a run's table."""
        return rows_of(os.path.join(self.at(out), "curve.csv"))

    def batches(self, out: str = "out") -> int:
        """Returns how many batches are kept."""
        path = os.path.join(self.at(out), "counts.sqlite")
        if not os.path.exists(path):
            return 0
        base = sqlite3.connect(path)
        try:
            return int(base.execute("select count(*) from batches").fetchone()[0])
        except sqlite3.OperationalError:
            return 0
        finally:
            base.close()

    def begun(self, words: list[str], batches: int = 1) -> subprocess.Popen[str]:
        """Returns a run that has made its folder and counted some batches; its output is read later.

        It receives interrupts, even if the tests run under a shell that ignores them.
        """

        def heard() -> None:
            signal.signal(signal.SIGINT, signal.SIG_DFL)

        child = subprocess.Popen(words, stdout=subprocess.DEVNULL, stderr=subprocess.PIPE, text=True, preexec_fn=heard)
        assert child.stderr
        self.addCleanup(child.stderr.close)
        wait_for(lambda: self.batches() >= batches and os.path.exists(self.at("out")), child)
        return child

    def start(self, words: list[str]) -> subprocess.Popen[bytes]:
        """Starts a separate process, which ends with the test."""
        return started(words, self.addCleanup)


class Counts(Curves):
    seconds = 20

    def test_one_worker_and_three_count_the_same(self) -> None:
        code, table, lines = self.ran(self.words("--workers", "3"), cwd=self.folder)
        self.assertEqual((code, lines), (0, []))
        self.assertEqual(len(table), 5)
        self.assertEqual(self.rows(), self.rows_of_one_worker())
        self.assertEqual(sorted(os.listdir(self.at("out"))), ["counts.sqlite", "curve.csv", "curve.png"])
        with open(os.path.join(self.at("out"), "curve.png"), "rb") as file:
            self.assertEqual(file.read(8), b"\x89PNG\r\n\x1a\n")

    def test_each_frame_has_the_end_that_its_noise_gives_it(self) -> None:
        frames = [row for row in self.rows_of_one_worker() if row["channel"] == "frame 9600"]
        script = read_script(example("frames_9600.script").decode(), "it")
        channel = levels.channels_of(script, script.traffic[0])["frame 9600"]
        self.assertEqual([row["point_db"] for row in frames], ["1.0", "1.5"])
        for row, point in zip(frames, (1_000, 1_500)):
            sigma = levels.air_of(script, (), 0.0).sigma(channel, point / 1_000)
            kinds = [kind for batch in range(BATCHES // 2) for kind in self.kinds(point, sigma, batch)]
            self.assertEqual([int(row[end]) for end in ENDS], [kinds.count(kind) for kind in range(len(ENDS))])
            self.assertEqual(int(row["errors"]), sum(kind < len(ENDS) for kind in kinds))
            self.assertEqual((int(row["sent"]), len(kinds)), (FRAMES, FRAMES))
            self.assertAlmostEqual(float(row["share"]), int(row["errors"]) / FRAMES, places=5)

    def kinds(self, point: int, sigma: float, batch: int) -> list[int]:
        """Returns, from the noise itself, how the stand-in decodes each frame of a batch."""
        level = numpy.full(2 * SAMPLES, fake_receiver.LEVEL, dtype=numpy.int16)
        made = noise.noisy(level, sigma, noise.generator(1_995, point, batch)).astype(int) - fake_receiver.LEVEL
        chips = 2 * fake_receiver.FRAME
        sums = made[: SAMPLES // fake_receiver.FRAME * chips].reshape(-1, chips).sum(axis=1)
        return [int(total) % fake_receiver.KINDS for total in sums[fake_receiver.MARK :]]

    def test_another_seed_counts_otherwise(self) -> None:
        self.assertEqual(self.ran(self.words("--seed", "2"))[0], 0)
        ends = [[[row[end] for end in ENDS] for row in rows] for rows in (self.rows(), self.rows_of_one_worker())]
        self.assertNotEqual(*ends)

    def test_errors_end_a_point_behind_the_file_that_has_them(self) -> None:
        code, _, lines = self.ran(self.words("--errors", "1", frames=600))
        self.assertEqual((code, lines), (0, []))
        for row in self.rows():
            if row["channel"] == "frame 9600":
                self.assertGreaterEqual(int(row["errors"]), 1)
                self.assertLess(int(row["sent"]), 600)
                self.assertEqual(int(row["sent"]) % FRAMES_A_FILE, 0)

    def test_a_finished_run_is_told_again_and_a_longer_one_goes_on(self) -> None:
        self.assertEqual(self.ran(self.words(frames=12))[0], 0)
        rows = self.rows()
        kept = shutil.copy(os.path.join(self.at("out"), "curve.csv"), self.at("kept.csv"))
        self.assertEqual(self.ran(self.words("--against", kept, frames=12))[0], 0)
        self.assertEqual((self.rows(), self.batches()), (rows, 4))
        code, _, lines = self.ran(self.words("--against", kept))
        self.assertEqual((self.rows(), self.batches()), (self.rows_of_one_worker(), BATCHES))
        self.assertEqual((code, len(lines)), (1, 4))
        self.assertRegex(lines[0], r"frame 9600 at 1 dB, seed 1995: kept sent=12 .*counted sent=36 ")
        self.refused("has counts of another run .seed differ", self.words("--seed", "2"))

    def test_limits(self) -> None:
        """A limit equal to the interval's upper end is met, and so is 1; a limit of almost 0 is exceeded."""
        whole = self.rows_of_one_worker()
        errors = [int(row["errors"]) for row in whole if row["channel"] == "frame 9600"]
        highs = [float(row["high"]) for row in whole if row["channel"] == "frame 9600"]
        self.assertTrue(all(errors))
        kept = self.keep("limits.csv", f"point_db,share\n1,{highs[0]}\n1.5,1\n1.5,1e-9\n")
        results = self.at("results.xml")
        code, table, lines = self.ran(self.words("--limits", kept, "--junit", results))
        self.assertEqual((code, lines), (1, []))
        name = "fake follow, frame 9600 at"
        self.assertEqual(table[-3:-1], [f"{name} 1 dB: met", f"{name} 1.5 dB: met"])
        self.assertRegex(table[-1], r"frame 9600 at 1.5 dB: above the limit of 1e-09: \d+ of 36 in error, from ")
        suite = xml.etree.ElementTree.parse(results).getroot()[0]
        self.assertEqual([suite.get(name) for name in ("name", "tests", "failures")], ["curve", "3", "1"])
        own = shutil.copy(os.path.join(self.at("out"), "curve.csv"), self.at("own.csv"))
        code, said, _ = self.ran(self.words("--json", "--against", own))
        told = json.loads("\n".join(said))
        self.assertEqual((code, told["failed"], told["cases"][-1]["name"]), (0, 0, "against"))
        self.assertEqual([case["errors"] for case in told["cases"] if case.get("channel") == "frame 9600"], errors)
        self.refused("3 dB is not a point", self.words("--limits", self.keep("far.csv", "point_db,share\n3,1\n")))
        self.refused("channel 'x' is not counted", self.words("--limits", self.keep("x.csv", "point_db,channel,share\n1,x,1\n")))

    def test_another_receiver_stands_beside_ours(self) -> None:
        other = self.program("other")
        with open(other, "a", encoding="ascii") as file:
            file.write("# another program\n")
        more = ("--receiver", other, "--words", "follow", "--words", "list --k 2")
        self.assertEqual(self.ran(self.words(*more, frames=6))[0::2], (0, []))
        names = {row["receiver"] for row in self.rows()}
        self.assertEqual(names, {"fake follow", "other follow", "fake list --k 2", "other list --k 2"})


class Broken(Curves):
    parted, seconds = True, 15

    def test_a_killed_run_goes_on_where_it_was(self) -> None:
        slow = self.program("fake", "slow")
        child = self.start(self.words("--workers", "2", maker=slow))
        wait_for(lambda: self.batches() >= 3, child)
        child.send_signal(signal.SIGKILL)
        child.wait()
        self.assertLess(self.batches(), BATCHES)
        self.assertEqual(self.ran(self.words(maker=slow))[0::2], (0, []))
        self.assertEqual((self.rows(), self.batches()), (self.rows_of_one_worker(), BATCHES))

    def test_an_interrupted_run_says_so(self) -> None:
        slow = self.program("fake", "slow")
        words = self.words(frames=600, maker=slow)
        child = self.begun(words)
        child.send_signal(signal.SIGINT)
        _, said = child.communicate(timeout=SECONDS)
        self.assertEqual(said, "curve: broken off; the same command continues from what was counted\n")
        self.assertEqual(child.returncode, 130)

    def test_an_interrupted_run_that_has_counted_nothing(self) -> None:
        """A receiver with noise, whose run has begun and doesn't end, has counted nothing."""
        child = self.begun(self.words(maker=self.program("fake", "hang")), batches=0)
        child.send_signal(signal.SIGINT)
        _, said = child.communicate(timeout=SECONDS)
        self.assertEqual((child.returncode, said), (130, "curve: broken off\n"))

    def test_a_disk_that_is_full_keeps_what_was_counted(self) -> None:
        """A limit on file sizes acts as a full disk: SQLite's log has 24 pages, 11 of them without a batch, and needs
        four for each batch."""
        limit = 24 * 4_096

        def limited() -> None:
            signal.signal(signal.SIGXFSZ, signal.SIG_IGN)
            resource.setrlimit(resource.RLIMIT_FSIZE, (limit, limit))

        words = self.words("--errors", "6000", frames=6_000)
        self.refused("counts.sqlite: (disk I/O error|database or disk is full)", words, preexec_fn=limited)
        self.assertGreater(self.batches(), 0)
        self.assertFalse(os.path.exists(os.path.join(self.at("out"), "curve.csv")))


class Cluster(Curves):
    parted, seconds = True, 15

    def scheduler(self) -> tuple[subprocess.Popen[bytes], str]:
        """Starts a scheduler on this machine, and returns its address."""
        return started_scheduler(self.folder, self.addCleanup)

    def worker(self, address: str) -> subprocess.Popen[bytes]:
        """Starts a worker on this machine."""
        return started_worker(address, self.folder, self.addCleanup)

    def test_a_worker_that_dies_loses_nothing_and_counts_nothing_twice(self) -> None:
        slow = self.program("fake", "slow")
        _, address = self.scheduler()
        first, second = self.worker(address), self.worker(address)
        child = self.start(self.words("--scheduler", address, maker=slow))
        wait_for(lambda: self.batches() >= 2, child)
        first.send_signal(signal.SIGKILL)
        self.assertEqual(child.wait(timeout=SECONDS), 0)
        self.assertIsNone(second.poll())
        self.assertEqual((self.rows(), self.batches()), (self.rows_of_one_worker(), BATCHES))

    def test_a_scheduler_that_is_not_there(self) -> None:
        # A client that found no scheduler closes when it is collected. If that happens while another client starts in
        # this process, each of the two waits for the other.
        self.addCleanup(gc.collect)
        self.refused("no scheduler at tcp://127.0.0.1:9", self.words("--scheduler", "tcp://127.0.0.1:9"))
        self.refused("no scheduler at nonsense", self.words("--scheduler", "nonsense"))

    def test_a_scheduler_that_dies(self) -> None:
        slow = self.program("fake", "slow")
        scheduler, address = self.scheduler()
        self.worker(address)
        words = self.words("--scheduler", address, frames=600, maker=slow)
        child = self.begun(words)
        scheduler.send_signal(signal.SIGKILL)
        _, said = child.communicate(timeout=SECONDS)
        self.assertEqual((child.returncode, said), (1, "curve: the scheduler ended, or cancelled the run\n"))
        self.assertGreater(self.batches(), 0)


class Faults(Curves):
    def test_receivers_that_fail(self) -> None:
        for fault, said in (
            ("status 5", "curve: .*/bad follow --esn 0000abcd --row 10 --offset 0 ended with 5"),
            ("silent", "ended with 0, but wrote no lines"),
            ("garbage", "line 1 is not one of docs/FORMATS.md: at: 'x' is not a number"),
        ):
            with self.subTest(fault):
                bad = self.program("bad", fault)
                self.refused(said, self.words("--receiver", bad, out=fault.split()[0]))

    def test_a_receiver_that_does_not_end(self) -> None:
        bad = self.program("bad", "hang")
        self.refused("it didn't end within 3 seconds", self.words("--receiver", bad, "--minutes", "0.05"))

    def test_a_receiver_that_hears_no_sync_message_loses_all(self) -> None:
        bad = self.program("bad", "status 1")
        self.assertEqual(self.ran(self.words("--receiver", bad, frames=6))[0], 0)
        lost = [row for row in self.rows() if row["receiver"] == "bad follow"]
        self.assertEqual([(row["lost"], row["share"]) for row in lost if row["sent"] == "6"], 2 * [("6", "1.0")])

    def test_what_is_kept_when_a_receiver_fails_in_mid_run(self) -> None:
        flag = self.at("flag")
        bad = self.keep("bad", f"#!/bin/sh\n[ -e '{flag}' ] && exit 5\nexec '{self.fake}' \"$@\"\n")
        os.chmod(bad, 0o755)
        words = self.words("--receiver", bad, frames=600)
        child = self.start(words)
        wait_for(lambda: self.batches() >= 2, child)
        open(flag, "w", encoding="ascii").close()
        self.assertEqual(child.wait(timeout=SECONDS), 1)
        self.assertGreaterEqual(self.batches(), 2)

    def test_programs_that_are_not_there(self) -> None:
        self.refused("no program at .*/missing", self.words(maker=self.at("missing")))
        self.refused("no program at .*/it.script", self.words("--receiver", self.script))

    def test_scripts_that_name_no_channel(self) -> None:
        self.script = os.path.join(EXAMPLES, "second_of_sync.script")
        self.refused("second_of_sync.script: no traffic channel", self.words())
        self.script = self.at("missing.script")
        self.refused("missing.script: No such file", self.words())

    def test_levels_that_samples_cannot_hold(self) -> None:
        with open(self.script, encoding="ascii") as file:
            self.script = self.keep("loud.script", file.read().replace("gain=34", "gain=3000"))
        self.refused("exceeds the range of samples", self.words())

    def test_wrong_words(self) -> None:
        for more in (
            ("--frames", "0"), ("--seed", "-1"), ("--path", "0:1"), ("--path", "7"), ("--minutes", "0"),
            ("--from", "nan"), ("--unknown",),
        ):  # fmt: skip
            with self.subTest(more):
                self.refused("curve: ", self.words(*more), status=2)
        self.refused("--to is below --from", self.words("--from", "3"))
        self.refused("needs follow or list", self.words("--words", "rate2"))


@unittest.skipUnless(PROGRAM, NO_PROGRAM)
class OfTheProgram(Curves):
    parted, seconds = True, 15

    def measured(
        self, script: str, *more: str, begin: float, end: float | None = None, frames: int = 700, out: str = "out"
    ) -> list[dict[str, str]]:
        """Returns the rows of a run of the program over an example."""
        assert PROGRAM is not None
        words = [
            PYTHON, "-B", CURVE, os.path.join(EXAMPLES, script), "--workers", "1", "--from", str(begin),
            "--to", str(begin if end is None else end), "--step", "1", "--frames", str(frames), "--errors", "1000",
            "--maker", PROGRAM, "--out", self.at(out), *more,
        ]  # fmt: skip
        code, _, lines = self.ran(words)
        self.assertEqual((code, lines), (0, []))
        return self.rows(out)

    def test_a_list_saves_frames_of_the_same_noise(self) -> None:
        rows = self.measured("frames_9600.script", "--words", "follow", "--words", "list --k 4", begin=2)
        found = {row["receiver"].split(" ", 1)[1]: int(row["errors"]) for row in rows if row["channel"] == "frame 9600"}
        self.assertLess(found["list --k 4"], found["follow"])
        self.assertGreater(found["list --k 4"], 0)

    def test_frames_of_rate_set_2_and_few_lost_where_noise_is_weak(self) -> None:
        """If power control bits replace symbols next to dropped ones, few are left to tell two words apart, so the
        bound falls slowly.

        At 9 dB it is 3 in 10,000, and of some hundred frames one may be lost.
        """
        row, = self.measured("frames_14400.script", begin=9, frames=300)
        self.assertEqual(row["channel"], "frame2 14400")
        self.assertLessEqual(int(row["errors"]), 2)

    def test_messages_are_lost_in_strong_noise(self) -> None:
        rows = {row["channel"]: row for row in self.measured("frames_1200.script", begin=-10, frames=300)}
        self.assertGreater(int(rows["paging"]["errors"]), 0)
        self.assertGreater(int(rows["sync"]["sent"]), 0)
        self.assertEqual(rows["paging"]["errors"], rows["paging"]["lost"])

    def test_a_second_finger_hears_the_second_path(self) -> None:
        rows = self.measured(
            "frames_9600.script", "--path", "7:1j", "--words", "follow", "--words", "follow --fingers 2", begin=5
        )
        found = {row["receiver"].split(" ", 1)[1]: int(row["errors"]) for row in rows if row["channel"] == "frame 9600"}
        self.assertLess(10 * found["follow --fingers 2"], found["follow"])


if __name__ == "__main__":
    unittest.main()
