"""One search policy: every tool that searches for a pilot searches near first, then further away, in both spectra."""

import argparse
import os
import unittest
from typing import Any
from unittest import mock

from tools.tests.helping import NO_PROGRAM, PROGRAM, needs

needs("numpy", "scipy")

from cdma_tools.listening.searching import SearchTurns  # noqa: E402
from cdma_tools.listening.stream_lock import LockOptions, StreamLock  # noqa: E402
from cdma_tools.radio import search_policy  # noqa: E402
from cdma_tools.radio.search_policy import SearchPolicy, Step  # noqa: E402
from tools.tests.radio_helping import Recordings, run_main  # noqa: E402

BOTH = (False, True)


class Policy(unittest.TestCase):
    def test_near_then_88_kilohertz_in_both_spectra(self) -> None:
        policy = SearchPolicy()
        self.assertEqual(policy.steps(), [Step(21_000, 0, BOTH), Step(88_000, 21_000, BOTH)])
        self.assertEqual(
            policy.steps_apart(), [Step(21_000, 0, (False,)), Step(21_000, 0, (True,)), Step(88_000, 21_000, BOTH)]
        )
        near, *bands = policy.steps_in_bands()
        self.assertEqual([near.span, *(band.span for band in bands)][:-1], [band.beyond for band in bands])
        self.assertEqual(bands[-1].span, 88_000)

    def test_options_replace_it(self) -> None:
        words = argparse.ArgumentParser()
        search_policy.add_search_options(words)
        cases: list[tuple[list[str], list[Step]]] = [
            ([], SearchPolicy().steps()),
            (["--search", "4000"], [Step(4_000, 0, BOTH)]),
            (["--conjugate", "yes"], [Step(21_000, 0, (True,)), Step(88_000, 21_000, (True,))]),
            (["--search", "9e4", "--conjugate", "no"], [Step(90_000, 0, (False,))]),
        ]
        for given, steps in cases:
            self.assertEqual(search_policy.policy_of(words.parse_args(given)).steps(), steps)

    def test_a_refusal_names_what_was_searched_and_what_widens_it(self) -> None:
        self.assertEqual(SearchPolicy().searched(), "within 88,000 Hz of the middle in both spectra")
        self.assertEqual(SearchPolicy(4_000, "no").searched(200), "within 4,000 Hz of 200 Hz in the spectrum as it is")
        self.assertEqual(SearchPolicy().advice, "; give --search HZ for a wider span")
        self.assertEqual(
            SearchPolicy(9e4, "no").advice,
            "; give --search HZ for a wider span, --conjugate try for the other spectrum too",
        )
        self.assertEqual(SearchPolicy(614_400).advice, "")

    def test_turns_of_a_stream(self) -> None:
        near, *bands = SearchPolicy().steps_in_bands()
        turns = SearchTurns(SearchPolicy())
        self.assertEqual(turns.next(), SearchPolicy().steps())
        self.assertEqual([turns.next() for _ in range(5)], [[near], [near, bands[0]], [near], [near, bands[1]], [near]])
        turns.heard()
        self.assertEqual([turns.next() for _ in range(3)], 3 * [[Step(21_000, 0, (False,))]])
        alone = SearchTurns(SearchPolicy(4_000))
        self.assertEqual([alone.next() for _ in range(2)], 2 * [[Step(4_000, 0, BOTH)]])


class Tools(Recordings):
    """A carrier outside the near step, in an inverted spectrum.

    The two spans are 1 and 6 kHz here and the carrier is at 5 kHz, so that noise takes less than a minute. EVERY_SPAN=1
    takes the real spans and 50 kHz, the offset of an RTL-SDR with a clock error of 57 millionths at 880 MHz.
    """

    CHIPS, CARRIER = 420_000, 5_000.0
    seconds = 20

    def setUp(self) -> None:
        if os.environ.get("EVERY_SPAN"):
            self.CARRIER = 50_000.0
        else:
            spans = mock.patch.multiple(search_policy, SPAN=1_000.0, WIDE_SPAN=6_000.0)
            spans.start()
            self.addCleanup(spans.stop)
        self.path = self.recorded("--type", "ci8", "--carrier", self.CARRIER, "--ec-io", -9, "--conjugate")

    def holds(self, found: dict[str, str]) -> None:
        """Asserts that a line has the carrier, on the other side of the recording's middle, and its spectrum."""
        self.assertAlmostEqual(abs(float(found["carrier_hz"])), self.CARRIER, delta=30)
        self.assertEqual(found["conjugate"], "yes")

    def test_import_domain_and_scan_find_it(self) -> None:
        self.holds(self.locked(self.path))
        status, wrote, said = run_main("domain", self.path)
        self.assertEqual(status, 0, said)
        self.holds(dict(word.split("=", 1) for word in wrote.splitlines()[0].split()))
        status, wrote, said = run_main("scan", self.path)
        self.assertEqual((status, len(wrote.splitlines())), (0, 1), said)
        self.holds(dict(word.split("=", 1) for word in wrote.split()))

    def test_a_stream_finds_it(self) -> None:
        with open(self.path.replace("-meta", "-data"), "rb") as file:
            data = file.read()
        for is_live in (False, True):
            lock = StreamLock(LockOptions("ci8", 2.4e6, is_live=is_live))
            # A live stream takes the further carriers in turns, 2.4 seconds apart.
            pieces: list[Any] = []
            for _ in range(40):
                pieces += lock.feed(data)
                if lock.pursuit is not None:
                    break
            self.assertIsNotNone(lock.pursuit)
            self.assertTrue(lock.ring.is_conjugate)
            self.assertAlmostEqual(lock.centre, self.CARRIER, delta=30)

    @unittest.skipUnless(PROGRAM, NO_PROGRAM)
    def test_report_and_listen_find_it(self) -> None:
        status, wrote, said = run_main("listen", self.path, "--program", PROGRAM)
        self.assertEqual((status, said), (0, ""))
        status, _, said = run_main("report", self.path, "--program", PROGRAM, "--out", self.at("page.html"))
        with open(self.at("page.html"), encoding="utf-8") as file:
            self.assertIn("<td>yes</td>", file.read())

    def test_each_refuses_by_the_same_words(self) -> None:
        words = ("--search", 600, "--conjugate", "no", self.path)
        why = "within 600 Hz of the middle in the spectrum as it is: .*; give --search HZ for a wider span, --conjugate"
        self.refused(why, words[-1], *words[:-1])
        for tool in ("domain", "scan"):
            status, wrote, said = run_main(tool, *words)
            self.assertEqual((status, wrote), (1, ""))
            self.assertRegex(said, why.replace("of the middle", "of (the middle|each)"))
        if PROGRAM:
            status, _, said = run_main("listen", *words, "--program", PROGRAM)
            self.assertEqual(status, 1)
            self.assertRegex(said, why.replace(": .*", ""))


if __name__ == "__main__":
    unittest.main()
