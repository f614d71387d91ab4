"""Tests of tools/report over the lines of `listen`: any number of lines, and a page that stays small."""

import json
import os
import random
import re
import unittest

from tools.tests.helping import needs, temporary_folder

needs("numpy", "plotly", "scipy")

from cdma_tools.lines import read_line
from cdma_tools.report.heard_lines import Thinned, heard_lines, is_lines
from tools.tests.radio_helping import run_main

CHIP_RATE, FRAME = 1_228_800, 24_576
MOST_BYTES, MOST_POINTS = 6_000_000, 50_000
SYNC = (
    "sync at={} prev=3 min=1 sid=21 nid=7 pn=300 lc=1c5477abac8 time={} lp=13 ltm=0 daylt=0 prat=1 freq=283 rest=0:"
)


def lines_of(seconds: int) -> list[str]:
    """Returns the lines of `seconds` seconds: frames, long pages, and a sync message a second."""
    draws = random.Random(5)
    lines = ["pilot phase=5 energy=6"]
    for number in range(seconds * CHIP_RATE // FRAME):
        at = FRAME * (number + 1)
        bits = f"{draws.getrandbits(172) << 4:044x}"
        lines.append(f"frame at={at} rate=9600 good={number % 7 and 1} bits=172:{bits} commands={number % 65_536:016b}")
        if number % 8 == 0:
            lines.append(f"paging at={at} other type=42 bits=1138:{draws.getrandbits(1138) << 6:0286x}")
        if number % 50 == 0:
            lines.append(SYNC.format(at, 3_000_000_000 + 25 * number // 2))
    return lines


class ReportLinesTest(unittest.TestCase):
    """A page of twenty minutes."""

    def setUp(self) -> None:
        self.folder = temporary_folder(self.addCleanup)
        self.page = os.path.join(self.folder, "page.html")

    def keep(self, name: str, lines: list[str]) -> str:
        """Writes lines to a file."""
        path = os.path.join(self.folder, name)
        with open(path, "w", encoding="ascii") as file:
            file.write("".join(line + "\n" for line in lines))
        return path

    def reported(self, path: str) -> str:
        """Returns the page of a file."""
        status, wrote, said = run_main("report", path, "--out", self.page)
        self.assertEqual((status, wrote, said), (0, "", ""))
        with open(self.page, encoding="utf-8") as file:
            return file.read()

    def test_a_long_listening_is_thinned(self) -> None:
        lines = lines_of(1_200)
        frames = [line for line in lines if line.startswith("frame")]
        page = self.reported(self.keep("day.txt", lines))
        self.assertLess(len(page.encode()), MOST_BYTES)
        self.assertIn(f"<td class=\"number\">{len(frames)}</td>", page)
        self.assertIn(f"frames 9600, {sum('good=0' in line for line in frames)} bad", page)
        self.assertIn(f"Of {len(lines):,} lines the page has 1 of 8 frames", page)
        shown = page[page.index('data-command="follow"') :].split("</pre>")[0]
        self.assertTrue(all(line in lines for line in re.findall(r"(?m)^(?:frame|sync|paging) .*$", shown)[::97]))
        plots = json.loads(re.search(r'id="plots">(.*?)</script>', page)[1])  # type: ignore[index]
        traces = plots["timeline"]["data"]
        self.assertLess(sum(len(trace["x"]) for trace in traces), MOST_POINTS)
        # The steps of all frames are summed up, also of those that aren't shown.
        power = next(trace for trace in traces if trace["name"] == "power control")
        at = {round(FRAME * (number + 1) / CHIP_RATE, 7): number for number in range(len(frames))}
        sums = 0
        wanted = []
        for line in frames:
            commands = line[-16:]
            sums += commands.count("0") - commands.count("1")
            wanted.append(sums)
        self.assertTrue(all(level == wanted[at[place]] for place, level in zip(power["x"], power["y"])))
        self.assertGreater(len(power["x"]), 10_000)

    def test_a_short_one_is_whole(self) -> None:
        lines = lines_of(20)
        page = self.reported(self.keep("short.txt", lines))
        self.assertIn("The page has all lines.", page)
        self.assertTrue(all(line in page for line in lines))
        objects = [json.dumps({**read_line(line), "time_utc": "2026-11-29T18:43:11.123456Z"}) for line in lines]
        self.assertEqual(self.reported(self.keep("short.jsonl", objects)).replace("short.jsonl", "short.txt"), page)

    def test_what_is_no_line(self) -> None:
        for text in ("frame at=5", '{"line":"frame"}', "no line", ""):
            path = self.keep("bad.txt", ["pilot phase=5 energy=6", text])
            status, _, said = run_main("report", path, "--out", self.page)
            self.assertEqual(status, 9)
            self.assertRegex(said, r"^report: .*bad.txt: line 2 is invalid: .*\n$")
            self.assertFalse(os.path.exists(self.page))

    def test_which_files_have_lines(self) -> None:
        self.assertFalse(is_lines(os.path.join(self.folder, "none")))
        self.assertFalse(is_lines(self.folder))
        self.assertFalse(is_lines(self.keep("other", ["IS95"])))
        self.assertTrue(is_lines(self.keep("lines", ['{"line":"pilot","phase":5,"energy":6}'])))

    def test_thinning_keeps_every_nth(self) -> None:
        for count in (0, 1, 9, 10, 11, 40, 41, 1_000):
            thinned = Thinned[int](10)
            for number in range(count):
                thinned.add(number)
            self.assertEqual(thinned.kept, list(range(0, count, thinned.step)))
            self.assertLessEqual(len(thinned.kept), 10)
            self.assertTrue(thinned.step == 1 or len(range(0, count, thinned.step // 2)) > 10)

    def test_streams_follow_each_other(self) -> None:
        """After a line that gives another origin, lines count from there."""
        frames = [f"frame at={at} rate=1200 good=1 bits=0: commands=0000000000000011" for at in (24_576, 49_152)]
        path = os.path.join(temporary_folder(self.addCleanup), "streams.txt")
        with open(path, "w", encoding="ascii") as file:
            file.write("\n".join([*frames, "origin utc=2026-11-30T21:30:00.000000Z", *frames]) + "\n")
        heard = heard_lines(path)
        count = heard.counts["frames 1200"]
        self.assertEqual((heard.number, heard.end, count.number, count.last), (5, 98_304, 4, 98_304))
        self.assertEqual([at for at, _ in heard.steps.kept], [24_576, 49_152, 73_728, 98_304])

    def test_an_empty_listening(self) -> None:
        heard = heard_lines(self.keep("empty", []))
        self.assertEqual((heard.number, heard.lines(), heard.left_out()), (0, [], ""))


if __name__ == "__main__":
    unittest.main()
