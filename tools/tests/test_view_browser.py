"""The page of tools/view in headless Chromium: its panels against a recording's truth, a filter, a click, a reconnect.

If Chromium, its driver (Debian's chromium and chromium-driver) or python3-selenium is missing, the tests are skipped.
"""

from __future__ import annotations

import json
import math
import os
import random
import signal
import socket
import subprocess
import unittest
from typing import Any, ClassVar

from tools.tests.helping import NO_PROGRAM, PROGRAM, needs, temporary_folder

needs("numpy", "scipy", "tornado", "plotly", "selenium")

from selenium import webdriver  # noqa: E402
from selenium.webdriver.common.by import By  # noqa: E402
from selenium.webdriver.support.select import Select  # noqa: E402
from selenium.webdriver.support.wait import WebDriverWait  # noqa: E402

from cdma_tools.lines import read_line  # noqa: E402
from tools.tests.drawn_cells import DrawnCell, drawn_cell  # noqa: E402
from tools.tests.radio_helping import figures, run_main  # noqa: E402
from tools.tests.report_fixture import FOLLOWED  # noqa: E402
from tools.tests.test_report import MARKUP  # noqa: E402
from tools.tests.test_report_browser import started  # noqa: E402
from tools.tests.test_view import SECONDS, Server, children_of  # noqa: E402

HANDSET = ("--esn", "00c0ffee", "--row", "20")  # of the traffic channel of a drawn cell
PANELS = ("spectrum", "waterfall", "domain", "symbols", "correlation", "history", "timeline")


class Watched(Server):
    """A server, and a browser that watches it."""

    driver: ClassVar[webdriver.Chrome]

    @classmethod
    def setUpClass(cls) -> None:
        try:
            cls.driver = started()
        except Exception as why:  # what keeps a browser from starting here has many names
            raise unittest.SkipTest(f"Chromium doesn't start here: {str(why).splitlines()[0]}") from None
        cls.addClassCleanup(cls.driver.quit)

    def setUp(self) -> None:
        super().setUp()
        self.driver.get("about:blank")  # no page of another test goes on
        self.driver.get_log("browser")

    def resize(self, width: int, height: int) -> None:
        """Gives the page's own area a size."""
        size = {"width": width, "height": height, "deviceScaleFactor": 1, "mobile": False}
        self.driver.execute_cdp_cmd("Emulation.setDeviceMetricsOverride", size)

    def until(self, script: str, *words: Any) -> Any:
        """Waits until a script answers something true, and answers that."""
        return WebDriverWait(self.driver, SECONDS).until(lambda driver: driver.execute_script(script, *words))

    def text(self, name: str) -> str:
        """The text of an element."""
        return str(self.driver.find_element(By.ID, name).get_attribute("textContent"))

    def wait_text(self, name: str, part: str) -> None:
        """Waits until an element's text has a part."""
        self.until("return document.getElementById(arguments[0]).textContent.includes(arguments[1])", name, part)

    def rows(self, name: str) -> list[list[str]]:
        """The cells of a table's body."""
        rows = "[...document.getElementById(arguments[0]).tBodies[0].rows]"
        script = f"return {rows}.map((row) => [...row.cells].map((cell) => cell.textContent))"
        return list(self.driver.execute_script(script, name))

    def plot(self, name: str, what: str) -> Any:
        """A value of a plot's first trace, or one that begins with another."""
        return self.driver.execute_script(f"return document.getElementById('{name}').{what}")

    def quiet(self) -> None:
        """That the browser's console has nothing."""
        self.assertEqual(self.driver.get_log("browser"), [])


class Recorded(Watched):
    """Two drawn cells, and a recording of them, in which the second has a level in dB."""

    drawn_from: ClassVar[str]
    chips: ClassVar[int]
    rate: ClassVar[str]
    level: ClassVar[int]
    cells: ClassVar[list[DrawnCell]]
    meta: ClassVar[str]

    @classmethod
    def setUpClass(cls) -> None:
        super().setUpClass()
        folder = temporary_folder(cls.addClassCleanup)
        draws = random.Random(cls.drawn_from)
        cls.cells = [drawn_cell(draws, pn, (other,)) for pn, other in ((300, 168), (168, 300))]
        files = [cell.write(os.path.join(folder, f"{cell.pn}.is95"), cls.chips) for cell in cls.cells]
        cls.meta = os.path.join(folder, "radio.sigmf-meta")
        words = ["--type", "cu8", "--rate", cls.rate, "--seed", 3, "--carrier", 3_000, "--clock", 4, "--ec-io", -8]
        status, _, said = run_main("channel", *words, files[0], f"{files[1]}:{cls.level}:20", cls.meta)
        assert status == 0, said


@unittest.skipUnless(PROGRAM, NO_PROGRAM)
class ARecording(Recorded):
    """A recording of two cells, played at the pace of the air."""

    drawn_from, chips, rate, level = "a view 1", 6 * 1_228_800, "2.4M", -6

    def truth(self) -> tuple[dict[str, str], list[dict[str, Any]]]:
        """What the recording's .sigmf-meta says of it, and of its cells."""
        with open(self.meta, encoding="utf-8") as file:
            note = json.load(file)["annotations"][0]
        return figures(note["core:comment"]), note["cdma_tools:cells"]

    def test_every_panel(self) -> None:
        """While the recording is played each panel shows what its truth says; a filter, a click and a pause work."""
        process, url = self.start(self.meta, *HANDSET, "--program", str(PROGRAM))
        self.resize(1_280, 800)
        self.driver.get(url)
        self.wait_text("state", "following the pilot")
        self.wait_text("station", "BASE_ID")
        for name in PANELS:
            self.until("return document.getElementById(arguments[0]).data", name)
        self.check_signal()
        self.check_station()
        size = "return [document.documentElement.scrollWidth, document.documentElement.scrollHeight]"
        self.assertEqual(self.driver.execute_script(size), [1_280, 800])
        self.check_pause()
        self.wait_text("state", "ended: the source ended after 6.0 s")
        self.check_lines()
        self.resize(400, 800)
        self.assertLessEqual(self.driver.execute_script(size)[0], 400)
        self.quiet()
        status, said = self.ended(process)
        self.assertEqual((status, said.count("\n")), (0, 1))
        self.wait_text("state", "no connection to the server")
        self.assertGreater(int(self.text("lines-note").split()[-1].replace(",", "")), 100)

    def check_signal(self) -> None:
        """The figures, the rows in use, the cells, the pilot, the symbols, and the spectrum."""
        told, cells = self.truth()
        self.wait_text("figures-note", "carrier")
        words = self.text("figures-note").replace(",", "").split()
        shown = {name: float(words[words.index(name) + 1]) for name in ("Ec/Io", "carrier", "clock")}
        self.assertAlmostEqual(shown["Ec/Io"], float(told["ec_io_db"]), delta=0.2)
        self.assertAlmostEqual(shown["carrier"], float(told["carrier_hz"]), delta=5)
        self.assertAlmostEqual(shown["clock"], float(told["clock_ppm"]), delta=0.2)
        used = [row for row, (_, kind) in enumerate(self.plot("domain", "data[0].customdata")) if kind != "not in use"]
        self.assertEqual(used, [0, 1, 20, 32])
        self.wait_text("cells", str(self.cells[1].pn))
        found = [[float(value) for value in row] for row in self.rows("cells")]
        self.assertEqual([row[0] for row in found], [cell.pn for cell in self.cells])
        for row, cell in zip(found, cells):
            self.assertAlmostEqual(row[1], float(told["ec_io_db"]) + cell["level_db"], delta=0.4)
            self.assertAlmostEqual(row[2], cell["delay_chips"], delta=1)
        levels = self.plot("correlation", "data[0].customdata")
        self.assertEqual(levels.index(max(levels)), len(levels) // 2)
        self.assertAlmostEqual(max(levels), float(told["ec_io_db"]), delta=0.5)
        self.assertEqual(self.plot("symbols", "data.map((trace) => trace.name)"), ["pilot", "sync", "paging"])
        places, power = self.plot("spectrum", "data[0].x"), self.plot("spectrum", "data[0].y")
        inside = [level for place, level in zip(places, power) if abs(place - 3) < 500]
        outside = [level for place, level in zip(places, power) if abs(place - 3) > 800]
        self.assertGreater(sum(inside) / len(inside), sum(outside) / len(outside) + 2)
        self.assertAlmostEqual(self.plot("spectrum", "layout.shapes[1].x0"), 3.0, delta=0.01)
        self.assertGreater(len(self.plot("waterfall", "data[0].z")), 5)
        self.until("return document.getElementById('history').data[0].x.length > 1")

    def check_station(self) -> None:
        """The base station's fields, by their names in the standard."""
        cell, shown = self.cells[0], {row[0]: row[1] for row in self.rows("station") if len(row) == 3}
        wanted = {"SID": cell.sid, "NID": cell.nid, "PILOT_PN": cell.pn, "BASE_ID": cell.base}
        self.assertEqual({name: int(shown[name]) for name in wanted}, wanted)

    def check_pause(self) -> None:
        """Nothing is drawn while the page pauses."""
        button = self.driver.find_element(By.ID, "pause")
        button.click()
        before = self.rows("lines"), self.text("seconds")
        self.until("return new Promise((done) => setTimeout(() => done(true), 700))")
        self.assertEqual((self.rows("lines"), self.text("seconds")), before)
        button.click()

    def check_lines(self) -> None:
        """The lines are newest first; a filter by type and by words, and a click that shows a line's fields."""
        self.until("return document.querySelectorAll('#lines tbody tr').length > 100")
        seconds = [float(row[0]) for row in self.rows("lines")]
        self.assertEqual(seconds, sorted(seconds, reverse=True))
        self.assertGreater(len(self.plot("timeline", "data[0].x")), 100)
        Select(self.driver.find_element(By.ID, "kind")).select_by_value("sync")
        count = sum(row[1] == "sync" for row in self.rows("lines"))
        kinds = "[...document.querySelectorAll('#lines td:nth-child(2)')]"
        self.until(f"return {kinds}.every((one) => one.textContent === 'sync')")
        shown = self.rows("lines")
        self.assertGreaterEqual(len(shown), count)
        self.driver.find_element(By.ID, "text").send_keys(f"SID={self.cells[0].sid} pn=300")
        self.until("return document.getElementById('text').value.endsWith('pn=300')")
        self.assertEqual(self.rows("lines"), shown)
        self.driver.find_element(By.CSS_SELECTOR, "#lines tbody tr").click()
        self.until("return document.getElementById('fields').open")
        fields = {row[0]: row[1] for row in self.rows("fields-table")}
        self.assertEqual((fields["NID"], fields["PILOT_PN"]), (str(self.cells[0].nid), "300"))
        self.driver.find_element(By.CSS_SELECTOR, "#close").click()
        self.check_steps()
        self.driver.find_element(By.ID, "text").send_keys(" nothing")
        self.until("return document.querySelectorAll('#lines tbody tr').length === 0")


    def check_steps(self) -> None:
        """A click on a frame shows the steps by which it was decoded."""
        self.driver.find_element(By.ID, "text").clear()
        Select(self.driver.find_element(By.ID, "kind")).select_by_value("frame")
        self.until("return document.querySelector('#lines tbody tr').cells[1].textContent === 'frame'")
        line = self.rows("lines")[0][2]
        self.driver.find_element(By.CSS_SELECTOR, "#lines tbody tr").click()
        self.until("return document.getElementById('fields-line').textContent === arguments[0]", line)
        self.driver.find_element(By.ID, "steps").click()
        self.wait_text("steps-text", "=> good, at 9600 bits a second")
        self.driver.find_element(By.ID, "close").click()


@unittest.skipUnless(PROGRAM, NO_PROGRAM)
class TwoCells(Recorded):
    """Both cells of a recording, each without the other."""

    drawn_from, chips, rate, level = "two views", 3 * 1_228_800, "1.5M", -4

    def test_each_cell(self) -> None:
        """The choice of a cell shows its signal and its base station; the table has the lines of both."""
        process, url = self.start(self.meta, "--cells", "2", "--program", str(PROGRAM))
        self.resize(1_280, 800)
        self.driver.get(url)
        self.wait_text("state", "taking the cells apart")
        self.wait_text("state", "following the pilot")
        choice = Select(self.driver.find_element(By.ID, "cell"))
        self.until("return document.getElementById('cell').options.length === 2")
        self.check_cell(0)
        choice.select_by_index(1)
        self.check_cell(1)
        self.wait_text("state", "ended: the source ended after ")
        self.check_cell(1)
        choice.select_by_index(0)
        self.check_cell(0)
        names = [f"cell {number}, PN {cell.pn}" for number, cell in enumerate(self.cells, 1)]
        self.assertEqual([option.text for option in choice.options], names)
        self.check_filter()
        self.check_saved(url)
        self.quiet()
        status, said = self.ended(process)
        self.assertEqual((status, said.count("\n")), (0, 3), said)

    def truth(self, number: int) -> tuple[float, float, list[dict[str, Any]]]:
        """The Ec/Io of a cell without the other, the carrier, and what the recording's .sigmf-meta says of each."""
        with open(self.meta, encoding="utf-8") as file:
            note = json.load(file)["annotations"][0]
        told, cells = figures(note["core:comment"]), note["cdma_tools:cells"]
        power = cells[0]["pilot"] / 10 ** (float(told["ec_io_db"]) / 10) - cells[1 - number]["power"]
        return 10 * math.log10(cells[number]["pilot"] / power), float(told["carrier_hz"]), cells

    def check_cell(self, number: int) -> None:
        """The chosen cell's PN, Ec/Io, carrier, rows, symbols and base station are those that were sent."""
        cell, (ec_io, carrier, _) = self.cells[number], self.truth(number)
        self.until("return document.querySelector('#cells td')?.textContent === arguments[0]", str(cell.pn))
        self.wait_text("station", "BASE_ID")
        shown = {row[0]: row[1] for row in self.rows("station") if len(row) == 3}
        wanted = {"SID": cell.sid, "NID": cell.nid, "PILOT_PN": cell.pn, "BASE_ID": cell.base}
        self.assertEqual({name: int(shown[name]) for name in wanted}, wanted)
        self.wait_text("figures-note", "carrier")
        words = self.text("figures-note").replace(",", "").split()
        self.assertAlmostEqual(float(words[words.index("carrier") + 1]), carrier, delta=8)
        self.assertAlmostEqual(float(words[words.index("Ec/Io") + 1]), ec_io, delta=0.3)
        for name in PANELS:
            self.until("return document.getElementById(arguments[0]).data", name)
        used = [row for row, (_, kind) in enumerate(self.plot("domain", "data[0].customdata")) if kind != "not in use"]
        self.assertEqual(used, [0, 1, 20, 32])
        self.until("return document.getElementById('symbols').data.length === 3")
        levels = self.plot("correlation", "data[0].customdata")
        self.assertEqual(levels.index(max(levels)), len(levels) // 2)
        followed = self.rows("followed")
        self.assertEqual([row[0] for row in followed], ["1", "2"])
        self.assertEqual(followed[number][1], str(cell.pn))
        self.assertAlmostEqual(float(followed[number][2]), ec_io, delta=0.3)

    def check_filter(self) -> None:
        """A choice of a cell, and one of a channel, leave its lines."""
        choice = Select(self.driver.find_element(By.ID, "channel"))
        for number, cell in enumerate(self.cells, 1):
            for name in (f"cell {number}", f"cell {number}, paging1"):
                choice.select_by_visible_text(name)
                rows = self.rows("lines")
                self.assertGreater(len(rows), 30)
                self.assertEqual({row[2] for row in rows}, {str(number)})
                words = {word for row in rows for word in row[4].split() if word.startswith("pn=")}
                self.assertEqual(words, {f"pn={cell.pn}"})
        choice.select_by_visible_text("all channels")
        self.assertEqual({row[2] for row in self.rows("lines")}, {"1", "2"})

    def check_saved(self, url: str) -> None:
        """The saved lines have their cells; the samples of each are followed again, and it has a report of its own."""
        lines = [json.loads(line) for line in self.fetched(url + "save/lines.jsonl")[0].splitlines()]
        for number, cell in enumerate(self.cells):
            own = [line for line in lines if line["cell"] == number + 1]
            self.assertEqual({line["sid"] for line in own if line["line"] == "sync"}, {cell.sid})
            report, _ = self.fetched(f"{url}save/report.html?cell={number}")
            self.assertIn(f"sid={cell.sid} ".encode(), report)
            self.assertNotIn(f"sid={self.cells[1 - number].sid} ".encode(), report)
            samples, _ = self.fetched(f"{url}save/samples.is95?cell={number}")
            ran = subprocess.run([str(PROGRAM), "follow", "--messages", "1"], input=samples, capture_output=True)
            self.assertIn(f" sid={cell.sid} nid={cell.nid} pn={cell.pn} ".encode(), ran.stdout)


class Lines(Watched):
    """Files of lines: no program is needed."""

    def test_a_reconnect(self) -> None:
        """The page keeps what it has while the server is away, and shows a new listening once there is one."""
        with socket.create_server(("127.0.0.1", 0)) as free:
            port = str(free.getsockname()[1])
        process, url = self.start(self.lines, "--port", port)
        self.driver.get(url)
        self.wait_text("state", f"ended: all {len(FOLLOWED)} lines were read")
        self.wait_text("lines", "freqs=283,25")
        self.assertEqual(self.ended(process)[0], 0)
        self.wait_text("state", "no connection to the server; trying again")
        self.assertEqual(len(self.rows("lines")), len(FOLLOWED))
        other = self.keep("other.jsonl", "\n".join(FOLLOWED[:2]) + "\n")
        self.start(other, "--port", port)
        self.wait_text("name", "other.jsonl")
        self.wait_text("lines-note", "2 of the last 2")
        refused = [line for line in self.driver.get_log("browser") if "ERR_CONNECTION_REFUSED" not in line["message"]]
        self.assertEqual(refused, [])

    def test_channels(self) -> None:
        """Lines of several channels have columns for cell and channel, a choice of these, and are found by them."""
        lines = [line for line in FOLLOWED if not line.startswith("raw")]
        places = [(1, 0, "paging1"), (1, 0, "traffic:00c0ffee:12:2"), (2, 1_250_000, "paging1")]
        objects = [
            json.dumps({**read_line(line), "cell": cell, "carrier": carrier, "channel": channel})
            for line, (cell, carrier, channel) in zip(lines, 99 * places)
        ]
        self.driver.get(self.start(self.keep("channels.jsonl", "\n".join(objects) + "\n"))[1])
        self.wait_text("state", "lines were read")
        self.until("return document.querySelectorAll('#lines tbody tr').length === arguments[0]", len(lines))
        shown = self.rows("lines")[::-1]
        found = [(cell, channel) for _, _, cell, channel, _ in shown]
        wanted = [("1", "paging1"), ("1", "traffic:00c0ffee:12:2"), ("2 at 1250000 Hz", "paging1")]
        self.assertEqual(found, (99 * wanted)[: len(lines)])
        self.assertEqual([row[4] for row in shown], lines)
        choice = Select(self.driver.find_element(By.ID, "channel"))
        choice.select_by_visible_text("cell 1, traffic:00c0ffee:12:2")
        self.assertEqual([row[4] for row in self.rows("lines")[::-1]], lines[1::3])
        choice.select_by_visible_text("all channels")
        self.driver.find_element(By.ID, "text").send_keys("1250000")
        self.assertEqual([row[4] for row in self.rows("lines")[::-1]], lines[2::3])
        self.driver.get(self.start(self.lines)[1])
        self.wait_text("state", "lines were read")
        self.assertFalse(self.driver.find_element(By.ID, "channel").is_displayed())
        self.assertFalse(self.driver.find_element(By.CSS_SELECTOR, "#lines th.place").is_displayed())
        self.quiet()

    def test_nothing_hostile_runs(self) -> None:
        """A file's name and a line that are markup are shown as text."""
        name = MARKUP.replace("/", "\\") + ".jsonl"
        hostile = self.keep(name, "\n".join(FOLLOWED) + f"\npaging at=1 {MARKUP}\n")
        _, url = self.start(hostile)
        self.driver.get(url)
        self.wait_text("state", "is invalid")
        self.assertEqual(self.text("name"), name)
        self.wait_text("lines", "bits=1024:8081")
        self.assertIn(MARKUP[:12], self.text("state"))
        self.assertIsNone(self.driver.execute_script("return window.taken || null"))
        self.assertEqual(self.driver.find_elements(By.CSS_SELECTOR, "#state *, #name *, #lines td *"), [])
        self.quiet()

    def test_hostile_cells(self) -> None:
        """Cells and channels that are markup are shown as text, and can be chosen and saved."""
        lines = [line for line in FOLLOWED if not line.startswith("raw")]
        places = [(1, 0, "paging1"), (MARKUP, 5, MARKUP), ([MARKUP], {"x": MARKUP}, "paging1")]
        objects = [
            json.dumps({**read_line(line), "cell": cell, "carrier": carrier, "channel": channel})
            for cell, carrier, channel in places for line in lines
        ]  # fmt: skip
        _, url = self.start(self.keep("cells.jsonl", "\n".join(objects) + "\n"))
        self.driver.get(url)
        self.wait_text("state", "lines were read")
        self.until("return document.getElementById('cell').options.length === 3")
        choice = Select(self.driver.find_element(By.ID, "cell"))
        self.assertEqual(choice.options[1].text, f"cell {MARKUP} at 5 Hz, PN 300")
        choice.select_by_index(1)
        chosen = "document.querySelector('#followed tr.chosen td')?.textContent"
        self.until(f"return {chosen} === arguments[0]", f"{MARKUP} at 5 Hz")
        self.wait_text("station", "BASE_ID")
        Select(self.driver.find_element(By.ID, "channel")).select_by_visible_text(f"cell {MARKUP} at 5 Hz, {MARKUP}")
        self.assertEqual([row[2:4] for row in self.rows("lines")], [[f"{MARKUP} at 5 Hz", MARKUP]] * len(lines))
        _, headers = self.fetched(f"{url}save/report.html?cell=1")
        saved = r'^attachment; filename="report-cell-[0-9A-Za-z-]{1,40}\.html"$'
        self.assertRegex(headers["Content-Disposition"], saved)
        self.assertIsNone(self.driver.execute_script("return window.taken || null"))
        markup = "#followed td *, #lines td *, #cell option *, #channel option *"
        self.assertEqual(self.driver.find_elements(By.CSS_SELECTOR, markup), [])
        self.quiet()

    def test_a_killed_listening(self) -> None:
        """If the listening's process is killed, the page says so and keeps what it has."""
        words = ["--type", "cu8", "--rate", "2M", "--program", "/bin/true", "-"]
        process, url = self.start(*words, given=subprocess.PIPE)
        self.driver.get(url)
        self.wait_text("state", "searching a pilot")
        os.kill(children_of(process.pid)[0], signal.SIGKILL)
        self.wait_text("state", "the listening's process was killed")
        self.assertEqual(self.ended(process)[0], 1)


if __name__ == "__main__":
    unittest.main()
