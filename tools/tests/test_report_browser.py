"""The page of tools/report in headless Chromium: its console, its plots, what a pointer and a search do, its tables.

Where Chromium, its driver (Debian's chromium and chromium-driver) or python3-selenium is missing, the tests are skipped.
"""

import re
import shutil
import unittest

from tools.tests.helping import NO_PROGRAM, PROGRAM, example, needs, run_program

needs("numpy", "plotly", "selenium")
for command, package in (("chromium", "chromium"), ("chromedriver", "chromium-driver")):
    if shutil.which(command) is None:
        raise unittest.SkipTest(f"no {command}: install the package {package}")

from selenium import webdriver  # noqa: E402
from selenium.webdriver.common.action_chains import ActionChains  # noqa: E402
from selenium.webdriver.chrome.service import Service  # noqa: E402
from selenium.webdriver.common.by import By  # noqa: E402
from selenium.webdriver.support.wait import WebDriverWait  # noqa: E402

from tools.tests.report_fixture import FOLLOWED, file_of, signal  # noqa: E402
from tools.tests.test_report import EVERY_BYTE, MARKUP, Folder  # noqa: E402

SECONDS = 120  # the longest that a page may take to draw, on a busy machine


def started() -> webdriver.Chrome:
    """Starts a headless Chromium that keeps its console's messages."""
    options = webdriver.ChromeOptions()
    for word in ("headless=new", "no-sandbox", "disable-gpu", "disable-dev-shm-usage", "window-size=1280,1000"):
        options.add_argument(f"--{word}")
    options.set_capability("goog:loggingPrefs", {"browser": "ALL"})
    return webdriver.Chrome(service=Service(str(shutil.which("chromedriver"))), options=options)


class Browser(Folder):
    driver: webdriver.Chrome

    @classmethod
    def setUpClass(cls) -> None:
        try:
            cls.driver = started()
        except Exception as why:  # what keeps a browser from starting here has many names
            raise unittest.SkipTest(f"Chromium doesn't start here: {str(why).splitlines()[0]}") from None
        cls.addClassCleanup(cls.driver.quit)

    def load(self, *words: str, status: int = 0, file: str = "") -> None:
        """Makes the page, loads it, and waits until its plots are drawn."""
        self.page(*words, status=status, file=file)
        self.driver.get(f"file://{self.out}")
        drawn = "return document.body.dataset.drawn || document.body.dataset.failed"
        WebDriverWait(self.driver, SECONDS).until(lambda driver: driver.execute_script(drawn))
        self.assertIsNone(self.driver.execute_script("return document.body.dataset.failed || null"))
        self.assertEqual(self.driver.get_log("browser"), [])

    def count(self, selector: str) -> int:
        return len(self.driver.find_elements(By.CSS_SELECTOR, selector))

    def text(self, selector: str) -> str:
        return self.driver.find_element(By.CSS_SELECTOR, selector).get_attribute("textContent")

    def rows(self, name: str) -> dict[str, list[str]]:
        """Returns the rows of a part's table, by their first cells."""
        rows = self.driver.execute_script(
            "return [...document.querySelectorAll(arguments[0])].map((row) => [...row.cells].map((cell) => cell.textContent))",
            f"#{name} tbody tr",
        )
        return {cells[0]: cells[1:] for cells in rows}

    def marks(self) -> int:
        """Returns the number of marks on the time line."""
        return self.count("#timeline .scatterlayer .points path.point")

    def point_to(self, selector: str) -> str:
        """Rests the pointer on an element of a plot, and returns the text of its box."""
        place = self.driver.find_element(By.CSS_SELECTOR, selector)
        self.driver.execute_script("arguments[0].scrollIntoView({block: 'center'})", place)
        ActionChains(self.driver).move_to_element(place).perform()
        box = ".hoverlayer .hovertext"
        WebDriverWait(self.driver, SECONDS).until(lambda driver: self.count(box))
        return self.text(box)


class ThePage(Browser):
    def test_plots_and_tables(self) -> None:
        self.load()
        self.assertEqual(self.count("#correlation .barlayer .point path"), 81)
        self.assertEqual(self.count("#constellation .scatterlayer .points path.point"), 3 * 128)
        self.assertEqual(self.count("#survey .barlayer .point path"), 512)
        self.assertEqual(self.marks(), len(FOLLOWED) - 1)
        self.assertEqual(self.rows("sync")["SYS_TIME"][0], "14590800225")
        self.assertIn("2017-01-01 00:00:00.00 UTC", self.rows("sync")["SYS_TIME"][1])
        self.assertEqual(len(self.rows("sync")), 12)
        self.assertEqual(len(self.rows("system")), 37)
        self.assertEqual(self.rows("system")["BASE_LONG"], ["6625769", "-122.419375°, 122° 25′ 9.75″ W"])
        self.assertEqual(list(self.rows("neighbors")), ["300", "168", "4"])
        self.assertEqual(list(self.rows("channels")), ["283", "25"])
        self.assertIn("Everything was read", self.text(".state"))

    def test_the_pointer(self) -> None:
        """A box shows the line of the mark under the pointer, a click keeps it, and a drag zooms all panels."""
        self.load()
        path = "#timeline .scatterlayer .trace:first-of-type .points path.point"
        self.assertEqual(re.sub(r"\s", "", self.point_to(path)), re.sub(r"\s", "", FOLLOWED[1]))
        ActionChains(self.driver).click().perform()
        self.assertEqual(self.text("#picked"), FOLLOWED[1])
        ranges = "const plot = document.getElementById('timeline')._fullLayout; return [plot.xaxis.range, plot.xaxis2.range]"
        before = self.driver.execute_script(ranges)
        panel = self.driver.find_element(By.CSS_SELECTOR, "#timeline .nsewdrag")
        drag = ActionChains(self.driver).move_to_element(panel).click_and_hold()
        drag.move_by_offset(80, 0).move_by_offset(80, 0).release().perform()
        WebDriverWait(self.driver, SECONDS).until(lambda driver: driver.execute_script(ranges) != before)
        first, second = self.driver.execute_script(ranges)
        self.assertEqual(first, second)
        self.assertLess(first[1] - first[0], before[0][1] - before[0][0])
        self.assertIn("survey pn=", self.point_to("#survey .barlayer .point:first-of-type path"))
        self.assertEqual(self.driver.get_log("browser"), [])

    def test_the_search(self) -> None:
        self.load()
        self.driver.find_element(By.ID, "search").send_keys("FRAME good=0")
        self.assertEqual(self.text("pre[data-command=follow]"), FOLLOWED[5])
        self.assertEqual(self.text("details:last-of-type .count"), f"1 of {len(FOLLOWED)} lines")
        self.assertEqual(self.text("pre[data-command=survey]"), "")
        self.driver.find_element(By.ID, "search").clear()
        self.driver.find_element(By.ID, "search").send_keys(" ")
        self.assertEqual(self.text("pre[data-command=follow]"), "\n".join(FOLLOWED))

    def test_nothing_hostile_runs(self) -> None:
        """A recording's name and lines with every byte are shown; nothing in them runs or is an element."""
        self.load()
        elements = self.driver.execute_script("return document.querySelectorAll('body *').length")
        self.fake.tell("follow", "\n".join(FOLLOWED).encode() + b"\n" + MARKUP.encode() + b"\n" + EVERY_BYTE + b"\n")
        self.load(file=self.keep(MARKUP.replace("/", "\\") + ".is95", file_of(signal())))
        self.assertIsNone(self.driver.execute_script("return window.taken || null"))
        self.assertIn(MARKUP, self.text("pre[data-command=follow]"))
        self.assertEqual(self.driver.execute_script("return document.querySelectorAll('body *').length"), elements + 3)

    def test_a_broken_file(self) -> None:
        for command in ("find", "survey", "follow"):
            self.fake.tell(command, [], status=3, said="bad file: magic at 0\n")
        self.load(status=3, file=self.keep("none.is95", bytes(50_000)))
        self.assertIn("The file is broken (bad file: magic at 0)", self.text(".state"))
        self.assertEqual(self.count(".plot"), 0)

    @unittest.skipUnless(PROGRAM, NO_PROGRAM)
    def test_what_the_program_hears(self) -> None:
        _, made = run_program("make", data=example("second_of_paging.script"))
        _, lines = run_program("follow", data=made)
        self.fake.path = str(PROGRAM)
        self.load(file=self.keep("second.is95", made))
        self.assertEqual(self.marks(), lines.count(b"\n") - 1)
        self.assertEqual(self.rows("channels"), {"283": ["878.49 MHz at 800 MHz, or 1944.15 MHz at 1.9 GHz"]})
        # System time 1,007 is 80.56 s after 1980-01-06 00:00:00, and 13 of them are leap seconds.
        self.assertIn("1980-01-06 00:01:07.56 UTC", self.rows("sync")["SYS_TIME"][1])


if __name__ == "__main__":
    unittest.main()
