"""The figures of every tool against the truth, over recordings of cells that are drawn from a seed.

The cells' offsets, identities and gains are drawn, and so are types, rates, carriers, clocks, delays and levels; the
truth is in each .sigmf-meta, as tools/channel writes it. Three recordings are tried, or ten with EVERY_TRUTH=1, which
also prints the table of all figures.
"""

import json
import math
import os
import random
import re
import unittest
from dataclasses import dataclass
from typing import Any

from tools.tests.helping import NO_PROGRAM, PROGRAM, needs, temporary_folder

needs("numpy", "scipy")

from tools.tests.drawn_cells import DrawnCell, drawn_cell  # noqa: E402
from tools.tests.radio_helping import figures, run_main  # noqa: E402

SEED, FEW, MANY = 89, 3, 10
CHIPS = 900_000
# What may lie between a figure and the truth: Hz, millionths, dB, chips.
MOST = {"carrier": 3.0, "clock": 0.1, "ec_io": 0.1, "level": 0.15, "delay": 0.1}
MOST |= {"scan ec_io": 0.2, "scan carrier": 30.0, "at": 0.0, "rho": 0.0001}
SUPERFRAME = 98_304  # chips of 80 ms
OFFSET = 64  # chips of one step of PILOT_PN
SYNC_ROW = 32
MOST_SPREADS = 4  # of noise, between the level of a weaker cell's row and the truth
LEAST_SYNCED = 2  # messages: each takes 240 ms, and the recordings last 0.7 s


@dataclass(frozen=True)
class Truth:
    """What a recording was made with."""

    path: str
    cells: tuple[DrawnCell, ...]
    carrier: float
    clock: float
    ec_io: float  # of the first cell
    levels: tuple[float, ...]  # of the cells, in dB against the first one
    delays: tuple[float, ...]  # chips
    is_conjugate: bool


def recorded(folder: str, number: int) -> Truth:
    """Returns the recording of a number, with its truth from its .sigmf-meta."""
    draws = random.Random(f"{SEED} {number}")
    offsets = draws.sample(range(512), 2 if number % 3 == 1 else 1)
    cells = tuple(drawn_cell(draws, pn, tuple(other for other in offsets if other != pn)) for pn in offsets)
    levels, delays = (0.0, -draws.uniform(3, 8))[: len(cells)], (0.0, draws.uniform(-60, 60))[: len(cells)]
    files = [cell.write(os.path.join(folder, f"{cell.pn}.is95"), CHIPS) for cell in cells]
    share = cells[0].pilot ** 2 / sum(cell.power * 10 ** (level / 10) for cell, level in zip(cells, levels))
    words = [
        "--type", draws.choice(("cu8", "ci8", "ci16_le", "cf32_be", "ci32_le")),
        "--rate", draws.choice(("2.4M", "2M", "2457600", "2.5M")), "--seed", number + 1,
        "--carrier", round(draws.uniform(-9e3, 9e3)), "--clock", round(draws.uniform(-30, 30), 2),
        "--delay", round(draws.uniform(0, 1), 3),
        "--ec-io", round(draws.uniform(-9, -6) + min(0.0, decibels(share)), 2),
        *(["--conjugate"] if number % 4 == 2 else []),
    ]  # fmt: skip
    named = [files[0], *(f"{file}:{level}:{delay}" for file, level, delay in list(zip(files, levels, delays))[1:])]
    path = os.path.join(folder, f"{number}.sigmf-meta")
    status, _, said = run_main("channel", *words, *named, path)
    assert status == 0, said
    with open(path, encoding="utf-8") as file:
        note = json.load(file)["annotations"][0]
    told = dict(word.split("=", 1) for word in note["core:comment"].split())
    return Truth(
        path, cells, float(told["carrier_hz"]), float(told["clock_ppm"]), float(told["ec_io_db"]),
        tuple(cell["level_db"] for cell in note["cdma_tools:cells"]),
        tuple(cell["delay_chips"] for cell in note["cdma_tools:cells"]), told["conjugate"] == "yes",
    )  # fmt: skip


def row_powers(cell: DrawnCell) -> dict[int, float]:
    """Returns the mean power of each Walsh row over a cell's file, as a part of its pilot's.

    The file begins at local chip 0. A channel sends nothing before its first frame (docs/LINK.md, "What a cell sends"),
    which begins at chip 64 PILOT_PN on the sync channel and at chip 0 on the others.
    """
    gains = {SYNC_ROW: cell.sync, 1: cell.paging, 20: cell.traffic}
    powers = {row: (gain / cell.pilot) ** 2 for row, gain in gains.items()}
    powers[SYNC_ROW] *= 1 - OFFSET * cell.pn / CHIPS
    return powers


def decibels(ratio: float) -> float:
    """Returns a ratio of powers in dB."""
    return 10 * math.log10(ratio)


def spread_of(sigma: float, symbols: float) -> float:
    """Returns the standard deviation of a row's level in dB, by the formula of docs/RADIO.md, "The code domain"."""
    return decibels(1 + math.sqrt(1 / sigma**2 + 2 / (sigma * math.sqrt(symbols))))


def figure(pattern: str, text: str) -> float:
    """The one number that a page has at a pattern."""
    (found,) = set(re.findall(pattern, text))
    return float(found)


def rows_of(text: str) -> list[dict[str, str]]:
    """The rows of a page's table of cells, by the heads of their columns."""
    table = text[text.index('<section id="cells">') :].partition("</table>")[0]
    heads = re.findall("<th[^>]*>([^<]*)</th>", table.partition("</thead>")[0])
    return [
        dict(zip(heads, re.findall("<t[hd][^>]*>([^<]*)</t[hd]>", row)))
        for row in re.findall("<tr>(.*?)</tr>", table.partition("<tbody>")[2])
    ]


@unittest.skipUnless(PROGRAM, NO_PROGRAM)
class Truths(unittest.TestCase):
    seconds = 40

    def setUp(self) -> None:
        self.folder = temporary_folder(self.addCleanup)
        self.table: list[str] = []

    def tabled(self, tool: str, name: str, found: float, wanted: float) -> None:
        """Adds a figure to the table."""
        self.table.append(f"{tool:<16}{name:<22}{found:>14.3f}{wanted:>14.3f}{found - wanted:>+10.3f}")

    def near(self, tool: str, name: str, found: float, wanted: float, most: str) -> None:
        """Adds a figure to the table, and reports it if it is too far from the truth."""
        self.tabled(tool, name, found, wanted)
        self.assertAlmostEqual(found, wanted, delta=MOST[most], msg=f"{tool}: {name}")

    def import_holds(self, truth: Truth) -> None:
        """Checks the line of a lock, and the table of cells."""
        status, wrote, said = run_main(
            "import_capture", "--lock", "--cells", len(truth.cells), "--json", "--program", PROGRAM, truth.path,
            os.path.join(self.folder, "out.is95"),
        )  # fmt: skip
        self.assertEqual(status, 0, said)
        found = figures(said)
        self.near("import_capture", "carrier_hz", float(found["carrier_hz"]), truth.carrier, "carrier")
        self.near("import_capture", "clock_ppm", float(found["clock_ppm"]), truth.clock, "clock")
        self.near("import_capture", "ec_io_db", float(found["ec_io_db"]), truth.ec_io, "ec_io")
        self.assertEqual(found["conjugate"], "yes" if truth.is_conjugate else "no")
        table = json.loads(wrote)
        self.assertEqual(len(table), len(truth.cells))
        for row, cell, level, delay in zip(table, truth.cells, truth.levels, truth.delays):
            self.assertEqual((row["pn"], row["sid"], row["nid"]), (cell.pn, cell.sid, cell.nid))
            if row["paging_messages"]:
                self.assertEqual(row["base_id"], cell.base)
            self.near("--cells", f"PN {cell.pn} ec_io_db", row["ec_io_db"], truth.ec_io + level, "level")
            self.near("--cells", f"PN {cell.pn} delay_chips", row["delay_chips"], delay, "delay")
            self.near("--cells", f"PN {cell.pn} carrier", row["carrier_difference_hz"], 0.0, "carrier")

    def scan_holds(self, truth: Truth) -> None:
        """Checks the lines of a scan."""
        status, wrote, said = run_main("scan", "--json", truth.path)
        self.assertEqual(status, 0, said)
        (seen,) = json.loads(wrote)
        sign = -1 if truth.is_conjugate else 1
        self.near("scan", "carrier_hz", seen["carrier_hz"], sign * truth.carrier, "scan carrier")
        self.near("scan", "ec_io_db", seen["ec_io_db"], truth.ec_io, "scan ec_io")
        self.assertEqual(seen["conjugate"], truth.is_conjugate)

    def domain_holds(self, truth: Truth) -> None:
        """Checks the rows of the strongest cell against its pilot, and the pilot against the total power."""
        out = os.path.join(self.folder, "domain.json")
        status, _, said = run_main("domain", truth.path, "--program", PROGRAM, "--json", out)
        self.assertEqual(status, 0, said)
        with open(out, encoding="utf-8") as file:
            told: dict[str, Any] = json.load(file)
        self.near("domain", "carrier_hz", told["carrier_hz"], truth.carrier, "carrier")
        self.near("domain", "clock_ppm", told["clock_ppm"], truth.clock, "clock")
        rows, cell = {row["row"]: row["db"] for row in told["rows"] if row["used"]}, truth.cells[0]
        self.near("domain", "row 0 db", rows[0], truth.ec_io, "level")
        for row, power in row_powers(cell).items():
            self.near("domain", f"row {row} against row 0", rows[row] - rows[0], decibels(power), "level")
        self.assertAlmostEqual(sum(10 ** (row["total_db"] / 10) for row in told["rows"]), 1, delta=0.002)
        self.rho = told["rho"]

    def weaker_holds(self, truth: Truth) -> None:
        """Checks the rows of each weaker cell, measured without the stronger ones, whose power no longer counts."""
        out = os.path.join(self.folder, "weaker.json")
        left = 10 ** (-truth.ec_io / 10)  # all power, as multiples of the first cell's pilot
        for place, cell in enumerate(truth.cells[1:], 1):
            stronger, pilot = (10 ** (truth.levels[number] / 10) for number in (place - 1, place))
            left -= stronger * (1 + sum(row_powers(truth.cells[place - 1]).values()))
            status, _, said = run_main("domain", truth.path, "--pn", cell.pn, "--program", PROGRAM, "--json", out)
            self.assertEqual(status, 0, said)
            with open(out, encoding="utf-8") as file:
                told = json.load(file)
            rows = {row["row"]: row for row in told["rows"] if row["used"]}
            self.near("domain", f"PN {cell.pn} row 0 db", rows[0]["db"], decibels(pilot / left), "level")
            for row, power in row_powers(cell).items():
                found, name = rows[row]["db"] - rows[0]["db"], f"PN {cell.pn} row {row} to row 0"
                self.tabled("domain", name, found, decibels(power))
                spread = spread_of(rows[row]["sigma"], told["chips"] / (256 if row == SYNC_ROW else 64))
                self.assertAlmostEqual(found, decibels(power), delta=MOST_SPREADS * spread, msg=name)

    def listen_holds(self, truth: Truth) -> None:
        """The messages that a listening hears are those that the strongest cell sends, and as often."""
        status, wrote, said = run_main("listen", "--json", "--program", PROGRAM, truth.path)
        self.assertEqual(status, 0, said)
        lines, cell = [json.loads(line) for line in wrote.splitlines()], truth.cells[0]
        synced = [line for line in lines if line["line"] == "sync"]
        self.assertGreaterEqual(len(synced), LEAST_SYNCED)
        for line in synced:
            self.assertEqual((line["pn"], line["sid"], line["nid"]), (cell.pn, cell.sid, cell.nid))
        # A sync message takes a whole number of superframes of 80 ms (7.7.1.1), by the base station's clock.
        for before, after in zip(synced, synced[1:]):
            chips = (after["time"] - before["time"]) * SUPERFRAME
            self.near("listen", "chips between syncs", after["at"] - before["at"], chips, "at")
        for line in lines:
            if line.get("message") == "system":
                self.assertEqual((line["sid"], line["nid"], line["base"]), (cell.sid, cell.nid, cell.base))
            elif line.get("message") == "neighbors":
                self.assertEqual([pn for _, pn in line["pilots"]], list(cell.neighbors))

    def report_holds(self, truth: Truth) -> None:
        """The page has the lock's figures, the table of cells and domain's rho, and each only once."""
        page, count = os.path.join(self.folder, "page.html"), len(truth.cells)
        words = ("--cells", max(2, count), "--program", PROGRAM, "--out", page)
        status, _, said = run_main("report", truth.path, *words)
        self.assertEqual(status, 0, said)
        with open(page, encoding="utf-8") as file:
            text = file.read()
        import_part = text.partition("As the import found it")[2].partition("</table>")[0]
        carrier = figure(r"<td>(\S+) Hz above", import_part)
        self.near("report", "carrier", carrier, truth.carrier, "carrier")
        self.near("report", "clock", figure(r"<td>(\S+) ppm slower", text), truth.clock, "clock")
        level = figure(r"<th>Ec/Io</th><td>(\S+) dB: the pilot", text)
        self.near("report", "Ec/Io", level, truth.ec_io, "ec_io")
        self.near("report", "rho, as domain's", figure(r"<th>rho</th><td>([0-9.]+),", text), self.rho, "rho")
        table = rows_of(text)
        self.assertEqual(len(table), count)
        for row, cell, power, delay in zip(table, truth.cells, truth.levels, truth.delays):
            self.assertEqual((int(row["PN"]), int(row["SID"]), int(row["NID"])), (cell.pn, cell.sid, cell.nid))
            self.near("report", f"PN {cell.pn} Ec/Io", float(row["Ec/Io, dB"]), truth.ec_io + power, "level")
            self.near("report", f"PN {cell.pn} delay", float(row["Delay, chips"]), delay, "delay")
        self.assertEqual(float(table[0]["Ec/Io, dB"]), level)

    def test_rows_of_a_file_without_noise(self) -> None:
        """Without noise each row's level is the truth to 0.002 dB, of which 0.0013 is the symbol of the sync channel

        at whose end the measuring may begin.
        """
        out = os.path.join(self.folder, "domain.json")
        draws = random.Random(SEED)
        for pn in draws.sample(range(512), FEW):
            cell = drawn_cell(draws, pn, ())
            path = cell.write(os.path.join(self.folder, "cell.is95"), CHIPS)
            status, _, said = run_main("domain", path, "--program", PROGRAM, "--json", out)
            self.assertEqual(status, 0, said)
            with open(out, encoding="utf-8") as file:
                rows = {row["row"]: row["db"] for row in json.load(file)["rows"] if row["used"]}
            for row, power in row_powers(cell).items():
                with self.subTest(pn=pn, row=row):
                    self.assertAlmostEqual(rows[row] - rows[0], decibels(power), delta=0.002)

    def test_each_tool_tells_the_truth(self) -> None:
        count = MANY if os.environ.get("EVERY_TRUTH") else FEW
        for number in range(count):
            truth = recorded(self.folder, number)
            self.table.append(f"recording {number}: PN {', '.join(str(cell.pn) for cell in truth.cells)}")
            with self.subTest(number):
                for holds in (
                    self.import_holds, self.scan_holds, self.domain_holds, self.weaker_holds, self.listen_holds,
                    self.report_holds,
                ):  # fmt: skip
                    holds(truth)
        if count == MANY:
            print("\n" + "\n".join(self.table))


if __name__ == "__main__":
    unittest.main()
