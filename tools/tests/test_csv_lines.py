"""tools/lines --csv: a table of the lines of one kind, by RFC 4180, and how pandas reads it."""

import csv
import io
import json
import re
import unittest

from cdma_tools.csv_lines import KINDS
from tools.tests.helping import run_inside
from tools.tests.test_lines import LINES, text_of

HANDOFF = "traffic at=7 ack=0 seq=1 req=0 enc=0 handoff use=1 action=39 hdm=0 extra=0: records=%s rest=5:00\n"
FRAME = "frame at=9 rate=1200 good=1 bits=16:df67 commands=0000110001101101\n"
# Tables by RFC 4180: rows end with CR LF, and a cell with a comma is in quotation marks.
TABLES = {
    ("survey", "survey pn=211 delta=-6 energy=18446744073709551615\n"): (
        "pn,delta,energy\r\n211,-6,18446744073709551615\r\n"
    ),
    ("frame", FRAME): 'at,rate,good,bits,commands\r\n9,1200,1,16:df67,"[0,0,0,0,1,1,0,0,0,1,1,0,1,1,0,1]"\r\n',
    ("frame2", FRAME): "at,rate,good,bits,commands\r\n",
    ("traffic-handoff", HANDOFF % "40/10/1,168/45/0" + FRAME + HANDOFF % "1/2/0"): (
        "at,ack,seq,req,enc,use,action,hdm,wina,tadd,tdrop,tcomp,ttdrop,extra,records,rest\r\n"
        '7,0,1,0,0,1,39,0,,,,,,0:,"[[40,10,1],[168,45,0]]",5:00\r\n'
        '7,0,1,0,0,1,39,0,,,,,,0:,"[[1,2,0]]",5:00\r\n'
    ),
    ("paging-channels", "paging at=5 channels pn=40 seq=0 freqs=283 rest=2:40\n"): (
        "at,pn,seq,freqs,rest\r\n5,40,0,[283],2:40\r\n"
    ),
    ("raw-paging", "raw at=3 paging 8:04\nraw at=3 sync 8:05\n"): "at,bits\r\n3,8:04\r\n",
}


def table_of(kind: str, text: str) -> str:
    """Returns the table of the lines of a kind."""
    status, wrote, said = run_inside("lines", "--csv", kind, data=text.encode())
    assert (status, said) == (0, ""), said
    return wrote.decode()


def as_in_line(name: str, cell: str) -> str:
    """Returns a cell as in the line: numbers of a list are separated by commas, those of its records by slashes."""
    if not cell.startswith("["):
        return cell
    parts = ["/".join(map(str, part)) if isinstance(part, list) else str(part) for part in json.loads(cell)]
    return ("" if name == "commands" else ",").join(parts)


class Tables(unittest.TestCase):
    """What is written."""

    seconds = 3

    def test_tables(self) -> None:
        for (kind, lines), table in TABLES.items():
            with self.subTest(kind):
                self.assertEqual(table_of(kind, lines), table)

    def test_every_line_of_every_case(self) -> None:
        """Each line is in exactly one table, and the row's cells are the texts of the line."""
        text, rows = "".join(line + "\n" for line in LINES), 0
        for kind in KINDS:
            table = list(csv.reader(io.StringIO(table_of(kind, text), newline=""), strict=True))
            first, _, word = kind.partition("-")
            lines = [line for line in LINES if line.split()[0] == first and (not word or word in line.split())]
            with self.subTest(kind):
                self.assertEqual(len(table), 1 + len(lines))
                for row, line in zip(table[1:], lines):
                    self.check_row(dict(zip(table[0], row, strict=True)), line)
            rows += len(lines)
        self.assertEqual(rows, len(LINES))

    def check_row(self, row: dict[str, str], line: str) -> None:
        """Checks that the cells that are not empty are the values of the line, in order."""
        told = re.findall(r" (?:([a-z]+[0-9]?)=)?([^ =]*[0-9:][^ =]*|(?<==))(?= |$)", line)
        wanted = {name or "bits": value for name, value in told}
        cells = {name: as_in_line(name, cell) for name, cell in row.items() if cell}
        self.assertEqual(list(cells.items()), list(wanted.items()), line)

    def test_pandas_reads_what_the_page_says(self) -> None:
        """The Python lines in docs/FORMATS.md make a table with the values of the lines."""
        try:
            import pandas
        except ImportError as missing:
            self.skipTest(f"{missing}: install the package python3-pandas")
        page = text_of("docs", "FORMATS.md")
        told = re.search(r"pandas\.read_csv\(\"[^\"]*\", (dtype=\{.*?\}, converters=\{.*?\})\)", page, re.S)
        assert told
        ways = eval(f"dict({told[1]})", {"json": json})
        sync = "sync at=1 prev=3 min=1 sid=1 nid=2 pn=511 lc=00000000010 time=7 lp=13 ltm=0 daylt=0 prat=0 rest=3:00\n"
        large = "pilot phase=1 energy=9007199254740993\n"
        neighbors = "paging at=5 neighbors pn=40 seq=0 inc=1 pilots=0/9,1/12 rest=2:40\n"
        read = {
            kind: pandas.read_csv(io.StringIO(table_of(kind, text)), **ways)
            for kind, text in (("sync", sync), ("pilot", large), ("paging-neighbors", neighbors), ("frame", FRAME))
        }
        self.assertEqual((read["sync"]["lc"][0], read["sync"]["time"][0]), ("00000000010", 7))
        self.assertEqual(read["pilot"]["energy"][0], 9_007_199_254_740_993)
        self.assertEqual(read["paging-neighbors"]["pilots"][0], [[0, 9], [1, 12]])
        self.assertEqual(read["frame"]["bits"][0], "16:df67")
        self.assertEqual(sum(read["frame"]["commands"][0]), 7)


class Faults(unittest.TestCase):
    """What is refused."""

    seconds = 1

    def test_refusals(self) -> None:
        for words, data, status, wrote, why in (
            (("--csv", "none"), b"", 2, b"", "invalid choice"),
            (("--csv", "pilot", "--back"), b"", 2, b"", "not allowed with"),
            (("--csv", "pilot"), b"frame\n", 1, b"phase,energy\r\n", "standard input: line 1: at= is expected"),
            (("--csv", "pilot"), FRAME[:-1].encode(), 1, b"phase,energy\r\n", "line 1: it has no line feed"),
        ):
            with self.subTest(words):
                ended, text, said = run_inside("lines", *words, data=data)
                self.assertEqual((ended, text, said.count("\n")), (status, wrote, 1), said)
                self.assertRegex(said, why)


if __name__ == "__main__":
    unittest.main()
