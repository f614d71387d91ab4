"""The tool `script`: its verdicts are the program's, and its reasons name typical slips."""

import codecs
import contextlib
import io
import json
import math
import os
import random
import re
import subprocess
import unittest

from cdma_model.script import BadScript, read_script
from cdma_model.words import BadWords, read_words
from cdma_tools.commands import status_of
from cdma_tools.scripting.arguments import faults as argument_faults
from cdma_tools.scripting.checking import check, verdict
from tools.tests import test_refused_scripts as refused
from tools.tests import test_refused_words as refused_words
from tools.tests.helping import EXAMPLES, NO_PROGRAM, PROGRAM, temporary_folder

# The tables of misplaced lines, with the lines before them.
TABLES = {
    "FAULTY_CELLS": "",
    "FAULTY_LINKS": "CELL",
    "FAULTY_PILOTS": "CELL LINK",
    "FAULTY_SYNCS": "CELL LINK PILOT",
    "FAULTY_PAGINGS": "CELL LINK PILOT SYNC",
    "FAULTY_PAGES": "CELL LINK PILOT SYNC PAGING",
    "FAULTY_TRAFFICS": "CELL LINK PILOT SYNC",
    "FAULTY_FRAMES": "CELL LINK PILOT SYNC TRAFFIC",
    "FAULTY_FRAMES2": "CELL LINK PILOT SYNC TRAFFIC",
}
EDITS = 2_000
SEED = 95


def lines(names: str) -> str:
    """Returns the lines of these names."""
    return "".join(refused.LINES[name] + "\n" for name in names.split())


def script_of(name: str) -> str:
    """Returns the text of an example."""
    with open(os.path.join(EXAMPLES, name), encoding="ascii") as file:
        return file.read()


def by_model(script: bytes, width: int = 16) -> str | None:
    """Returns the model's verdict on a script."""
    try:
        read_script(script, width)
    except BadScript as why:
        return str(why)
    return None


def by_program(script: bytes, width: int = 16) -> str | None:
    """Returns the program's verdict on a script; its output has no room, so a right script ends at the first write."""
    assert PROGRAM
    with open("/dev/full", "wb") as full:
        done = subprocess.run(
            [PROGRAM, "make", "--bits", str(width)], input=script, stdout=full, stderr=subprocess.PIPE, check=False
        )
    said = done.stderr.decode().strip()
    return said.removeprefix("bad script: ") if done.returncode == 8 else None


def edited(draw: random.Random, text: str) -> bytes:
    """Returns a script with one to three random edits of letters, words or lines."""
    for _ in range(draw.choice((1, 1, 2, 3))):
        place = draw.randrange(len(text) + 1)
        kind = draw.randrange(6)
        rows = text.split("\n")
        row = draw.randrange(len(rows))
        if kind == 0:
            text = text[:place] + draw.choice("0123456789abcdef =:-\n\t\r#é") + text[place:]
        elif kind == 1:
            text = text[:place] + text[place + draw.choice((1, 1, 2, 8)) :]
        elif kind == 2:
            text = "\n".join(rows[:row] + rows[row + 1 :])
        elif kind == 3:
            text = "\n".join(rows[:row] + [draw.choice(rows)] + rows[row:])
        elif kind == 4:
            numbers = list(re.finditer("[0-9]+", text))
            if not numbers:
                continue
            found = draw.choice(numbers)
            text = (
                text[: found.start()]
                + str(draw.choice((0, 1, 7, 63, 64, 512, 65_536, 1 << 32, 1 << 64)))
                + text[found.end() :]
            )
        else:
            words = rows[row].split(" ")
            draw.shuffle(words)
            text = "\n".join(rows[:row] + [" ".join(words)] + rows[row + 1 :])
    return text.encode("latin-1")


def random_scripts() -> list[tuple[bytes, int]]:
    """Yields the scripts with random edits, each with a width of samples."""
    draw = random.Random(SEED)
    names = ("second_of_paging.script", "lesson.script", "frames_14400.script", "call_neighbor.script")
    texts = ["\n".join(script_of(name).split("\n")[:14]) + "\n" for name in names]
    return [(edited(draw, draw.choice(texts)), draw.choice((16, 16, 16, 8))) for _ in range(EDITS)]


class Verdicts(unittest.TestCase):
    """The verdict on a script."""

    def test_the_line_of_each_refused_script(self) -> None:
        for table, before in TABLES.items():
            for line in getattr(refused, table):
                script = (lines(before) + line + "\n").encode("latin-1")
                self.assertEqual(verdict(check(script)), f"line {len(before.split()) + 1}", line)

    def test_the_line_of_each_wrong_order(self) -> None:
        tables = [name for name in dir(refused) if name.endswith("ORDERS")]
        self.assertGreater(len(tables), 1)
        for table in tables:
            for number, names, end in getattr(refused, table):
                self.assertEqual(verdict(check((lines(names) + end).encode("latin-1"))), f"line {number}", (names, end))

    def test_random_edits_as_the_model(self) -> None:
        kinds = set()
        for script, width in random_scripts():
            said = verdict(check(script, width))
            self.assertEqual(said, by_model(script, width), script)
            kinds.add(said and said.rstrip("0123456789"))
        self.assertLessEqual({None, "line ", "walsh ", "gain ", "too loud ", "too long "}, kinds)

    @unittest.skipUnless(PROGRAM, NO_PROGRAM)
    def test_random_edits_as_the_program(self) -> None:
        for script, width in random_scripts():
            self.assertEqual(verdict(check(script, width)), by_program(script, width), script)

    def test_sizes(self) -> None:
        self.assertEqual(verdict(check(b"x" * 1_048_577)), "too big")
        self.assertEqual(verdict(check(b"\n" * 1_048_576)), "line 1")

    def test_each_example_is_right(self) -> None:
        for name in sorted(os.listdir(EXAMPLES)):
            if name.endswith(".script"):
                self.assertEqual(check(script_of(name).encode()), [], name)


class Reasons(unittest.TestCase):
    """The report on typical slips: line, column, and words of the reason."""

    HEAD = lines("CELL LINK PILOT SYNC PAGING HALF TRAFFIC FRAME").split("\n")
    # The line that takes another's place, its number, the column, and what the reason says.
    SLIPS = [
        (1, "cell pn=600 time=1000 lc=20000000000 checks=0", 9, "600 is out of range (0 to 511)"),
        (3, "pilot gain=99.5", 14, "whole number"),
        (4, "sync gain=30  prev=3 min=1 sid=1 nid=2 lp=13 ltm=0 daylt=0 prat=0 rest=3:00", 13, "exactly one space"),
        (3, "pilot gain=100\r", 15, "carriage return"),
        (3, "# the pilot", 1, "no comments: delete the line"),
        (3, "pilot gain=100  # loud, ä", 17, "no comments: delete from here to the end of the line"),
        (3, "pilot gäin=100", 8, "only printable ASCII"),
        (3, "sync gain=30 prev=3 min=1 sid=1 nid=2 lp=13 ltm=0 daylt=0 prat=0 rest=3:00", 1, "after link comes pilot"),
        (6, "page half 34:04ff80", 14, "34 bits are written in 10 hex digits, not 6"),
        (8, "frame 4800 81:0000000000000000000000 0101010101010101", 12, "a frame of 4800 has 80 bits, not 81"),
        (7, "traffic row=1 esn=00000009 offset=0 gain=40", 13, "Walsh row 1 is taken by the channel in line 5"),
        (3, "pilot gain=20000", 1, "more than 32,767"),
    ]

    def test_typical_slips(self) -> None:
        for number, line, column, reason in self.SLIPS:
            rows = list(self.HEAD)
            rows[number - 1] = line
            found = [fault for fault in check("\n".join(rows).encode()) if reason in fault.reason]
            self.assertEqual(len(found), 1, (line, check("\n".join(rows).encode())))
            place = 2 if "32,767" in reason else number
            self.assertEqual((found[0].line, found[0].column), (place, column), line)

    def test_a_character_that_no_script_has(self) -> None:
        """It is shown as the editor shows it; a byte that is no UTF-8 is shown by itself."""
        for data, shown in (("pilöt".encode(), "ö"), (b"pil\xf6t", "ö"), (b"pil\x00", "\0")):
            script = self.HEAD[0].encode() + b"\n" + data + b"\n"
            self.assertIn(shown, [fault.value for fault in check(script)], data)

    def test_files_of_editors_that_write_no_ascii(self) -> None:
        """A mark of another encoding is one fault, and what follows a mark of UTF-8 is checked too."""
        text = script_of("second_of_paging.script")
        for data, reasons in (
            (codecs.BOM_UTF8 + text.encode(), ["byte order mark"]),
            (codecs.BOM_UTF8 + text.replace("gain=30", "gain=x").encode(), ["byte order mark", "whole number"]),
            (text.encode("utf-16"), ["UTF-16"]),
            (codecs.BOM_UTF16_BE + text.encode("utf-16-be"), ["UTF-16"]),
        ):
            found = check(data)
            self.assertEqual(verdict(found), by_model(data))
            self.assertEqual(len(found), len(reasons), found)
            for fault, reason in zip(found, reasons):
                self.assertIn(reason, fault.reason)

    def test_a_page_without_room(self) -> None:
        # A body of 50 bits and the 38 outside it are 88 of 95: 7 are left.
        script = lines("CELL LINK PILOT SYNC PAGING ELEVEN_OCTETS NEXT")
        found = check(script.encode())
        self.assertEqual([(fault.line, fault.column) for fault in found], [(7, 6)])
        self.assertIn("only 7 bits are left", found[0].reason)

    def test_by_how_much_a_cell_is_too_loud(self) -> None:
        script = lines("CELL LINK PILOT SYNC").replace("gain=100", "gain=10900")
        found = check(script.encode())
        # 3 times (10,900 + 30) is 32,790
        self.assertEqual([fault.verdict for fault in found], ["too loud 32790"])
        self.assertIn("23 more than 32,767: bring the sum of the gains down to 10,922", found[0].reason)

    def test_all_faults_are_reported(self) -> None:
        script = "cell pn=512 time=-1 lc=2 checks=0\nlink re=0 im=0 start=0 samples=1\npilots gain=0\nsync gain=1\n"
        self.assertEqual([fault.line for fault in check(script.encode())], [1, 1, 1, 2, 3, 4])

    def test_no_fault_that_only_follows_from_another(self) -> None:
        """A wrong name, a statement that comes too late, and a page whose bits can't be read are one fault each."""
        cell, link, pilot, sync, paging, half, *_ = self.HEAD
        other = half.replace("half", "next")
        for rows, wanted in (
            ([cell, link, "pilt gain=100", sync, paging, half], [3]),
            ([cell, link, pilot, sync, "pageing channel=1 gain=60", half, half], [5]),
            ([cell, link, sync, pilot, paging, half], [3, 4]),
            ([cell, link, pilot, sync, link, paging, half], [5]),
            ([cell, link, pilot, sync, paging, "page half 34:04ff80", other, other], [6]),
            ([cell, link, pilot, sync, paging, "page half", other], [6]),
            ([cell, link, pilot, sync, paging, "page next 34:04ff80", other], [6, 6]),
            ([cell, link, pilot, sync, paging, other, other], [6]),
        ):
            script = ("\n".join(rows) + "\n").encode()
            self.assertEqual(verdict(check(script)), by_model(script), rows)
            self.assertEqual([fault.line for fault in check(script)], wanted, rows)

    def test_bits_that_pad(self) -> None:
        for count, said in ((33, "the last 7 bits pad "), (39, "the last bit pads ")):
            script = lines("CELL LINK PILOT SYNC PAGING") + f"page half {count}:ffffffffff\n"
            self.assertEqual([fault.reason.startswith(said) for fault in check(script.encode())], [True])


class Arguments(unittest.TestCase):
    """The verdict on arguments."""

    def test_refused_arguments(self) -> None:
        tables = [name for name in dir(refused_words) if name.startswith("FAULTY")]
        self.assertGreater(len(tables), 1)
        for table in tables:
            for row in getattr(refused_words, table):
                self.assertTrue(argument_faults(row.split(" ") if row else []), row)

    def test_random_arguments_as_the_model(self) -> None:
        draw = random.Random(SEED)
        words = (
            "find follow rate2 list idle survey make trial --span --workers --fingers --paging --esn --row --offset --k"
        )
        words += " --key --cycle --base --width --top --bits --number --raw 1 2 8 16 32 64 512"
        words += " 0000abcd --span=64 --row=10 --"
        right = 0
        for _ in range(4_000):
            given = [draw.choice(words.split()) for _ in range(draw.choice((1, 1, 3, 3, 5, 7)))]
            try:
                read_words(given)
                is_right = True
            except BadWords:
                is_right = False
            right += is_right
            self.assertEqual(not argument_faults(given), is_right, given)
        self.assertGreater(right, 50)

    def test_reasons(self) -> None:
        self.assertIn("64 to 32,768", argument_faults(["find", "--span", "7"])[0])
        self.assertIn("did you mean --fingers?", argument_faults(["follow", "--finger", "2"])[0])
        self.assertIn("--esn needs --row", argument_faults(["follow", "--esn", "0000abcd"])[0])
        self.assertIn("option of idle", argument_faults(["follow", "--key", "00000000"])[0])
        for word in ("--help", "-h", "help"):
            self.assertIn(f"cdma_replay has no {word}: man cdma_replay has", argument_faults([word])[0])


class Tool(unittest.TestCase):
    """The command."""

    def run_tool(self, *words: str) -> tuple[int, str, str]:
        """Runs the tool; returns status, output and standard error."""
        wrote, said = io.StringIO(), io.StringIO()
        with contextlib.redirect_stdout(wrote), contextlib.redirect_stderr(said):
            status = status_of("script", list(words))
        return status, wrote.getvalue(), said.getvalue()

    def test_a_fault_has_its_place(self) -> None:
        path = os.path.join(temporary_folder(self.addCleanup), "mine.script")
        with open(path, "w", encoding="ascii") as file:
            file.write(lines("CELL LINK").replace("pn=511", "pn=600") + "pilot gain=100\n")
        status, wrote, _ = self.run_tool("check", path)
        self.assertEqual(status, 1)
        self.assertTrue(wrote.startswith(f"{path}:1:9: pn=600: pn: 600 is out of range"), wrote)
        self.assertTrue(wrote.endswith(f"{path}: cdma_replay make says: bad script: line 1\n"), wrote)
        status, wrote, _ = self.run_tool("check", "--json", path)
        self.assertEqual((status, json.loads(wrote)["column"]), (1, 9))

    def test_new_scripts_are_right_and_have_their_levels(self) -> None:
        folder = temporary_folder(self.addCleanup)
        for width in ("16", "8"):
            path = os.path.join(folder, f"new{width}.script")
            words = "--pn 100 --paging 1:-3 --paging 2:-20 --traffic 10:00c0ffee:3:-8.5 --seconds 0.5 --sync -9".split()
            status, wrote, said = self.run_tool("new", *words, "--bits", width, "--out", path)
            self.assertEqual((status, wrote), (0, ""), said)
            self.assertEqual(said.count("\n"), 13)
            with open(path, encoding="ascii") as file:
                text = file.read()
            self.assertEqual(check(text.encode(), int(width)), [])
            gains = [int(gain) for gain in re.findall("gain=([0-9]+)", text)]
            for gain, level in zip(gains[1:], (-9, -3, -20, -8.5), strict=True):
                self.assertLessEqual(abs(gain - gains[0] * 10 ** (level / 20)), 0.5, (width, gain))
                self.assertIn(f"{20 * math.log10(gain / gains[0]):.1f} dB", said)

    def test_a_cell_in_words(self) -> None:
        status, wrote, _ = self.run_tool("show", os.path.join(EXAMPLES, "second_of_paging.script"))
        self.assertEqual(status, 0)
        # 1,228,800 samples are a second. The pilot has 10,000 of 100^2 + 30^2 + 60^2 = 14,500, -1.6 dB, and 30 to 100
        # is -10.5 dB.
        for text in (
            "PN 511",
            "1980-01-06 00:01:20.00",
            "times 0 - 3j",
            "1.000 s",
            "-1.6 dB",
            "-10.5 dB",
            "570 of 32,767",
        ):
            self.assertIn(text, wrote)
        self.assertRegex(wrote, r"sync +32 +30 +-12\.1 dB +-10\.5 dB +89\n")

    def test_what_is_no_script_is_shown_by_its_first_fault(self) -> None:
        path = os.path.join(temporary_folder(self.addCleanup), "bytes")
        with open(path, "wb") as file:
            file.write(bytes(range(256)) * 64)
        status, wrote, said = self.run_tool("show", path)
        self.assertEqual((status, wrote, said.count("\n")), (1, "", 1))
        status, wrote, _ = self.run_tool("check", path)
        self.assertEqual(status, 1)
        self.assertTrue(wrote.isascii())


if __name__ == "__main__":
    unittest.main()
