"""tools/lines and its table: lines to JSON and back, refusals, and that documents and crates agree with it."""

import json
import os
import random
import re
import tempfile
import unittest
from collections.abc import Callable, Sequence
from typing import Any

from cdma_tools.lines import (
    HEAD_FIELDS,
    IN_TRAFFIC_FIELDS,
    SEARCH_FIELDS,
    SHAPES,
    SYNC_FIELDS,
    SYSTEM_FIELDS,
    TIME_FIELDS,
    Field,
    Group,
    NoLine,
    Shape,
    Tokens,
    read_line,
    read_tokens,
    spell_line,
    table_rows,
)
from tools.tests.helping import ROOT, run_inside, run_tool

CASES = os.path.join(ROOT, "conformance", "cases")
# What docs/FORMATS.md has of the lines of each kind, as objects; the values are taken from the lines by hand.
EXAMPLES = {
    "pilot phase=64 energy=1509949440000": {"line": "pilot", "phase": 64, "energy": 1509949440000},
    "survey pn=211 delta=-6 energy=0": {"line": "survey", "pn": 211, "delta": -6, "energy": 0},
    "paging at=5 channels pn=40 seq=0 freqs=283,384 rest=2:40": {
        "line": "paging",
        "at": 5,
        "message": "channels",
        "pn": 40,
        "seq": 0,
        "freqs": [283, 384],
        "rest": "2:40",
    },
    "paging at=5 neighbors pn=40 seq=0 inc=1 pilots= rest=0:": {
        "line": "paging",
        "at": 5,
        "message": "neighbors",
        "pn": 40,
        "seq": 0,
        "inc": 1,
        "pilots": [],
        "rest": "0:",
    },
    "traffic at=7 ack=0 seq=1 req=0 enc=0 handoff use=1 action=39 hdm=0 extra=0: records=40/10/1,168/45/0 rest=5:00": {
        "line": "traffic",
        "at": 7,
        "ack": 0,
        "seq": 1,
        "req": 0,
        "enc": 0,
        "message": "handoff",
        "use": 1,
        "action": 39,
        "hdm": 0,
        "extra": "0:",
        "records": [[40, 10, 1], [168, 45, 0]],
        "rest": "5:00",
    },
    "frame at=9 rate=1200 good=1 bits=16:df67 commands=0000110001101101": {
        "line": "frame",
        "at": 9,
        "rate": 1200,
        "good": 1,
        "bits": "16:df67",
        "commands": [0, 0, 0, 0, 1, 1, 0, 0, 0, 1, 1, 0, 1, 1, 0, 1],
    },
    "sets at=1 time=7015 active=40/10/0,168/45/1 candidate= report=0": {
        "line": "sets",
        "at": 1,
        "time": 7015,
        "active": [[40, 10, 0], [168, 45, 1]],
        "candidate": [],
        "report": 0,
    },
    "raw at=3 paging 8:04": {"line": "raw", "at": 3, "channel": "paging", "bits": "8:04"},
}
REFUSED = {
    "": "is not a kind of line",
    "pilots phase=1 energy=2": "is not a kind of line",
    "pilot phase=01 energy=2": "phase: '01' is not a number",
    "pilot phase=32768 energy=2": "phase: 32768 is out of range .0 to 32767.",
    "pilot phase=1": "energy= is expected, not ''",
    "pilot phase=1 energy=2 ": "an extra space at the end",
    "pilot  phase=1 energy=2": "phase= is expected, not ''",
    "pilot phase=1 energy=2 more": "'more' follows",
    "pilot energy=2 phase=1": "phase= is expected, not 'energy=2'",
    "pilot phase=1 energy=18446744073709551616": "energy: ",
    "pilot phase=-0 energy=2": "phase: '-0' is not a number",
    "survey pn=1 delta=-32 energy=2": "delta: -32 is out of range .-31 to 31.",
    "paging at=1 others type=5 bits=0:": "'others' is not a kind of paging",
    "paging at=1": "'' is not a kind of paging",
    "raw at=1 sync 8:0": "isn't of the form N:HEX",
    "raw at=1 sync 7:01": "zeros after its last bit",
    "raw at=1 sync 8:0A": "isn't of the form N:HEX",
    "raw at=1 sync 9:ff": "must have two hex digits per octet",
    "raw at=1 sync 0:00": "must have two hex digits per octet",
    "frame at=1 rate=9601 good=1 bits=0: commands=0000000000000000": "rate: 9601 is not one of",
    "frame at=1 rate=9600 good=2 bits=0: commands=0000000000000000": "good: 2 is out of range .0 to 1.",
    "frame at=1 rate=9600 good=1 bits=0: commands=000000000000000": "commands: .* isn't 16 digits",
    "sets at=1 time=1 active=1/2 candidate= report=0": "active: '1/2' doesn't have 3 numbers",
    "sets at=1 time=1 active= candidate=1, report=0": "candidate: '' is not a number",
}


def lines_of_cases() -> list[str]:
    """Returns every line of every case."""
    lines: list[str] = []
    for name in sorted(os.listdir(CASES)):
        with open(os.path.join(CASES, name), encoding="ascii") as file:
            _, _, text = file.read().partition("\ntext:\n")
        lines += [line[2:] for line in text.splitlines()]
    return lines


LINES = lines_of_cases()


class Turning(unittest.TestCase):
    def test_examples(self) -> None:
        for line, read in EXAMPLES.items():
            with self.subTest(line):
                self.assertEqual(read_line(line), read)
                self.assertEqual(spell_line(dict(reversed(read.items()))), line)

    def test_every_line_of_every_case(self) -> None:
        self.assertGreater(len(LINES), 3_000)
        kinds = set()
        for line in LINES:
            read = read_line(line)
            kinds.add((read["line"], read.get("message", read.get("channel"))))
            self.assertEqual(spell_line(json.loads(json.dumps(read))), line)
            for name, value in read.items():
                self.check_value(line, name, value)
        not_in_cases = {("trial", None), ("raw", "paging"), ("raw", "traffic")}
        self.assertLessEqual({(shape.line, shape.word) for shape in SHAPES} - kinds, not_in_cases)

    def check_value(self, line: str, name: str, value: Any) -> None:
        """Checks that numbers are those of the line's text, and that other texts occur in it."""
        if name in ("line", "message", "channel"):
            self.assertIn(value, line.split(" "))
        elif name == "commands":
            self.assertIn("commands=" + "".join(map(str, value)), line)
        elif isinstance(value, int):
            self.assertIn(f" {name}={value:011x} " if name == "lc" else f" {name}={value} ", line + " ")
        elif isinstance(value, str):
            self.assertRegex(line + " ", rf" ({name}=)?{value} ")
        else:
            self.assertIsInstance(value, list)

    def test_what_is_no_line(self) -> None:
        for line, why in REFUSED.items():
            with self.subTest(line), self.assertRaisesRegex(NoLine, why):
                read_line(line)

    def test_hostile_lines(self) -> None:
        """Damaged lines are refused or survive the round trip: bytes of every value at random places."""
        draws, taken = random.Random(20), 0
        for line in draws.sample(LINES, 600):
            for _ in range(20):
                damaged = self.damaged(line, draws)
                try:
                    read = read_line(damaged)
                except NoLine:
                    continue
                taken += 1
                self.assertEqual(spell_line(json.loads(json.dumps(read))), damaged)
        self.assertGreater(taken, 100)

    def test_by_pattern_and_by_words(self) -> None:
        """A line read at once is what its words are one by one, with names in the same order; so is a refusal."""

        def by_words(line: str) -> dict[str, Any]:
            first, *words = line.split(" ")
            return read_tokens(first, Tokens(words))

        def read(reader: Callable[[str], dict[str, Any]], line: str) -> list[tuple[str, Any]] | str:
            try:
                return list(reader(line).items())
            except NoLine as why:
                return str(why)

        draws = random.Random(21)
        for line in draws.sample(LINES, 300):
            for text in (line, *(self.damaged(line, draws) for _ in range(10))):
                self.assertEqual(read(read_line, text), read(by_words, text))

    @staticmethod
    def damaged(line: str, draws: random.Random) -> str:
        """Returns a line with one to three changes: a byte, or a piece moved, removed or doubled."""
        for _ in range(draws.randrange(1, 4)):
            place, end = draws.randrange(len(line) + 1), draws.randrange(len(line) + 1)
            piece = line[min(place, end) : max(place, end)]
            line = draws.choice(
                [
                    line[:place] + chr(draws.randrange(256)) + line[place + 1 :],
                    line[:place] + draws.choice("0123456789=-,/: ") + line[place + 1 :],
                    line[:place] + piece + line[place:],
                    line.replace(piece, "", 1),
                ]
            )
        return line

    def test_objects_that_are_none(self) -> None:
        pilot: dict[str, object] = {"line": "pilot", "phase": 1, "energy": 2}
        wrong: tuple[tuple[dict[str, object], str], ...] = (
            ({"phase": None}, "phase is missing"),
            ({"phase": True}, "phase: True is not a whole number"),
            ({"phase": "1"}, "phase: '1' is not a whole number"),
            ({"phase": 1.5}, "phase: 1.5 is not a whole number"),
            ({"energy": 2.0**53}, "energy: .* is not a whole number"),
            ({"energy": float("nan")}, "energy: nan is not a whole number"),
            ({"energy": 2**64}, "energy: .* is out of range .0 to"),
            ({"energy": -1}, "energy: -1 is out of range .0 to"),
            ({"more": 1}, "has no field 'more'"),
            ({"message": "system"}, "has no field 'message'"),
            ({"line": ["pilot"]}, "is not a kind of line"),
            ({"line": "paging"}, "message: None is not a kind of paging"),
        )
        for change, why in wrong:
            with self.subTest(change), self.assertRaisesRegex(NoLine, why):
                spell_line({**pilot, **change})
        for line, read in EXAMPLES.items():
            for name in read:
                with self.subTest(line=line, name=name), self.assertRaises(NoLine):
                    spell_line({**read, name: {"a": 1}})
                    self.fail(f"{name} of {line} may be an object")

    def test_numbers_as_a_table_has_them(self) -> None:
        self.assertEqual(spell_line({"line": "pilot", "phase": 1.0, "energy": 2.0, "at": None}), "pilot phase=1 energy=2")


class Program(unittest.TestCase):
    def test_there_and_back(self) -> None:
        text = "".join(line + "\n" for line in LINES).encode()
        status, objects, said = run_tool("lines", data=text)
        self.assertEqual((status, said, objects.count(b"\n")), (0, "", len(LINES)))
        self.assertEqual([json.loads(line)["line"] for line in objects.splitlines()], [line.split()[0] for line in LINES])
        self.assertEqual(run_tool("lines", "--back", data=objects), (0, text, ""))
        with tempfile.NamedTemporaryFile() as file:
            file.write(objects)
            file.flush()
            self.assertEqual(run_inside("lines", file.name, "--back"), (0, text, ""))

    def test_pandas_and_back(self) -> None:
        """A table of the objects has their values, and its JSON turns back into the lines."""
        try:
            import pandas
        except ImportError as missing:
            self.skipTest(f"{missing}: install the package python3-pandas")
        # A state and power control bits of only decimal digits, which a reader must not take for numbers.
        first = "sync at=294848 prev=3 min=1 sid=1 nid=2 pn=511 lc=00000000010 time=1007 lp=13 ltm=0 daylt=0 prat=0 rest=3:00"
        heard = [line for line in LINES if line.split()[0] in ("pilot", "frame", "paging", "sets", "traffic")]
        large = [line for line in heard if read_line(line).get("energy", 0) >= 2**53]
        lines = [first, *(line for line in heard[:1_500] + heard[-1_500:] if line not in large)]
        _, objects, _ = run_inside("lines", data="".join(line + "\n" for line in lines).encode())
        with tempfile.NamedTemporaryFile() as file:
            file.write(objects)
            file.flush()
            table = pandas.read_json(file.name, lines=True)
        self.assertEqual(len(table), len(lines))
        self.assertEqual(table["lc"][0], 16)
        for place in (0, 2, 5, len(lines) - 1):
            for name, value in read_line(lines[place]).items():
                self.assertEqual(table[name][place], value)
        back = table.to_json(orient="records", lines=True).encode()
        back += b"" if back.endswith(b"\n") else b"\n"
        self.assertEqual(run_inside("lines", "--back", data=back), (0, "".join(line + "\n" for line in lines).encode(), ""))

    def test_a_rounded_number_is_refused(self) -> None:
        """A table with empty cells rounds numbers from 2^53 on; such numbers are never accepted."""
        for energy in (b"9007199254740992.0", b"4611404547745644544.0", b"1.8446744073709552e19"):
            data = b'{"line":"pilot","phase":0,"energy":%b}\n' % energy
            self.refused("energy: .* is not a whole number", "--back", data=data)
        exact = b'{"line":"pilot","phase":0,"energy":4611404547745644544}\n'
        self.assertEqual(run_inside("lines", "--back", data=exact), (0, b"pilot phase=0 energy=4611404547745644544\n", ""))

    def refused(self, why: str, *words: str, data: bytes = b"", wrote: bytes = b"", status: int = 1) -> None:
        ended, text, said = run_inside("lines", *words, data=data)
        self.assertEqual((ended, text), (status, wrote), said)
        self.assertRegex(said, why)
        self.assertNotIn("Traceback", said)

    def test_refusals(self) -> None:
        line, told = b"pilot phase=1 energy=2\n", b'{"line":"pilot","phase":1,"energy":2}\n'
        self.refused("standard input: line 2: 'survey' begins|line 2: .*pn=", data=line + b"survey\n", wrote=told)
        self.refused("line 1: it has no line feed", data=line[:-1])
        self.refused("line 1: it isn't ASCII", data=b"pilot phase=\xb2 energy=2\n")
        self.refused("line 1: it is too long", data=b"a" * 3_000_000 + b"\n")
        self.refused("No such file", "none.txt")
        self.refused("unrecognized arguments", "--forth", status=2)
        for text, why in (
            (b"[1]\n", "not an object"),
            (b"{\n", "not JSON"),
            (b"\n", "not JSON"),
            (b"[" * 100_000 + b"\n", "not JSON"),
            (b'{"line":"pilot","phase":1,"phase":1,"energy":2}\n', "a name appears twice"),
            (b'{"line":"pilot","phase":1,"energy":1e999}\n', "energy: inf is not a whole number"),
        ):
            self.refused("standard input: line 2: " + why, "--back", data=told + text, wrote=line)

    def test_the_table_is_told(self) -> None:
        self.assertEqual(run_inside("lines", "--table"), (0, "".join(row + "\n" for row in table_rows()).encode(), ""))


def text_of(*names: str) -> str:
    with open(os.path.join(ROOT, *names), encoding="utf-8") as file:
        return file.read()


def matched(pattern: str, text: str) -> re.Match[str]:
    """Returns the first match of a pattern, whose dots match line feeds too, in a text that must have one."""
    found = re.search(pattern, text, re.S)
    assert found, pattern
    return found


class Documents(unittest.TestCase):
    def test_the_table_stands_in_the_formats(self) -> None:
        shown = "".join(f"    {row}\n" for row in table_rows())
        self.assertIn(f"\n\n{shown}\n", text_of("docs", "FORMATS.md"))

    def test_the_formats_show_each_kind_of_line(self) -> None:
        """Each line that docs/FORMATS.md shows has the fields of its kind in order, and each kind is shown once."""
        shown = re.findall(r"(?m)^    (.*)$", matched(r"\n## Lines\n(.*?)\n## ", text_of("docs", "FORMATS.md"))[1])
        kinds = []
        for text in shown:
            shape = self.shape_of(text)
            kinds.append(shape)
            with self.subTest(text):
                self.check_shown(text, shape)
        self.assertEqual(kinds, list(SHAPES))

    def shape_of(self, text: str) -> Shape:
        """Returns the kind to which a pattern belongs, by its first word and by the next one if that has no = sign."""
        first, *words = text.split()
        found = [shape for shape in SHAPES if shape.line == first and (shape.word is None or shape.word in words)]
        self.assertEqual(len(found), 1, text)
        return found[0]

    def check_shown(self, text: str, shape: Shape) -> None:
        names = re.findall(r"(\w+)=", text)
        wanted = [field.name for field in shape.fields() if "raw" != shape.line or field.name != "bits"]
        if " and so on .. " in text:
            before, after = (len(re.findall(r"\w+=", part)) for part in text.split(" and so on .. "))
            wanted = wanted[:before] + wanted[len(wanted) - after :]
        self.assertEqual(names, wanted)
        optional = re.findall(r"(\w+)=", " ".join(re.findall(r"\[(.*?)\]", text)))
        grouped = [field.name for part in shape.body if isinstance(part, Group) for field in part.fields]
        self.assertEqual(optional, grouped)

    def test_the_example_of_the_formats(self) -> None:
        shown = matched(r"\| tools/lines\n((?:    [^\n]*\n)+)", text_of("docs", "FORMATS.md"))[1]
        lines = [spell_line(json.loads(text)) for text in shown.splitlines()]
        self.assertEqual(len(lines), 4)
        for line in lines:
            self.assertIn(f"\n    {line}\n", text_of("README.md"))

    def test_the_crates_have_the_same_fields(self) -> None:
        """The names and widths of the tables by which the program reads messages and writes lines."""
        traffic = text_of("crates", "traffic_message", "src", "table.rt")
        paging = text_of("crates", "paging_message", "src", "system.rt")
        sync = text_of("crates", "sync_message", "src", "table.rt")
        for name, fields, source in (
            ("SYNC_FIELDS", SYNC_FIELDS, sync),
            ("SYSTEM_FIELDS", SYSTEM_FIELDS, paging),
            ("HEAD_FIELDS", HEAD_FIELDS, traffic),
            ("IN_TRAFFIC_FIELDS", IN_TRAFFIC_FIELDS, traffic),
            ("TIME_FIELDS", TIME_FIELDS, traffic),
            ("SEARCH_FIELDS", SEARCH_FIELDS, traffic),
        ):
            self.check_rows(self.rows_of(name, source), fields)
        self.assertIn('pub const FREQ_FIELD: FieldRow = ("freq", 11);', sync)

    def rows_of(self, name: str, source: str) -> list[tuple[str, str]]:
        """Returns the names and widths of a table, which is written out or made from a macro's list of fields."""
        made = matched(rf"pub const {name}: [^=]*= (?:\[(.*?)\]|(\w+)!\(field_rows\));", source)
        if made[2] is None:
            return re.findall(r'\("(\w+)", (\d+)\)', made[1])
        body = matched(rf"macro_rules! {made[2]} {{.*?\n}}", source)[0]
        listed = re.findall(r"(\d+) (\w+) (\d+)", body)
        self.assertEqual([int(place) for place, _, _ in listed], list(range(len(listed))))
        return [(field, width) for _, field, width in listed]

    def check_rows(self, rows: list[tuple[str, str]], fields: Sequence[Field]) -> None:
        self.assertEqual([name for name, _ in rows], [field.name for field in fields])
        for (_, width), field in zip(rows, fields):
            most = 2 ** int(width) - 1
            spelled = f"{most:011x}" if field.name == "lc" else str(most)
            self.assertEqual(field.form.spell(most), spelled)
            with self.assertRaises(NoLine):
                field.form.spell(most + 1)


if __name__ == "__main__":
    unittest.main()
