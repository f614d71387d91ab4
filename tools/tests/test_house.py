"""tools/house: how lines are counted, the places of rooms, and that the kept picture agrees with the tree."""

import os
import re
import unittest
import xml.etree.ElementTree

from cdma_tools.repository.crate_list import crates_below
from cdma_tools.repository.house import KINDS, Lines, code_and_contracts, house, lines_of, rooms
from tools.tests.helping import ROOT, run_inside, run_tool, temporary_folder

KEPT = os.path.join(ROOT, "docs", "pictures", "house.svg")
CODE = """\
//! What it is for.

ghost use Rattle.std.specs.Prelude.{◌≡◌};

/// Doubles.
pub fn double(n: u8) -> u16
    requires {
        n ≤ 100
    }
    ensures { result ≡ 2 * n }
{
    // as it is
    2 * n as u16
}
"""
BELOW: dict[str, list[str]] = {
    "core": [],
    "base_modulator": ["core"],
    "tuned_listener": ["core"],
    "pilot_survey": ["core"],
    "top": ["base_modulator", "tuned_listener"],
}


def texts(picture: str) -> list[str]:
    """Returns the texts of a picture, in order."""
    return [one.text or "" for one in xml.etree.ElementTree.fromstring(picture).iter() if one.tag.endswith("}text")]


class Counting(unittest.TestCase):
    def test_code_and_contracts_are_told_apart(self) -> None:
        # Code: the signature, the body's two brackets and its line. Contracts: the use, three of requires, ensures.
        self.assertEqual(code_and_contracts(CODE), Lines(code=4, contracts=5))

    def test_a_crate_has_code_definitions_and_proofs(self) -> None:
        folder = temporary_folder(self.addCleanup)
        for place, text in (
            ("src/lib.rt", "mod a;\n"),
            ("src/a/b.rt", CODE),
            ("specs/Lib.antt", "-- a comment\n\nx = 1\n"),
            ("proofs/Deep/Lib.antt", "a\nb\n  c\n"),
            ("must-fail/wrong.edit", "not counted\n"),
        ):
            path = os.path.join(folder, place)
            os.makedirs(os.path.dirname(path), exist_ok=True)
            with open(path, "w", encoding="utf-8") as file:
                file.write(text)
        self.assertEqual(lines_of(folder), Lines(5, 5, 1, 3))


class Drawing(unittest.TestCase):
    def test_rooms_lie_by_side_and_layer(self) -> None:
        found, floors = rooms(BELOW, dict.fromkeys(BELOW, Lines()))
        places = {room.name: (room.column, room.row) for room in found}
        wanted = {"top": (3, 0), "base_modulator": (0, 1), "tuned_listener": (2, 1), "pilot_survey": (2, 2), "core": (1, 3)}
        self.assertEqual((places, floors), (wanted, [(3, 0), (2, 1), (1, 3), (0, 4)]))

    def test_numbers_stand_in_their_rooms_and_their_sums_above(self) -> None:
        lines = {name: Lines(1000 * at, 1, 2, 3) for at, name in enumerate(BELOW)}
        told = texts(house(BELOW, lines))
        wanted = ["10,000 lines of code", "5 lines of contracts", "10 lines of definitions", "15 lines of proofs"]
        self.assertEqual(told[:4], wanted)
        self.assertEqual(told[told.index("top") + 1], "4,000 / 1 / 2 / 3")

    def test_the_longest_bar_fills_its_room(self) -> None:
        lines = dict.fromkeys(BELOW, Lines()) | {"core": Lines(10, 20, 30, 40), "top": Lines(5, 10, 15, 20)}
        widths = [float(width) for width in re.findall(r'width="([\d.]+)" height="10"', house(BELOW, lines))]
        self.assertEqual([width for width in widths if width], [11.2, 22.4, 33.6, 44.8, 22.4, 44.8, 67.2, 89.6])


class Tool(unittest.TestCase):
    def test_the_kept_picture_is_that_of_the_tree(self) -> None:
        """If it is not, run `tools/house --write docs/pictures/house.svg`."""
        path = os.path.join(temporary_folder(self.addCleanup), "house.svg")
        self.assertEqual(run_inside("house", "--write", path), (0, b"", ""))
        with open(path, encoding="utf-8") as made, open(KEPT, encoding="utf-8") as kept:
            self.assertEqual(made.read(), kept.read(), "run tools/house --write docs/pictures/house.svg")

    def test_the_table_has_each_crate(self) -> None:
        status, wrote, said = run_tool("house")
        names = [line.split()[0] for line in wrote.decode().splitlines()]
        self.assertEqual((status, said, names), (0, "", ["crate", *crates_below(ROOT), "all"]))
        self.assertEqual(wrote.decode().split("\n")[0].split(), ["crate", *KINDS, "lines", "budget"])

    def test_what_is_refused(self) -> None:
        self.assertEqual(run_inside("house", "more")[0], 2)
        status, wrote, said = run_inside("house", "--write", "/none/x.svg")
        self.assertEqual((status, wrote), (1, b""))
        self.assertRegex(said, r"\Ahouse: /none.*\n\Z")


if __name__ == "__main__":
    unittest.main()
