"""The pilots of a survey, explained by what was decoded: cdma_tools.report.surveyed."""

import unittest

from tools.tests.helping import needs

needs("numpy", "scipy", "plotly")

from cdma_tools.report.surveyed import Heard, Surveyed, explained_pilots  # noqa: E402

FLOOR = 0.01


def explained(heard: Heard, *pilots: tuple[int, int]) -> list[tuple[int, int]]:
    """Returns offsets and delays of pilots that stand out of noise, as they are explained; the first is the strongest.
    """
    given = [Surveyed(pn, late, 1 / (number + 2), number) for number, (pn, late) in enumerate(pilots)]
    return [(pilot.pn, pilot.late) for pilot in explained_pilots(given, FLOOR, heard)]


class Explained(unittest.TestCase):
    def test_a_cell_that_was_heard_is_at_its_own_offset(self) -> None:
        # 55.4 chips late, PN 411 is in the survey at PN 412, 8.6 chips early.
        heard = Heard(serving=100, cells={100: 0.0, 220: 12.3, 411: 55.4})
        self.assertEqual(explained(heard, (100, 0), (220, 12), (412, -9)), [(100, 0), (220, 12), (411, 55)])

    def test_a_neighbor_within_its_search_window(self) -> None:
        heard = Heard(serving=100, neighbors=frozenset({411, 37}), increment=4, active=60, neighbor=130, remaining=6)
        self.assertEqual(explained(heard, (100, 0), (412, -9)), [(100, 0), (411, 55)])
        narrow = Heard(serving=100, neighbors=frozenset({411}), increment=4, neighbor=100)
        self.assertEqual(explained(narrow, (100, 0), (412, -9)), [(100, 0), (412, -9)])

    def test_other_pilots_are_multiples_of_the_increment(self) -> None:
        heard = Heard(serving=100, increment=4, remaining=226)
        self.assertEqual(explained(heard, (100, 0), (205, -20)), [(100, 0), (204, 44)])

    def test_what_nothing_explains_stays(self) -> None:
        heard = Heard(serving=100, increment=8, remaining=20)
        self.assertEqual(explained(heard, (100, 0), (205, -20)), [(100, 0), (205, -20)])
        self.assertEqual(explained(Heard(), (412, -9)), [(412, -9)])

    def test_each_offset_once_and_noise_where_it_is(self) -> None:
        heard = Heard(serving=100, cells={100: 0.0, 411: 55.4})
        given = ((100, 0, 0.3), (412, -9, 0.1), (411, 3, 0.002), (7, 1, 0.001))
        pilots = [Surveyed(*told, number) for number, told in enumerate(given)]
        found = explained_pilots(pilots, FLOOR, heard)
        self.assertEqual([(pilot.pn, pilot.number) for pilot in found], [(100, 0), (411, 1), (7, 3)])


if __name__ == "__main__":
    unittest.main()
