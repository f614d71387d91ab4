"""repository/recipes.py: which files name a part, on small crates, and the lists in docs/PROVING.md."""

from __future__ import annotations

import os
import tempfile
import unittest

from cdma_tools.repository.recipes import (
    RECIPES,
    Fields,
    NoRecipe,
    Recipe,
    Variant,
    Word,
    files_of_crates,
    listed,
    touched,
    unlisted,
    with_lists,
)
from tools.tests.helping import ROOT

FILES = {
    "heard/src/event.rt": "pub enum Event {\n    Lost { at: u64 },\n}\n",
    "heard/src/make.rt": "    Event::Lost { at }\n",
    "heard/specs/Given.antt": "use heard.Event.TheVariants.{Found, Lost}\nat_of (Lost at') = at'\n",
    "heard/specs/Alias.antt": "use heard.Event.TheVariants as kinds\nis_lost (kinds.Lost at') = true\n",
    "heard/specs/Other.antt": "use heard.Event.TheVariants.{Found, LostAgain}\n",
    "heard/proofs/Common.antt": "pub use heard.Event.TheVariants.{Lost}\n",
    "tap/specs/Lines.antt": "event_line (Found at') = lost_line_too at'\n",
    "tap/src/line.rt": "    text_of(lost_line, at)\n",
}
# Files that have both names of a variant, each for something else.
OTHERS = {
    "a command": ["run_replies/specs/Lib.antt"],  # the modules `Findings` and `Ranks`
    "an event": ["heard_events/src/sets_notes.rt"],  # the struct `Sets` of pilot_sets
}
LOST = Recipe("a lost pilot", (Variant("Event", "Lost"), Word("lost_line")))
LISTED = """\
Counted by a lost pilot (`Event::Lost`, `lost_line`): 5 files of 2 crates, and 1 more that only re-exports names:
- `heard`: `proofs/Common`, `specs/Alias`, `specs/Given`, `src/event.rt`, `src/make.rt`
- `tap`: `src/line.rt`
"""


class Names(unittest.TestCase):
    """What a file with some text names."""

    def test_a_name_is_whole(self) -> None:
        self.assertTrue(Word("lost_line").is_in("a.lost_line (x)"))
        self.assertTrue(Word("lost_line").is_in("lost_line-requires"))
        self.assertFalse(Word("lost_line").is_in("more-lost_line lost_lines a_lost_line"))
        self.assertTrue(Word("t.traffic").is_in("(t.traffic)"))
        self.assertFalse(Word("t.traffic").is_in("other_t.traffic t_traffic"))

    def test_a_record_is_known_by_all_of_its_fields(self) -> None:
        name = Fields(("fingers", "paging"))
        self.assertTrue(name.is_in("record {\n  fingers = 1;\n  paging = 2;\n}"))
        self.assertTrue(name.is_in("Options {\n    fingers,\n    paging: 1,\n}"))
        self.assertFalse(name.is_in("record { fingers = 1; other_paging = 2 }"))
        self.assertFalse(name.is_in("f.fingers ≡ f.paging"))


class Lists(unittest.TestCase):
    """The files that name one event, in two crates."""

    def test_each_file_that_names_the_part_is_there(self) -> None:
        self.assertEqual(listed(LOST, FILES), LISTED)

    def test_no_crate_is_left_out(self) -> None:
        found = touched(Recipe(LOST.example, (Word("lost_line"),)), {**FILES, "other/src/line.rt": "lost_line"})
        self.assertEqual(found, ["other/src/line.rt", "tap/src/line.rt"])

    def test_a_goal_of_a_variant_names_it(self) -> None:
        found = touched(LOST, {**FILES, "tap/proofs/line/Answers.antt": "returns-in-Lost : goal.returns-in-Lost"})
        self.assertIn("tap/proofs/line/Answers.antt", found)

    def test_what_may_name_the_part_is_found(self) -> None:
        more = {
            "tap/proofs/line/Answers.antt": "no-lost_line c =\n",
            "tap/specs/Kinds.antt": "use heard.Event.{Event}\nis_lost Lost = true\n",
            "tap/specs/Notes.antt": "-- Event, Lost and lost_line\nuse heard.Event.Lost.{at}\n",
        }
        found = unlisted(LOST, {**FILES, **more})
        self.assertEqual(found, ["tap/proofs/line/Answers.antt", "tap/specs/Kinds.antt"])

    def test_a_brief_recipe_has_only_its_count(self) -> None:
        found = listed(Recipe(LOST.example, LOST.names, is_brief=True), FILES)
        self.assertEqual(found, LISTED.partition("\n")[0].removesuffix(":") + ".\n")

    def test_a_name_that_no_file_has_is_an_error(self) -> None:
        with self.assertRaisesRegex(NoRecipe, "^no file names Event::Gone, by which the event is found$"):
            touched(Recipe("the event", (Variant("Event", "Gone"),)), {"tap/src/line.rt": "Event::Lost"})

    def test_worked_values_and_tests_are_not_counted(self) -> None:
        counted = ("heard/src/event.rt", "heard/specs/Given.antt", "heard/proofs/a/Answers.antt")
        others = ("heard/specs/Worked.antt", "heard/specs/WorkedSets.antt", "heard/specs/FramesWorked.antt",
                  "heard/src/tests.rt", "heard/src/program_tests.rt", "line_tests/src/lines.rt",
                  "heard/must-fail/a.rt", "heard/src/notes.txt")  # fmt: skip
        with tempfile.TemporaryDirectory() as root:
            for path in (*counted, *others):
                os.makedirs(os.path.dirname(os.path.join(root, "crates", path)), exist_ok=True)
                with open(os.path.join(root, "crates", path), "w", encoding="utf-8") as file:
                    file.write(path)
            self.assertEqual(dict(files_of_crates(root)), {path: path for path in counted})


class Page(unittest.TestCase):
    """docs/PROVING.md agrees with the crates; `python3 -m cdma_tools.repository.recipes --write` makes it so."""

    def setUp(self) -> None:
        self.files = dict(files_of_crates(ROOT))
        with open(os.path.join(ROOT, "docs", "PROVING.md"), encoding="utf-8") as file:
            self.text = file.read()

    def test_each_list_is_that_of_the_files(self) -> None:
        self.assertEqual(self.text, with_lists(self.text, self.files))
        for recipe in RECIPES.values():
            self.assertIn(listed(recipe, self.files), self.text)

    def test_no_list_lacks_a_file_that_names_its_part(self) -> None:
        for kind, recipe in RECIPES.items():
            with self.subTest(kind):
                self.assertEqual(unlisted(recipe, self.files), OTHERS.get(kind, []))

    def test_a_file_more_changes_its_list(self) -> None:
        more = {**self.files, "event_tap/src/more.rt": "Event::Sets"}
        self.assertNotEqual(self.text, with_lists(self.text, more))
        self.assertEqual(with_lists(with_lists(self.text, more), self.files), self.text)

    def test_a_page_without_a_mark_is_refused(self) -> None:
        with self.assertRaisesRegex(NoRecipe, "^docs/PROVING.md has marks for nothing, not for each kind once$"):
            with_lists("nothing\n", self.files)

    def test_an_event_touches_twenty_files_at_most(self) -> None:
        self.assertRegex(listed(RECIPES["an event"], self.files), r": (1?\d|20) files of ")


if __name__ == "__main__":
    unittest.main()
