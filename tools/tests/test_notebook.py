"""docs/lesson.ipynb: made of docs/LESSON.md, and run as a reader would, with the lesson's own results."""

import importlib.util
import json
import os
import subprocess
import unittest
from pathlib import Path
from typing import Any

from cdma_tools.repository import lesson_notebook
from tools.tests.helping import PYTHON, ROOT, needs, temporary_folder

needs("numpy", "scipy", "matplotlib")

NEEDED = [name for name in ("nbconvert", "ipykernel") if importlib.util.find_spec(name) is None]
# Steps in which the notebook writes each line that the lesson shows.
WHOLE = (1, 3, 4, 5, 7, 8)


def shown(number: int) -> list[str]:
    """Returns the lines that the commands of a step of the lesson write, as the lesson shows them."""
    with open(lesson_notebook.LESSON, encoding="utf-8") as file:
        text = file.read().partition(f"\n## {number}. ")[2].partition("\n## ")[0]
    found: list[str] = []
    is_command = False
    for line in text.splitlines():
        if line.startswith("    $ "):
            is_command = line.count('"') % 2 == 1
        elif line.startswith("    ") and is_command:
            is_command = line.count('"') % 2 == 0
        elif line.startswith("    "):
            found.append(line[4:])
    return found


class Notebook(unittest.TestCase):
    """The notebook's text and its run."""

    seconds = 25

    def test_the_notebook_is_generated(self) -> None:
        again = "python3 -m cdma_tools.repository.lesson_notebook --write"
        written = Path(lesson_notebook.NOTEBOOK).read_text(encoding="utf-8")
        self.assertEqual(written, lesson_notebook.notebook(), f"docs/lesson.ipynb is old: {again}")

    def test_each_step_has_code(self) -> None:
        text = Path(lesson_notebook.LESSON).read_text(encoding="utf-8")
        self.assertEqual(len(lesson_notebook.steps_of(text)), len(lesson_notebook.CODE))

    @unittest.skipIf(NEEDED, f"no {', '.join(NEEDED)}: install python3-nbconvert and python3-ipykernel")
    def test_run(self) -> None:
        folder = Path(temporary_folder(self.addCleanup))
        for name in ("cdma", "cdma_tools", "cdma_model", "examples"):
            (folder / name).symlink_to(os.path.join(ROOT, name))
        (folder / "docs").mkdir()
        words = ["-m", "nbconvert", "--to", "notebook", "--execute", "--output-dir", str(folder / "docs")]
        environment = {**os.environ, "HOME": str(folder), "MPLBACKEND": "module://matplotlib_inline.backend_inline"}
        environment["PYTHONDONTWRITEBYTECODE"] = "1"
        copy = folder / "docs" / "lesson.ipynb"
        copy.write_text(Path(lesson_notebook.NOTEBOOK).read_text(encoding="utf-8"), encoding="utf-8")
        command = [PYTHON, *words, "--output", "run.ipynb", str(copy)]
        ran = subprocess.run(command, capture_output=True, text=True, env=environment, timeout=500)
        self.assertEqual(ran.returncode, 0, ran.stderr[-3_000:])
        cells = {cell["id"]: cell for cell in json.loads((folder / "docs" / "run.ipynb").read_text())["cells"]}
        for number in WHOLE:
            with self.subTest(number):
                lines = self.text(cells[f"step-{number}"]).splitlines()
                self.assertEqual([line for line in shown(number) if line not in lines], [])
        self.assertIn("[[330, -110], [-30, 10], [-210, -630], [-90, -270]]", self.text(cells["step-2"]))
        self.assertIn("111011110110001011", self.text(cells["step-6"]))
        self.assertIn("a7c9b5b1987a489106c4274527a70a2f", self.text(cells["step-9"]))
        self.assertIn("HELLO CDMA", self.text(cells["step-10"]))
        for number in (3, 5, 9):
            kinds = [kind for output in cells[f"step-{number}"]["outputs"] for kind in output.get("data", {})]
            self.assertIn("image/png", kinds)
        self.assertIn("text/html", [kind for it in cells["step-2"]["outputs"] for kind in it.get("data", {})])

    def text(self, cell: dict[str, Any]) -> str:
        """Returns what a cell printed."""
        return "".join("".join(output.get("text", "")) for output in cell["outputs"])


if __name__ == "__main__":
    unittest.main()
