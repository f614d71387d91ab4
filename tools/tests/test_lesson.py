"""docs/LESSON.md: each command in it writes the lines below it."""

import os
import re
import subprocess
import unittest

from tools.tests.helping import PROGRAM, PYTHON, ROOT, needs, temporary_folder

needs("numpy", "matplotlib")

PAGE = os.path.join(ROOT, "docs", "LESSON.md")
STEPS = 10
MOST_BYTES = 200_000


def blocks(lines: list[str]) -> list[tuple[str, list[str]]]:
    """Yields each command of the page and the lines below it. A command with an open quotation mark continues."""
    found: list[tuple[str, list[str]]] = []
    for line in lines:
        if not line.startswith("    "):
            continue
        if line.startswith("    $ "):
            found.append((line[6:], []))
        elif found and found[-1][0].count('"') % 2:
            command, below = found[-1]
            found[-1] = (command + "\n" + line[4:], below)
        else:
            found[-1][1].append(line[4:])
    return found


class Lesson(unittest.TestCase):
    text: str
    folder: str

    @classmethod
    def setUpClass(cls) -> None:
        with open(PAGE, encoding="utf-8") as file:
            cls.text = file.read()
        cls.folder = temporary_folder(cls.addClassCleanup)

    def environment(self) -> dict[str, str]:
        """Returns an environment where `cdma_replay` is the built program, or the model if there is none."""
        command = f'"{PROGRAM}"' if PROGRAM else f"{PYTHON} -B -m model"
        path = os.path.join(self.folder, "cdma_replay")
        with open(path, "w", encoding="ascii") as file:
            file.write(f'#!/bin/sh\nexec {command} "$@"\n')
        os.chmod(path, 0o755)
        return dict(os.environ, PATH=f"{self.folder}:{os.environ['PATH']}", PYTHONDONTWRITEBYTECODE="1")

    def test_each_command_writes_what_is_said(self) -> None:
        environment = self.environment()
        for command, wanted in blocks(self.text.splitlines()):
            here = command.replace("/tmp/lesson", self.folder)
            ran = subprocess.run(["sh", "-c", here], cwd=ROOT, env=environment, capture_output=True, text=True, timeout=900)
            with self.subTest(command):
                self.assertEqual((ran.returncode, ran.stderr), (0, ""))
                self.assertEqual(ran.stdout.splitlines(), wanted)

    def test_ten_steps_each_with_a_command_a_question_and_an_answer(self) -> None:
        steps = re.split(r"(?m)^## \d+\. ", self.text)[1:]
        self.assertEqual(len(steps), STEPS)
        for step in steps:
            self.assertIn("    $ ", step)
            self.assertEqual((step.count("*Question.*"), step.count("*Answer.*")), (1, 1))

    def test_the_pictures_are_there(self) -> None:
        found = re.findall(r"!\[[^\]]+\]\(([^)]+)\)", self.text)
        self.assertTrue(found)
        for name in found:
            self.assertLess(os.path.getsize(os.path.join(ROOT, "docs", name)), MOST_BYTES)
