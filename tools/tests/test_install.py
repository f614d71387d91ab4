"""tools/install: what it installs, and what it refuses. A script replaces the program."""

import importlib.util
import os
import re
import subprocess
import unittest

from cdma_tools.packaging import tree
from cdma_tools.program import NOT_INSTALLED
from tools.tests.helping import PYTHON, ROOT, TOOLS, needs, run_tool, temporary_folder

MAKERS = ("shtab", "build_manpages")  # the packages that make completions and manual pages
STANDS_FOR = b"#!/bin/sh\necho bad words >&2\nexit 2\n"


class Installs(unittest.TestCase):
    def setUp(self) -> None:
        folder = temporary_folder(self.addCleanup)
        self.prefix = os.path.join(folder, "usr")
        self.program = os.path.join(folder, "program")
        self.keep(STANDS_FOR)

    def keep(self, data: bytes, mode: int = 0o700) -> None:
        """Writes the program's stand-in."""
        with open(self.program, "wb") as file:
            file.write(data)
        os.chmod(self.program, mode)

    def read(self, *path: str) -> bytes:
        """Returns the bytes of a file."""
        with open(os.path.join(*path), "rb") as file:
            return file.read()

    def files(self) -> list[str]:
        """Returns all files below the prefix."""
        return sorted(os.path.join(path, name) for path, _, names in os.walk(self.prefix) for name in names)

    def test_all_is_in_place_and_taken_away_again(self) -> None:
        needs(*MAKERS)
        for _ in range(2):
            status, wrote, said = run_tool("install", "--program", self.program, self.prefix)
            self.assertEqual((status, said), (0, ""))
            page = os.path.join(self.prefix, "share", "man", "man1", "cdma_replay.1")
            program = os.path.join(self.prefix, "bin", "cdma_replay")
            self.assertEqual(sorted(wrote.decode().splitlines()), self.files())
            packages = {place.split("/")[2] for place in tree.listed(self.prefix) if place.endswith("/__init__.py")}
            self.assertEqual(packages, {"cdma", "cdma_model", "cdma_tools"})
            self.assertEqual(self.read(program), STANDS_FOR)
            self.assertEqual(self.read(page), self.read(ROOT, "docs", "cdma_replay.1"))
            self.assertEqual([os.stat(path).st_mode & 0o777 for path in (page, program)], [0o644, 0o755])
        other = os.path.join(self.prefix, "bin", "other")
        with open(other, "w") as file:
            file.write("of somebody else")
        status, _, said = run_tool("install", "--remove", self.prefix)
        self.assertEqual((status, said, self.files()), (0, "", [other]))
        self.refused_as("nothing is installed there", "--remove", self.prefix)

    def test_links_of_installed_pages_lead_to_installed_files(self) -> None:
        needs(*MAKERS)
        self.assertEqual(run_tool("install", "--program", self.program, self.prefix)[0], 0)
        documents = os.path.join(self.prefix, "share", "doc", "cdma-replay")
        pages = [path for path in self.files() if path.startswith(documents) and path.endswith(".md")]
        self.assertIn(os.path.join(documents, "CONTRIBUTING.md"), pages)
        links = 0
        for page in pages:
            for name in re.findall(r"\]\((?!https?:)([^)#]+)(?:#[^)]*)?\)", self.read(page).decode()):
                with self.subTest(page=os.path.relpath(page, documents), name=name):
                    path = os.path.normpath(os.path.join(os.path.dirname(page), name))
                    self.assertTrue(path.startswith(documents) and os.path.isfile(path))
                    links += 1
        self.assertGreater(links, 50)

    def listened(self, command: str) -> str:
        """Returns what an installed command writes about a stream of zeros if the environment names no program."""
        words = [command, "--type", "ci8", "--rate", "1228800", "-"]
        ran = subprocess.run(words, input=bytes(1_000), capture_output=True, env={"PATH": "/none"}, timeout=300)
        self.assertEqual((ran.returncode, ran.stdout), (1, b""))
        return ran.stderr.decode()

    @unittest.skipUnless(importlib.util.find_spec("scipy"), "no scipy: install the package python3-scipy")
    def test_an_installed_command_finds_the_program_beside_it(self) -> None:
        needs(*MAKERS)
        self.assertEqual(run_tool("install", "--program", self.program, self.prefix)[0], 0)
        command = os.path.join(self.prefix, "bin", "cdma-listen")
        link = os.path.join(os.path.dirname(self.prefix), "cdma-listen")
        os.symlink(command, link)
        for way in (command, link):
            self.assertRegex(self.listened(way), "^cdma-listen: no pilot stands out anywhere within 88,000 Hz of .*\n$")
        os.unlink(os.path.join(self.prefix, "bin", "cdma_replay"))
        said = self.listened(command)
        self.assertEqual(said, f"cdma-listen: {NOT_INSTALLED}\n")
        self.assertNotIn("rt ci", said)

    def test_a_list_that_leads_elsewhere_takes_nothing_away(self) -> None:
        kept = os.path.join(os.path.dirname(self.prefix), "kept")
        for place in ("../kept", kept):
            with open(kept, "w") as file:
                file.write("kept")
            os.makedirs(os.path.join(self.prefix, "share", "cdma-replay"), exist_ok=True)
            with open(os.path.join(self.prefix, "share", "cdma-replay", "files"), "w") as file:
                file.write(place + "\n")
            self.refused_as("not a list of files below the prefix", "--remove", self.prefix)
            self.assertTrue(os.path.exists(kept))

    def refused_as(self, why: str, *words: str) -> None:
        """Asserts that a run ends with status 1 and one line."""
        status, wrote, said = run_tool("install", *words)
        self.assertEqual((status, wrote, said.count("\n")), (1, b"", 1))
        self.assertIn(why, said)

    def refused(self, why: str, *words: str, status: int = 1) -> None:
        """Asserts that a run ends with a status and a reason, and installs nothing."""
        ended, wrote, said = run_tool("install", *words)
        self.assertEqual((ended, wrote), (status, b""), said)
        self.assertRegex(said, why)
        self.assertNotIn("Traceback", said)
        self.assertFalse(os.path.exists(os.path.join(self.prefix, "bin", "cdma_replay")))

    def test_refusals(self) -> None:
        words = ["--program", self.program, self.prefix]
        self.keep(b"#!/bin/sh\necho bad words >&2\nexit 3\n")
        self.refused("without arguments it ended with 3", *words)
        self.keep(b"no program at all")
        self.refused("doesn't run here", *words)
        self.keep(STANDS_FOR, 0o600)
        self.refused("no program at", *words)
        os.unlink(self.program)
        self.refused("no program at .*: build it first", *words)

    def test_a_prefix_that_is_a_file(self) -> None:
        needs(*MAKERS)
        self.refused("Not a directory|File exists", "--program", self.program, self.program)

    def test_a_missing_package_is_named_and_nothing_is_installed(self) -> None:
        """Modules before the packages' stand for an installation that lacks one of them."""
        needs(*MAKERS)
        command = [PYTHON, "-B", os.path.join(TOOLS, "install"), "--program", self.program, self.prefix]
        for module, package in zip(MAKERS, ("python3-shtab", "python3-argparse-manpage"), strict=True):
            with self.subTest(module):
                folder = temporary_folder(self.addCleanup)
                with open(os.path.join(folder, f"{module}.py"), "w", encoding="utf-8") as file:
                    file.write(f"raise ModuleNotFoundError({f'No module named {module!r}'!r}, name={module!r})\n")
                environment = {**os.environ, "PYTHONPATH": folder}
                ran = subprocess.run(command, capture_output=True, text=True, env=environment, timeout=300)
                why = f"No module named {module!r}: install the package {package}, and run /usr/bin/python3"
                self.assertEqual((ran.returncode, ran.stdout, ran.stderr), (1, "", f"install: {why}\n"))
                self.assertEqual(self.files(), [])

    def test_words(self) -> None:
        self.refused("required: PREFIX", status=2)
        self.refused("PREFIX is empty", "", status=2)


if __name__ == "__main__":
    unittest.main()
