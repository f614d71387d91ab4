"""Each tool explains its use."""

import subprocess
import unittest
from pathlib import Path

TOOLS = Path(__file__).parents[1]


class HelpTest(unittest.TestCase):
    """What readers see who know only a tool's name."""

    def test_each_tool_says_how_it_is_used(self) -> None:
        tools = [path for path in sorted(TOOLS.iterdir()) if path.is_file() and path.stat().st_mode & 0o100]
        self.assertIn("bench", [path.name for path in tools])
        for path in tools:
            with self.subTest(path.name):
                done = subprocess.run([path, "--help"], capture_output=True, text=True, check=False)
                self.assertEqual(done.returncode, 0, done.stderr)
                self.assertTrue(done.stdout.startswith("usage: "), done.stdout)


if __name__ == "__main__":
    unittest.main()
