"""The merge gate's own statuses, with a stand-in for `rt`: nothing passes silently."""

import os
import subprocess
import unittest

from tools.tests.helping import ROOT, temporary_folder

GATE = os.path.join(ROOT, ".ci", "run")


class Gate(unittest.TestCase):
    """A run of `.ci/run` whose `rt` ends with a chosen status, on a machine without Python."""

    def ran(self, rt_status: int, **environment: str) -> tuple[int, str]:
        """Returns the gate's status and its standard error."""
        folder = temporary_folder(self.addCleanup)
        stand_in = os.path.join(folder, "rt")
        with open(stand_in, "w", encoding="ascii") as file:
            file.write(f"#!/bin/sh\nexit {rt_status}\n")
        os.chmod(stand_in, 0o755)
        given = {**os.environ, "PATH": folder + os.pathsep + os.environ["PATH"], "ROLVENST_PYTHON": "/nowhere/python3"}
        given.pop("ROLVENST_NO_TOOLS", None)
        done = subprocess.run([GATE], env={**given, **environment}, capture_output=True, text=True, timeout=60)
        return done.returncode, done.stderr

    def test_a_failed_proof_is_its_status(self) -> None:
        status, said = self.ran(3, ROLVENST_NO_TOOLS="1")
        self.assertEqual(status, 3)
        self.assertNotIn("ROLVENST_NO_TOOLS", said)

    def test_no_python_fails(self) -> None:
        status, said = self.ran(0)
        self.assertEqual(status, 1)
        self.assertIn("no Python at /nowhere/python3", said)

    def test_tools_are_left_out_on_purpose_alone(self) -> None:
        status, said = self.ran(0, ROLVENST_NO_TOOLS="1")
        self.assertEqual(status, 0)
        self.assertIn("not tested", said.splitlines()[-1])


if __name__ == "__main__":
    unittest.main()
