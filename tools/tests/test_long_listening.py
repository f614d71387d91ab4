"""A test of `long_listening`, by its shortest recording: one fade, one loss, and nothing else is missing."""

import contextlib
import io
import re
import unittest

from tools.tests.helping import NO_PROGRAM, PROGRAM, needs

needs("numpy", "scipy")

from tools.tests import long_listening


@unittest.skipUnless(PROGRAM, NO_PROGRAM)
class LongListeningTest(unittest.TestCase):
    """The recording that goes through a pipe, as it is made."""

    def test_all_that_is_owed_is_heard_but_for_a_fade_and_a_loss(self) -> None:
        wrote, said = io.StringIO(), io.StringIO()
        with contextlib.redirect_stdout(wrote), contextlib.redirect_stderr(said):
            status = long_listening.main(["--seconds", str(long_listening.LEAST_SECONDS)])
        self.assertEqual(status, 0, wrote.getvalue() + said.getvalue())
        found = re.search(r"expected (\d+), missing (\d+), .* unexplained 0, in order True", wrote.getvalue())
        assert found, wrote.getvalue()
        owed, missing = int(found[1]), int(found[2])
        self.assertGreater(owed, 50 * (long_listening.LEAST_SECONDS - 5))
        # The fade takes the 30 frames of its 0.6 seconds, and both some pages and one sync message each at most.
        self.assertGreater(missing, 20)
        self.assertLess(missing, 60)
        self.assertEqual(said.getvalue().count("samples were lost"), 1)


if __name__ == "__main__":
    unittest.main()
