"""tools/draw: what it reads from lines and from a sample file, the pictures that it writes, and each error."""

import os
import unittest

from tools.tests.helping import (
    EXAMPLES,
    NO_PROGRAM,
    PROGRAM,
    ToolRun,
    example,
    loaded,
    needs,
    run_inside,
    run_program,
    run_tool,
    sample_file,
    temporary_folder,
)

needs("numpy", "matplotlib")

FOLLOWED = """\
pilot phase=64 energy=1509949440000
sync at=294848 prev=3 min=1 sid=1 nid=2 pn=511 lc=102a1d2e508 time=1007 lp=13 ltm=0 daylt=0 prat=0 rest=3:00
frame at=712704 rate=9600 good=1 bits=172:80000000000000000000000000000000000000000000 commands=0000000000000011
paging at=737280 channels pn=511 seq=0 freqs=283 rest=0:
frame at=737280 rate=2400 good=0 bits=40:0000000000 commands=1111111111111111
traffic at=737280 ack=0 seq=0 req=0 enc=0 handoff use=1 action=49 hdm=0 extra=0: records=511/20/0 rest=7:00
sets at=786432 time=1008 active=511/10/0 candidate=5 report=1
sets at=884736 time=1009 active=511/20/0,5/21/1 candidate= report=0
sets at=983040 time=1010 active=5/21/0 candidate=511 report=0
raw at=983040 paging 8:04
"""


DRAW = loaded("draw")


class Reading(unittest.TestCase):
    def test_the_codes(self) -> None:
        in_phase, quadrature = DRAW.codes()
        self.assertEqual([(1 - sign) // 2 for sign in in_phase[:16]], [int(bit) for bit in "1010100100111010"])
        self.assertEqual([(1 - sign) // 2 for sign in quadrature[:16]], [int(bit) for bit in "1001111010111010"])
        for code in (in_phase, quadrature):
            self.assertEqual((len(code), int(code.sum())), (32_768, 0))
            self.assertTrue((code[-15:] == 1).all())

    def test_the_best_phase_of_the_example(self) -> None:
        samples, signs = DRAW.read_samples(example("pilot_in_noise.is95"), 2_048), DRAW.codes()
        best = DRAW.best_phase(samples, signs, DRAW.energies(samples, signs))
        self.assertEqual(best, (21_272_219_170, -12_345))

    def test_zeros_have_phase_0(self) -> None:
        samples, signs = DRAW.read_samples(sample_file([(0, 0)] * 64), 64), DRAW.codes()
        self.assertEqual(DRAW.best_phase(samples, signs, DRAW.energies(samples, signs)), (0, 0))

    def test_a_tie_goes_to_the_least_phase(self) -> None:
        samples = DRAW.read_samples(sample_file([(1, 0), (1, 0)] + [(0, 0)] * 62, version=2), 64)
        signs = DRAW.codes()
        self.assertEqual(DRAW.best_phase(samples, signs, DRAW.energies(samples, signs)), (8, -5))

    def test_strengths(self) -> None:
        found = DRAW.strengths_of(["survey pn=5 delta=-3 energy=12", "survey pn=0 delta=0 energy=7"])
        self.assertEqual(found, [(5, -3, 12), (0, 0, 7)])

    def test_a_run(self) -> None:
        run = DRAW.run_of(FOLLOWED.splitlines())
        self.assertEqual(run.lanes, {"sync": [(2, 294_848)], "paging channels": [(4, 737_280)], "traffic handoff": [(6, 737_280)]})
        self.assertEqual([frame[:4] for frame in run.frames], [(3, 712_704, 9_600, True), (5, 737_280, 2_400, False)])
        places, levels = run.steps()
        self.assertEqual((places[0], places[15], places[16]), (689_664, 712_704, 714_240))
        self.assertEqual((levels[13], levels[15], levels[31]), (14, 12, -4))
        self.assertEqual(run.sets[1], (8, 884_736, [511, 5], [], False))
        active, candidates = run.spans("active"), run.spans("candidate")
        self.assertEqual(active, {511: [(786_432, 983_040)], 5: [(884_736, 983_040)]})
        self.assertEqual(candidates, {5: [(786_432, 884_736)], 511: [(983_040, 983_041)]})


class Pictures(unittest.TestCase):
    def setUp(self) -> None:
        self.folder = temporary_folder(self.addCleanup)

    def at(self, name: str) -> str:
        """Returns the path of a file in the test's folder."""
        return os.path.join(self.folder, name)

    def drawn(self, kind: str, name: str, *words: str, data: bytes = b"", way: ToolRun = run_inside) -> bytes:
        """Returns the picture that a run writes."""
        status, wrote, said = way("draw", kind, self.at(name), *words, data=data)
        self.assertEqual((status, wrote, said), (0, b"", ""))
        with open(self.at(name), "rb") as file:
            return file.read()

    def test_a_survey(self) -> None:
        lines = b"".join(b"survey pn=%d delta=%d energy=%d\n" % (pilot, pilot % 5 - 2, 1000 - pilot) for pilot in range(512))
        self.assertEqual(self.drawn("survey", "a.png", data=lines, way=run_tool)[:8], b"\x89PNG\r\n\x1a\n")
        text = self.drawn("survey", "a.svg", "--top", "12", "--log", data=lines)
        self.assertIn(b"12 pilots by their strength", text)

    def test_a_run(self) -> None:
        first = self.drawn("follow", "a.svg", data=FOLLOWED.encode())
        for name in (b"sync", b"paging channels", b"traffic handoff", b"frames 9600", b"power steps", b"pilot 511"):
            self.assertIn(name, first)
        self.assertEqual(self.drawn("follow", "b.svg", data=FOLLOWED.encode()), first)
        lines = b"\n".join(FOLLOWED.encode().split(b"\n")[:2]) + b"\n"
        self.assertEqual(self.drawn("follow", "a.PNG", data=lines)[:4], b"\x89PNG")
        path = self.at("sets.txt")
        with open(path, "w") as file:
            file.writelines(line + "\n" for line in FOLLOWED.splitlines() if line.startswith("sets"))
        self.assertIn(b"named", self.drawn("follow", "c.svg", path, "--title", "named"))

    def test_a_correlation(self) -> None:
        path = os.path.join(EXAMPLES, "pilot_in_noise.is95")
        text = self.drawn("correlation", "a.svg", path)
        self.assertIn(b"phase 12345, energy 21272219170, over 2,048 samples", text)
        text = self.drawn("correlation", "b.svg", path, "--span", "64", "--phase", "5", "--width", "9")
        self.assertIn(b"chips from phase 5", text)

    def refused(self, why: str, *words: str, data: bytes = b"", status: int = 1) -> None:
        """Asserts that a run ends with a status and a reason, and writes nothing."""
        ended, wrote, said = run_inside("draw", *words, data=data)
        self.assertEqual((ended, wrote), (status, b""), said)
        self.assertRegex(said, why)
        self.assertNotIn("Traceback", said)
        self.assertEqual(os.listdir(self.folder), [])

    def test_refusals(self) -> None:
        out = self.at("a.png")
        short = sample_file([(1, 2)] * 64)
        self.refused("standard input: it has no line of survey", "survey", out)
        self.refused("line 1 is not a line of survey: 'pilot", "survey", out, data=b"pilot phase=0 energy=0\n")
        self.refused("no line of follow with an event", "follow", out, data=b"pilot phase=0 energy=0\n")
        self.refused("line 1 is not a line of follow: 'survey", "follow", out, data=b"survey pn=0 delta=0 energy=0\n")
        sets = b"sets at=1 time=1 active=511/10 candidate= report=0\n"
        self.refused("line 1 is not a line of follow: active: '511/10' doesn't have 3 numbers", "follow", out, data=sets)
        self.refused("is not text of the program", "follow", out, data=b"\xff\n")
        self.refused("ends within the header", "correlation", out, data=b"IS95")
        self.refused("not a sample file", "correlation", out, data=b"is95" + short[4:])
        self.refused("has 64 samples, fewer than the span of 2048", "correlation", out, data=short)
        self.refused("ends before the span's samples", "correlation", out, "--span", "64", data=short[:-1])
        self.refused("No such file", "follow", out, self.at("none.txt"))
        self.refused("No such file", "follow", self.at("none/a.png"), data=FOLLOWED.encode())

    def test_words(self) -> None:
        self.refused("required: KIND", status=2)
        self.refused("ends neither with .png nor with .svg", "follow", self.at("a.pdf"), status=2)
        self.refused("not 64 to 32,768: '63'", "correlation", self.at("a.png"), "--span", "63", status=2)
        self.refused("not 1 to 512: '0'", "survey", self.at("a.png"), "--top", "0", status=2)
        self.refused("invalid choice", "find", self.at("a.png"), status=2)

    @unittest.skipUnless(PROGRAM, NO_PROGRAM)
    def test_what_the_program_writes(self) -> None:
        _, lines = run_program("survey", "--base", "12345", data=example("pilot_in_noise.is95"))
        self.assertEqual(self.drawn("survey", "a.png", data=lines)[:4], b"\x89PNG")
        _, made = run_program("make", data=example("second_of_paging.script"))
        _, lines = run_program("follow", data=made)
        self.assertIn(b"49 lines", self.drawn("follow", "a.svg", data=lines))


if __name__ == "__main__":
    unittest.main()
