"""conformance/run --explain: a receiver that is wrong from a certain step on, and each form of the lines of steps."""

from __future__ import annotations

import os
import unittest
from collections.abc import Sequence
from typing import Any, ClassVar

from tools.tests.helping import needs, temporary_folder

needs("numpy")

import numpy  # noqa: E402
from numpy.typing import NDArray  # noqa: E402

from cdma_model.bits import text_of_bits  # noqa: E402
from cdma_tools.conformance import by_model, cases, explained  # noqa: E402
from cdma_tools.explaining.frame_steps import Steps  # noqa: E402
from tools.tests.radio_helping import run_main  # noqa: E402

NAMES = ("heard", "scrambling", "softs", "symbols", "word", "quality")
Softs = Sequence[float] | NDArray[Any]


def numbers(softs: Softs) -> str:
    """Returns soft values as whole numbers, on another scale than the model's."""
    return ",".join(str(int(soft) // 1_000_003) for soft in softs)


def hard(softs: Softs) -> str:
    """Returns soft values as bits."""
    return text_of_bits([int(soft < 0) for soft in softs])


def values(steps: Steps) -> dict[str, str]:
    """Returns the values of a frame's steps, as a correct receiver reports them."""
    shown = steps.readings[steps.shown]
    told = {"heard": numbers(steps.heard), "softs": numbers(steps.turned), "symbols": numbers(shown.softs)}
    told["word"] = text_of_bits(steps.bits)
    if steps.scrambling is not None:
        told["scrambling"] = text_of_bits([int(bit) for bit in steps.scrambling])
    if shown.right:
        told["quality"] = text_of_bits(shown.right)
    return {name: told[name] for name in NAMES if name in told}


def flipped(text: str) -> str:
    """Returns bits with the first one inverted."""
    count, _, digits = text.partition(":")
    return f"{count}:{int(digits[0], 16) ^ 8:x}{digits[1:]}"


class OfOneCase(unittest.TestCase):
    """Receivers that write one text, over a case whose samples the model makes."""

    case_name = "traffic_9600"
    folder: ClassVar[str]
    case: ClassVar[cases.Case]
    text: ClassVar[list[str]]  # the wanted lines
    data: ClassVar[bytes]
    explainer: ClassVar[explained.Explainer]

    @classmethod
    def setUpClass(cls) -> None:
        cls.folder = temporary_folder(cls.addClassCleanup)
        cls.case = cases.Case(cls.case_name)
        cls.text = cls.case.text or []
        cls.data = by_model.samples_of(cls.case)
        cls.explainer = explained.Explainer(cls.case.words, cls.data)
        cls.keep("made.is95", cls.data)
        cls.program("maker", f"cat > /dev/null; cat {cls.at('made.is95')}")
        cls.program("receiver", f"cat > /dev/null; cat {cls.at('written')}")

    @classmethod
    def at(cls, name: str) -> str:
        return os.path.join(cls.folder, name)

    @classmethod
    def keep(cls, name: str, data: bytes) -> None:
        with open(cls.at(name), "wb") as file:
            file.write(data)

    @classmethod
    def program(cls, name: str, text: str) -> None:
        cls.keep(name, f"#!/bin/sh\n{text}\n".encode())
        os.chmod(cls.at(name), 0o700)

    def said(self, lines: Sequence[str], *words: str) -> tuple[int, str]:
        """Returns the status and the verdict on a receiver that writes these lines."""
        self.keep("written", "".join(line + "\n" for line in lines).encode())
        status, wrote, faults = run_main(
            "conformance", "--only", self.case_name, "--maker", self.at("maker"), *words, self.at("receiver")
        )
        return status, wrote + faults

    def place_of(self, start: str) -> int:
        """Returns the number of the first expected line that begins with these words."""
        return next(place for place, line in enumerate(self.text) if line.startswith(start))

    def wrong(self, start: str, *steps: str) -> list[str]:
        """Returns the expected lines with one made wrong, the first that begins with these words, and these lines
        before it."""
        lines, place = list(self.text), self.place_of(start)
        line = lines[place]
        return [*lines[:place], *steps, line[:-1] + ("0" if line[-1] != "0" else "1"), *lines[place + 1 :]]

    def told(self, channel: str, frame: int, told: dict[str, str]) -> str:
        """Returns a line of steps."""
        return " ".join([f"step {channel} frame={frame}", *(f"{name}={value}" for name, value in told.items())])

    def differs(self, start: str, *steps: str, wanted: str) -> None:
        """Asserts that a receiver with these lines is reported to differ, with this text on its steps."""
        status, said = self.said(self.wrong(start, *steps), "--explain")
        self.assertEqual(status, 1, said)
        self.assertEqual(said.count("\n    "), 3, said)
        self.assertIn(wanted, said)


class EachStep(OfOneCase):
    def wrong_from(self, channel: str, frame: int) -> dict[str, tuple[dict[str, str], str]]:
        """Returns for each step the values of a receiver that is wrong from there on, and what is reported."""
        steps = self.explainer.steps(channel, frame)
        right, shown = values(steps), steps.readings[steps.shown]
        halves = [-soft if place % 2 else soft for place, soft in enumerate(steps.heard)]
        scrambled = steps.heard  # as one that leaves the scrambling out has them
        faults = {
            "heard": numbers(halves),
            "scrambling": flipped(right.get("scrambling", "1:00")),
            "softs": numbers(scrambled),
            "symbols": numbers(steps.turned[::-1]),
            "word": flipped(right["word"]),
            "quality": flipped(right.get("quality", "1:00")),
        }
        self.assertEqual(len(shown.softs), len(faults["symbols"].split(",")))
        cases_of: dict[str, tuple[dict[str, str], str]] = {}
        for name in right:
            behind = list(right)[list(right).index(name) :]
            told = {other: faults[other] if other in behind else right[other] for other in right}
            cases_of[name] = told, f"{explained.NAMES[name]}, differs in frame {frame} of the {channel} channel: "
        return cases_of

    def test_a_traffic_frame(self) -> None:
        found = self.wrong_from("traffic", 1)
        self.assertEqual(tuple(found), NAMES)
        for name, (told, wanted) in found.items():
            with self.subTest(name):
                self.differs("frame at=737280", self.told("traffic", 1, told), wanted=wanted)

    def test_a_paging_frame(self) -> None:
        found = self.wrong_from("paging", 1)
        self.assertEqual(tuple(found), ("heard", "scrambling", "softs", "symbols", "word"))
        for name, (told, wanted) in found.items():
            with self.subTest(name):
                self.differs("paging at=761856", self.told("paging", 1, told), wanted=wanted)

    def test_a_sync_frame_among_others(self) -> None:
        """A message is in several frames: the first one that differs counts, and those before it are right."""
        before = [self.told("sync", frame, values(self.explainer.steps("sync", frame))) for frame in range(2)]
        steps = self.explainer.steps("sync", 2)
        for name in ("heard", "softs", "symbols", "word"):
            told = {**values(steps)}
            told[name] = flipped(told[name]) if name == "word" else numbers(-numpy.asarray(steps.turned))
            if name == "symbols":
                told[name] = numbers([-soft for soft in steps.readings[0].softs])
            with self.subTest(name):
                wanted = f"{explained.NAMES[name]}, differs in frame 2 of the sync channel: "
                self.differs("sync at=294848", *before, self.told("sync", 2, told), wanted=wanted)

    def test_the_fields_alone(self) -> None:
        told = values(self.explainer.steps("traffic", 1))
        wanted = f"no reported step differs: look after {explained.NAMES['quality']}, at {explained.LAST}"
        self.differs("frame at=737280", self.told("traffic", 1, told), wanted=wanted)

    def test_power_control_bits_that_are_taken_for_symbols(self) -> None:
        steps = self.explainer.steps("traffic", 1)
        assert steps.scrambling is not None
        softs = numpy.where(steps.scrambling, -steps.heard, steps.heard)
        wanted = "32 power control bits are taken for symbols, the first is number 6"
        self.differs("frame at=737280", self.told("traffic", 1, {"softs": numbers(softs)}), wanted=wanted)

    def test_a_rate_that_is_another(self) -> None:
        """Code symbols of 1,200 bits a second are right for that rate; the codeword has another number of bits."""
        steps = self.explainer.steps("traffic", 1)
        slow = next(reading for reading in steps.readings if reading.name == "1200")
        told = {"symbols": numbers(slow.softs), "word": text_of_bits(slow.codewords[0][1])}
        wanted = "step 5, the best codeword, differs in frame 1 of the traffic channel: 24 bits instead of 192"
        self.differs("frame at=737280", self.told("traffic", 1, told), wanted=wanted)

    def test_hard_symbols(self) -> None:
        steps = self.explainer.steps("traffic", 1)
        right = self.told("traffic", 1, {"heard": hard(steps.heard), "softs": hard(steps.turned)})
        self.differs("frame at=737280", right, wanted="no reported step differs: look after step 3")
        wrong = self.told("traffic", 1, {"heard": hard(steps.heard), "softs": hard(-steps.turned)})
        self.differs("frame at=737280", wrong, wanted="step 3, the soft values in the order in which they are sent")


class Lines(OfOneCase):
    def test_steps_of_a_receiver_that_is_right_change_nothing(self) -> None:
        lines = [*self.text]
        lines.insert(self.place_of("frame at=737280"), self.told("traffic", 1, {"word": "1:80"}))
        self.assertEqual(self.said(lines, "--explain"), (0, "1 cases, 0 differ\n"))
        status, said = self.said(lines)
        self.assertEqual(status, 1)
        self.assertIn("written: step traffic frame=1 word=1:80", said)

    def test_what_is_no_step(self) -> None:
        for line, wanted in (
            ("step traffic", "a line of steps doesn't have the form of docs/FORMATS.md: step traffic"),
            ("step traffic frame=1 word=x", "doesn't have the form"),
            ("step traffic frame=1 best=1:80", "a line of steps has the unknown step best"),
            ("step traffic frame=1 word=7", "not bits in the form N:HEX: 7"),
            ("step traffic frame=1 heard=1,,2", "neither whole numbers separated by commas nor bits in the form N:HEX"),
            ("step traffic frame=1 heard=1,2", "2 values instead of 384"),
            ("step traffic frame=99 word=1:80", "the file doesn't contain frame 99 of the traffic channel"),
            ("step sync frame=0 scrambling=8:aa", "8 bits instead of 0"),
        ):
            with self.subTest(line):
                self.differs("frame at=737280", line, wanted=wanted)

    def test_steps_that_stand_elsewhere(self) -> None:
        """Steps of another frame than the first that differs are not reported; a receiver may report no steps at all.
        """
        wrong = self.wrong("frame at=737280")
        self.assertIn("no step was reported before line 7, the first that differs", self.said(wrong, "--explain")[1])
        elsewhere = ["step sync frame=1 word=1:80", *wrong]
        self.assertIn("no step was reported before line 7", self.said(elsewhere, "--explain")[1])

    def test_a_line_that_is_missing(self) -> None:
        """Steps of a frame whose line is missing come before the next line."""
        lines, place = list(self.text), self.place_of("frame at=737280")
        lines[place] = self.told("traffic", 1, {"word": "8:00"})
        self.assertIn("step 5, the best codeword, differs in frame 1", self.said(lines, "--explain")[1])


class OfRateSet2(OfOneCase):
    case_name = "rate2_four_rates"

    def test_a_frame(self) -> None:
        steps = self.explainer.steps("traffic", 0)
        start = next(line for line in self.text if line.startswith("frame2")).partition(" rate")[0]
        told = {**values(steps), "word": flipped(values(steps)["word"])}
        wanted = "step 5, the best codeword, differs in frame 0 of the traffic channel: 1 of "
        self.differs(start, self.told("traffic", 0, told), wanted=wanted)


if __name__ == "__main__":
    unittest.main()
