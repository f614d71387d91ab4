"""The plugin pytest-cdma: fixtures over the cases of conformance/, and a test for each case of a receiver.

    pytest -p cdma.pytest_plugin --cdma-receiver my_module:follow

If pip has installed the library, `-p` is not needed. The receiver is called as `cdma.follow` is: with chips, and with
those options of the case that are given. It returns or yields lines, or events whose text is the line. Each case of
`follow` over samples is one test, whose message names the first difference. It also names the step of the frame at
which that arose, if the receiver writes steps (docs/FORMATS.md, "Steps of a frame").

`--cdma-standard` compares only what the standard fixes, and `--cdma-model` makes the samples by the model. A test of
one's own may take the fixtures `cdma_case` (`chips()`, `options`, `lines` and `check(lines)`) and `cdma_program`.
"""

import contextlib
import importlib
import io
import os
import shlex
import sys
from collections.abc import Callable, Iterable, Iterator
from typing import Any

import pytest

from cdma.chips import Chips, read_samples
from cdma.errors import Error
from cdma.programs import script_of_model, use_model
from cdma_tools.conformance import standard
from cdma_tools.conformance.cases import Answer, Case, differences, input_of, names_of_cases, samples_of
from cdma_tools.conformance.explained import compared_with_steps
from cdma_tools.scripting.arguments import faults, option_faults

COMMAND = "follow"
MINUTES = 5  # that the program may take to make the samples of a case
CASES = os.path.join(os.path.dirname(os.path.abspath(__file__)), "receiver_cases.py")
Receiver = Callable[..., Iterable[object]]


class ReceiverCase:
    """A case of conformance/ for a receiver: `name`, `purpose`, `options` of `cdma.follow`, and expected `lines`."""

    def __init__(self, name: str, program: str, is_standard: bool = False) -> None:
        """Reads a case, whose samples a program makes; with is_standard only what the standard fixes is compared."""
        self._case, self._program = Case(name), program
        self._plain = standard.differences if is_standard else differences
        self._data = b""
        self.name, self.purpose = name, self._case.purpose
        self.options = options_of(self._case.words)
        self.lines = list(self._case.text or [])

    def data(self) -> bytes:
        """Returns the bytes of the sample file."""
        if not self._data:
            self._data = input_of(self._case, lambda: samples_of(self._case, self._program, MINUTES))
        return self._data

    def chips(self) -> Chips:
        """Returns the samples of the case."""
        return read_samples(io.BytesIO(self.data()))

    def differences(self, events: Iterable[object]) -> list[str]:
        """Returns how lines or events differ from the expected ones, and the first wrong step; empty if they don't."""
        wrote = "".join(f"{event}\n" for event in events).encode("ascii", "backslashreplace")
        said = f"{self._case.error}\n".encode() if self._case.error else b""
        answer = Answer(self._case.status, wrote, said, 0)
        return compared_with_steps(self._plain, self._case, answer, self._case.words, self.data())

    def check(self, events: Iterable[object]) -> None:
        """Fails the test with the first difference if lines or events aren't the expected ones."""
        if found := self.differences(events):
            words = shlex.join(self._case.words)
            pytest.fail(f"{self.name}: {self.purpose}: {words}\n" + "\n".join(found), pytrace=False)


def options_of(words: list[str]) -> dict[str, int]:
    """Returns the options of a case's arguments by their names."""
    return {name: value for name, value in option_faults(words[1:], COMMAND)[1].items() if value is not None}


def is_asked(case: Case, is_standard: bool) -> bool:
    """Whether a case is of `follow` over a whole sample file, with a text as its output."""
    is_whole = case.input == "samples" and case.sink is None and case.text is not None and case.status in (0, 1)
    is_follow = all(words[:1] == [COMMAND] and not faults(words) for words in case.runs)
    return is_whole and is_follow and not (is_standard and standard.reason(case))


def receiver_of(text: str, folder: str) -> Receiver:
    """Returns the receiver that MODULE:FUNCTION names; modules of a folder are found too."""
    module, _, name = text.partition(":")
    if folder not in sys.path:
        sys.path.insert(0, folder)
    try:
        found = getattr(importlib.import_module(module), name)
    except (ImportError, AttributeError, ValueError) as why:
        raise pytest.UsageError(f"--cdma-receiver {text}: {why}") from None
    if not callable(found):
        raise pytest.UsageError(f"--cdma-receiver {text}: it can't be called")
    return found


def pytest_addoption(parser: Any) -> None:
    """Adds the options."""
    group = parser.getgroup("cdma", "conformance of a receiver of the IS-95 forward link")
    group.addoption("--cdma-receiver", metavar="MODULE:FUNCTION", help="test this receiver, a test for each case")
    group.addoption("--cdma-standard", action="store_true", help="compare only what the standard fixes")
    group.addoption("--cdma-model", action="store_true", help="make samples by the model, not by the program")


def pytest_configure(config: Any) -> None:
    """Adds the tests of the receiver to those that are collected."""
    if config.getoption("--cdma-model"):
        use_model()
    if config.getoption("--cdma-receiver"):
        config.args.append(CASES)


def pytest_generate_tests(metafunc: Any) -> None:
    """Makes a test for each case of each function that takes `cdma_case`."""
    if "cdma_case" in metafunc.fixturenames:
        is_standard = metafunc.config.getoption("--cdma-standard")
        names = [name for name in names_of_cases() if is_asked(Case(name), is_standard)]
        metafunc.parametrize("cdma_case", names, indirect=True)


def program_of() -> Iterator[str]:
    """The program that makes samples: its path, or a script that runs the model."""
    with contextlib.ExitStack() as stack:
        try:
            path = stack.enter_context(script_of_model())
        except Error as why:
            pytest.fail(f"{why}, or give --cdma-model", pytrace=False)
        yield path


def case_of(request: Any, cdma_program: str) -> ReceiverCase:
    """A case of conformance/."""
    return ReceiverCase(request.param, cdma_program, request.config.getoption("--cdma-standard"))


def named_receiver(request: Any) -> Receiver:
    """The receiver of --cdma-receiver."""
    text = request.config.getoption("--cdma-receiver")
    if not text:
        pytest.skip("--cdma-receiver names no receiver")
    return receiver_of(text, str(request.config.invocation_params.dir))


cdma_program = pytest.fixture(scope="session", name="cdma_program")(program_of)
cdma_case = pytest.fixture(name="cdma_case")(case_of)
cdma_receiver = pytest.fixture(scope="session", name="cdma_receiver")(named_receiver)
