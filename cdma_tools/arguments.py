"""The command line of a tool: its parser, and its values, each with its bounds."""

import argparse
import math
import re
import sys
from collections.abc import Callable, Sequence
from fractions import Fraction
from typing import Any, NoReturn

from cdma_tools import __version__
from cdma_tools.errors import printable
from cdma_tools.overwriting import refuse_overwriting
from cdma_tools.starting import INSTALLED, INTERRUPTED, called, is_installed

# An argument that begins so after an option is its value, and no option.
NEGATIVE = re.compile(r"-[.\d]|-inf|-nan", re.IGNORECASE)
LONGEST = 100  # characters of a number: more would take long to read, and none is meant
WRONG = 2  # the status of wrong arguments
STATUS = "Exit status:"  # with which the last paragraph of each help begins


def shown(text: str) -> str:
    """Returns a help text with the status that all tools share, and the names that they have here.

    `tools/scan` is `cdma-scan` where it is installed.
    """
    if STATUS in text:
        text = text.rstrip().removesuffix(".") + f";\n{INTERRUPTED} if Ctrl-C ended it.\n"
    if not is_installed():
        return text
    text = text.replace("conformance/run ", f"{INSTALLED['conformance']} ")
    return re.sub(r"tools/(\w+)", lambda found: INSTALLED.get(found[1], found[0]), text)


class Help(argparse.RawDescriptionHelpFormatter):
    """Help that adds the bounds of a number to its option."""

    def _get_help_string(self, action: argparse.Action) -> str | None:
        """Returns the help of an option, with its bounds."""
        text = super()._get_help_string(action)
        bounds = action.type.told() if isinstance(action.type, Within) else ""
        if not text or not bounds or bounds in text:
            return text
        before, default, after = text.partition("(default ")
        return f"{before}({bounds}, default {after}" if default else f"{text} ({bounds})"


class PartParser(argparse.ArgumentParser):
    """The command line of a part of a tool: a wrong argument ends with one line, status 2."""

    def __init__(self, **more: Any) -> None:
        more.setdefault("formatter_class", Help)
        super().__init__(**more)

    def print_help(self, file: Any = None) -> None:
        """Writes the help; unlike argparse it doesn't ignore that nobody reads it."""
        (file or sys.stdout).write(self.format_help())

    def error(self, message: str) -> NoReturn:
        """Ends with one line, and status 2."""
        self.exit(WRONG, f"{self.prog}: {printable(message)} (--help lists all arguments)\n")


class VersionAction(argparse._VersionAction):
    """The option --version: prints the version of a tool, and ends."""

    def __call__(self, parser: Any, *values: Any) -> None:
        """Prints the version, and ends the process."""
        parser.print_version()
        parser.exit()


class Parser(PartParser):
    """A tool's command line, in which a negative number after an option is its value.

    Each has --version, which prints the project's version.
    """

    def __init__(self, tool: str, description: str | None, **more: Any) -> None:
        super().__init__(prog=called(tool), description=shown(description or ""), **more)
        self.tool = tool
        self.add_argument("--version", action=VersionAction, help="print the version, and end")

    def parse_known_args(self, args: Sequence[str] | None = None, namespace: Any = None) -> tuple[Any, list[str]]:
        """Takes the arguments apart, with negative numbers joined to the options before them."""
        return super().parse_known_args(joined(sys.argv[1:] if args is None else args), namespace)

    def parse_args(self, args: Sequence[str] | None = None, namespace: Any = None) -> Any:
        """Takes the arguments apart, and refuses an output that is an input (`overwriting`)."""
        options = super().parse_args(args, namespace)
        refuse_overwriting(vars(options).values())
        return options

    def print_version(self) -> None:
        """Prints the version of the tool."""
        sys.stdout.write(version_of(self.tool) + "\n")


def version_of(tool: str) -> str:
    """Returns a tool's text for --version."""
    return f"{called(tool)} {__version__}"


def joined(words: Sequence[str]) -> list[str]:
    """Arguments in which an option and a negative number after it are one: `--carrier -1e3` is `--carrier=-1e3`."""
    made: list[str] = []
    for place, word in enumerate(words):
        if word == "--":
            return made + list(words[place:])
        if made and NEGATIVE.match(word) and re.fullmatch(r"--[a-z][\w-]*", made[-1]):
            made[-1] += f"={word}"
        else:
            made.append(word)
    return made


def wrong(why: str, text: str) -> argparse.ArgumentTypeError:
    """Returns the fault of a value, with the value, cut short if it is long."""
    return argparse.ArgumentTypeError(f"{why}: {text[:LONGEST]!r}")


def read_by(form: Callable[[str], Any], text: str, fault: str) -> Any:
    """Returns a value of a form, such as int or Decimal; raises the fault if the text has another form."""
    try:
        if len(text) > LONGEST:
            raise ValueError
        return form(text)
    except (ValueError, ArithmeticError):
        raise wrong(fault, text) from None


def bound_text(bound: float) -> str:
    """A bound in decimal, with commas."""
    return f"{int(bound):,}" if bound == int(bound) else f"{bound:g}"


class Within:
    """Reads numbers from a least to a greatest one, and describes these bounds."""

    def __init__(self, form: Callable[[str], Any], least: float, most: float, is_above: bool = False) -> None:
        """With is_above the least one itself isn't taken."""
        self.form, self.least, self.most, self.is_above = form, least, most, is_above

    def told(self) -> str:
        """The bounds, in words."""
        if self.is_above:
            return f"above {bound_text(self.least)}, at most {bound_text(self.most)}"
        return f"{bound_text(self.least)} to {bound_text(self.most)}"

    def __call__(self, text: str) -> Any:
        """Returns the number of a text; raises a fault for argparse if it is not a number, or out of bounds."""
        number = read_by(self.form, text, "not a whole number" if self.form is int else "not a number")
        if number != number or not self.least <= number <= self.most or self.is_above and number == self.least:
            raise wrong(f"not {self.told()}", text)
        return number


def number_within(least: float, most: float) -> Within:
    """A reader of numbers from a least to a greatest one."""
    return Within(float, least, most)


def number_above(least: float, most: float) -> Within:
    """A reader of numbers above one, up to a greatest one."""
    return Within(float, least, most, is_above=True)


def whole_within(least: int, most: int) -> Within:
    """A reader of whole numbers from a least to a greatest one."""
    return Within(int, least, most)


# What a letter after a number multiplies it by.
MULTIPLES = {"k": 1_000, "M": 1_000_000, "G": 1_000_000_000}


def rational(text: str) -> Fraction:
    """A fraction, as 2400000, 2.4M, 1e6 or 9600000/7; the exponent isn't spelled out before it is known to be small."""
    if text[-1:] in MULTIPLES:
        return rational(text[:-1]) * MULTIPLES[text[-1]]
    if "/" not in text and not math.isfinite(float(text)):
        raise ValueError
    return Fraction(text)


MOST_RATE = 10_000_000_000  # samples a second
MOST_HERTZ = 10_000_000_000.0
MOST_COUNT = 1_000_000_000_000_000
LEAST_SCALE, MOST_SCALE = 1e-12, 1e12
MOST_SECONDS = 1_000_000.0
MOST_NUMBER = 1e12

rate_of = Within(rational, 1, MOST_RATE)
"""A rate in samples a second, as a fraction."""


def decimal(text: str) -> float:
    """A number, which a letter may multiply, as 878.49M."""
    return float(text[:-1]) * MULTIPLES[text[-1]] if text[-1:] in MULTIPLES else float(text)


hertz_of = Within(decimal, -MOST_HERTZ, MOST_HERTZ)
"""A frequency in Hz."""
number_of = number_within(-MOST_NUMBER, MOST_NUMBER)
"""A number that has no bounds of its own."""
positive_of = number_above(0, MOST_NUMBER)
"""A number above 0 that has no bounds of its own."""
count_of = whole_within(0, MOST_COUNT)
"""A whole number from 0 on."""


MINUTES, MOST_MINUTES = 5, 1_440


def add_minutes_option(parser: argparse.ArgumentParser) -> None:
    """Adds the option --minutes, the longest time of a run of a program."""
    kind = whole_within(1, MOST_MINUTES)
    parser.add_argument(
        "--minutes", type=kind, default=MINUTES, metavar="N", help=f"longest time of a run, in minutes (default {MINUTES})"
    )


class ScaleWithin(Within):
    """Reads a scale within bounds, or the word fit."""

    def __call__(self, text: str) -> Any:
        """The scale, or fit."""
        return text if text == "fit" else super().__call__(text)


scale_of = ScaleWithin(float, LEAST_SCALE, MOST_SCALE)
"""A scale above 0, or the word fit."""


def text_of(rate: Fraction) -> str:
    """A rate in decimal."""
    return str(rate.numerator) if rate.denominator == 1 else f"{float(rate):.6f}".rstrip("0")
