"""Results of cases: text, TAP or JSON on standard output, and a file of JUnit; all that ask a receiver share it."""

import argparse
import dataclasses
import enum
import json
import os
from collections.abc import Iterable, Mapping
from typing import Any
from xml.etree import ElementTree

from cdma_tools.errors import WrongArguments, printable
from cdma_tools.overwriting import STANDARD, OutputFile
from cdma_tools.writing import write_out


class Verdict(enum.Enum):
    """The verdict on a case."""

    PASSED = "passed"
    FAILED = "failed"
    LEFT_OUT = "left out"


@dataclasses.dataclass(frozen=True)
class Result:
    """The result of a case: its name, its purpose, its seconds, and the differences in lines.

    `left_out` is the reason why it wasn't tried; `figures` are numbers of the case's own.
    """

    name: str
    purpose: str
    seconds: float = 0.0
    said: tuple[str, ...] = ()
    left_out: str = ""
    figures: Mapping[str, Any] = dataclasses.field(default_factory=dict)

    def verdict(self) -> Verdict:
        """Returns the verdict: passed if nothing differs."""
        if self.left_out:
            return Verdict.LEFT_OUT
        return Verdict.FAILED if self.said else Verdict.PASSED


def add_result_options(parser: argparse.ArgumentParser) -> None:
    """Adds the options for results that a machine reads."""
    parser.add_argument(
        "--junit", type=OutputFile, metavar="FILE", help="also write the results as JUnit XML, when all cases are done"
    )
    forms = parser.add_mutually_exclusive_group()
    forms.add_argument("--tap", action="store_true", help="write results as TAP version 13 instead of text")
    forms.add_argument("--json", action="store_true", help="write results as one JSON object instead of text")


class Results:
    """Results as they come: written to standard output in the requested form, and kept for the JUnit file."""

    def __init__(self, suite: str, options: argparse.Namespace, count: int) -> None:
        """The results of a suite of `count` cases."""
        check_place(options)
        self.suite, self.options = suite, options
        self.results: list[Result] = []
        self.is_text = not (options.tap or options.json)
        if options.tap:
            print(f"TAP version 13\n1..{count}", flush=True)

    def take_all(self, found: Iterable[tuple[Result, str]], stops: bool) -> None:
        """Takes results with their texts as they come; if it `stops`, up to the first that failed."""
        for result, text in found:
            self.take(result, text)
            if stops and result.verdict() is Verdict.FAILED:
                if self.options.tap:
                    print("Bail out! --exitfirst: a case differs", flush=True)
                return

    def count(self, verdict: Verdict) -> int:
        """Returns the number of cases with this verdict."""
        return sum(result.verdict() is verdict for result in self.results)

    def take(self, result: Result, text: str = "") -> None:
        """Takes a result; `text` is its report for a reader."""
        self.results.append(result)
        if self.options.tap:
            print(tap_of(len(self.results), result), end="", flush=True)
        elif self.is_text:
            print(text, end="", flush=True)

    def end(self, text: str) -> int:
        """Writes what is left, and returns the number of cases that failed; `text` ends the report for a reader."""
        if self.options.json:
            print(json.dumps(self.as_json(), indent=1))
        elif self.is_text:
            print(text, end="")
        if self.options.junit:
            with write_out(self.options.junit) as file:
                file.write(junit_of(self.suite, self.results))
        return self.count(Verdict.FAILED)

    def as_json(self) -> dict[str, Any]:
        """All results as one object."""
        counts = {verdict.name.lower(): self.count(verdict) for verdict in Verdict}
        return {"suite": self.suite, **counts, "cases": [json_of(result) for result in self.results]}


def check_place(options: argparse.Namespace) -> None:
    """Refuses a JUnit file that would be mixed with other lines, or whose folder is missing, before any case is tried.
    """
    if options.junit == STANDARD:
        raise WrongArguments("--junit needs a file: standard output has the other lines")
    if options.junit and not os.path.isdir(os.path.dirname(os.path.realpath(options.junit))):
        raise WrongArguments(f"--junit {options.junit}: its folder doesn't exist")


def json_of(result: Result) -> dict[str, Any]:
    """A result as an object."""
    told: dict[str, Any] = {
        "name": result.name,
        "purpose": result.purpose,
        "verdict": result.verdict().value,
        "seconds": round(result.seconds, 3),
        "said": [printable(line) for line in result.said],
    }
    return told | ({"why": result.left_out} if result.left_out else {}) | dict(result.figures)


def tap_of(number: int, result: Result) -> str:
    """A result as lines of TAP, what differs as lines of diagnostics."""
    head = "not ok" if result.verdict() is Verdict.FAILED else "ok"
    name = printable(f"{result.name}: {result.purpose}").replace("\\", "\\\\").replace("#", "\\#")
    skipped = f" # SKIP {printable(result.left_out)}" if result.left_out else ""
    return f"{head} {number} - {name}{skipped}\n" + "".join(f"# {printable(line)}\n" for line in result.said)


def junit_of(suite: str, results: list[Result]) -> bytes:
    """Results as the XML that JUnit's readers know."""
    verdicts = [result.verdict() for result in results]
    counts = {
        "tests": str(len(results)),
        "failures": str(verdicts.count(Verdict.FAILED)),
        "errors": "0",
        "skipped": str(verdicts.count(Verdict.LEFT_OUT)),
        "time": f"{sum(result.seconds for result in results):.3f}",
    }
    top = ElementTree.Element("testsuites", counts)
    group = ElementTree.SubElement(top, "testsuite", {"name": suite, **counts})
    for result in results:
        add_junit(group, suite, result)
    ElementTree.indent(top)
    return bytes(ElementTree.tostring(top, encoding="utf-8", xml_declaration=True)) + b"\n"


def add_junit(group: ElementTree.Element, suite: str, result: Result) -> None:
    """Adds a case with its failure, its reason to be left out, and its figures."""
    marks = {"classname": suite, "name": printable(result.name), "time": f"{result.seconds:.3f}"}
    case = ElementTree.SubElement(group, "testcase", marks)
    told = {"purpose": result.purpose, **result.figures}
    properties = ElementTree.SubElement(case, "properties")
    for name, value in told.items():
        ElementTree.SubElement(properties, "property", {"name": name, "value": printable(str(value))})
    if result.left_out:
        ElementTree.SubElement(case, "skipped", {"message": printable(result.left_out)})
    elif result.said:
        lines = [printable(line) for line in result.said]
        ElementTree.SubElement(case, "failure", {"message": lines[0]}).text = "\n".join(lines)
