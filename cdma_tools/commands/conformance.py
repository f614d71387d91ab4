"""Runs a receiver on the cases, and reports the differences from what each case expects.

PROGRAM is run with the arguments of a case, over the input that the case describes. Its output, its exit status and, if
the case has one, its line on standard error must be the case's. Most inputs are sample files made from the case's
scripts by `MAKER make`; samples of several scripts are added up, and noise is added if the case says so. MAKER is
PROGRAM unless --maker names another. With --maker a receiver that makes no samples can be tried, and the cases about
samples and trials are left out.

The expected results come from cdma_model/, the link in plain Python, which was written only from docs/LINK.md and
docs/FORMATS.md. A receiver with other arguments is tried through a script that translates them. conformance/README.md
has the form of a case.

    conformance/run crates/cdma_replay/out/cdma_replay
    conformance/run --maker cdma_replay ./receiver
    conformance/run --junit results.xml --tap ./receiver
    conformance/run --jobs 4 ./receiver
    conformance/run --only 'follow_*' --exitfirst ./receiver
    conformance/run --list

Each case names its rules; --list and --rules say which of them are the standard's. --standard asks only for cases in
which the standard itself fixes something: one cell's samples, without noise or with noise that each channel bears in
every case. It compares the fields of sync and paging messages, and the rate and the bits of good frames that no
codeword of another rate comes near. It doesn't compare places, energies, the order of ties, power control bits, or what
comes before and after.

    conformance/run --standard --maker cdma_replay ./receiver

A receiver may write the steps of a frame, in lines before those of the frame or of the message that ends in it. They
are the symbols as received, the scrambling bits, soft values, the codeword and the quality indicator (docs/FORMATS.md,
"Steps of a frame"). --explain accepts such lines. If something differs, it names the step of the first different frame
that isn't that of tools/explain. Soft values are compared by their signs, if these are sure.

    conformance/run --explain --only traffic_9600 --maker cdma_replay ./receiver

What a receiver that differs writes on standard error is shown with the differences. A case fails if the receiver
doesn't end within --minutes, is ended by a signal, writes without end (64 MiB more than expected) or writes bytes that
aren't text. All processes that it began are ended, and the other cases continue.

Exit status: 0 nothing differs, 1 something does, 2 wrong arguments or a case that can't be read.
"""

from __future__ import annotations

import argparse
import functools
import shlex
import time
from collections.abc import Sequence

from cdma_tools.arguments import Parser
from cdma_tools.conformance import standard
from cdma_tools.conformance.cases import Case, Compared, differences, names_of_cases, shown, tried
from cdma_tools.conformance.options import add_options, checked
from cdma_tools.conformance.rules import table_rows
from cdma_tools.errors import Refused
from cdma_tools.results import Result, Results, Verdict, add_result_options
from cdma_tools.workers import mapped_in_turn

MAKES = "it asks for samples or for a trial, and --maker names another program for these"


def parser() -> Parser:
    """The command line."""
    words = Parser("conformance", __doc__)
    add_options(words, "samples", "each input, and its words, lines and status")
    words.add_argument(
        "--standard", action="store_true", help="ask and compare only what the standard fixes"
    )
    words.add_argument(
        "--explain",
        action="store_true",
        help="accept lines of steps, and name the wrong step of the first frame that differs (by the model)",
    )
    words.add_argument("--rules", action="store_true", help="print the table of rules, and run no case")
    add_result_options(words)
    return words


def listed(names: Sequence[str]) -> None:
    """Writes what each case is for, and its arguments."""
    for name in names:
        case = Case(name)
        print(f"{name}: {case.purpose}")
        for words in case.runs:
            print(f"    {shlex.join(words)}")
        print(f"    rests on {', '.join(case.rules)}")


def compared_by(options: argparse.Namespace) -> Compared:
    """Returns the function that compares an answer with a case."""
    plain = standard.differences if options.standard else differences
    if not options.explain:
        return lambda case, answer, words, data: plain(case, answer)
    from cdma_tools.conformance.explained import compared_with_steps

    return lambda case, answer, words, data: compared_with_steps(plain, case, answer, words, data)


def result_of(case: Case, options: argparse.Namespace) -> tuple[Result, str]:
    """Returns the result of a case, and its report."""
    began = time.monotonic()
    maker = options.maker or options.program
    found = tried(case, options.program, maker, options.keep, options.minutes, compared_by(options))
    text = "".join(shown(case, words, said) for words, said in found)
    is_one = len(case.runs) == 1
    lines = [line if is_one else f"{shlex.join(words)}: {line}" for words, said in found for line in said]
    return Result(case.name, case.purpose, time.monotonic() - began, tuple(lines)), text


def reason_of(case: Case, options: argparse.Namespace) -> str:
    """Returns why a case is left out, empty if it isn't."""
    if options.standard:
        return standard.reason(case)
    return MAKES if options.maker and not options.only and case.makes() else ""


def taken(options: argparse.Namespace, name: str) -> tuple[Result, str]:
    """Returns the result of a case that may be left out, and its report."""
    case = Case(name)
    why = reason_of(case, options)
    return (Result(name, case.purpose, left_out=why), "") if why else result_of(case, options)


def run_all(names: Sequence[str], options: argparse.Namespace) -> int:
    """Runs the cases, writes the differences, and returns the number of cases that differ."""
    results = Results("conformance", options, len(names))
    results.take_all(mapped_in_turn(functools.partial(taken, options), names, options.jobs), options.exitfirst)
    left = results.count(Verdict.LEFT_OUT)
    ran, differ = len(results.results) - left, results.count(Verdict.FAILED)
    what = "that the standard doesn't fix" if options.standard else "of make and trial"
    rest = len(names) - len(results.results)
    more = (f"; {left} {what} are left out" if left else "") + (f"; {rest} were not asked\n" if rest else "\n")
    return results.end(f"{ran} cases, {differ} differ{more}")


def main(arguments: list[str] | None = None) -> int:
    """Runs the tool, and returns its exit status."""
    options, names = checked(parser(), arguments, names_of_cases())
    if options.rules:
        print("\n".join(table_rows()))
        return 0
    try:
        if options.list:
            listed(names)
            return 0
        return 1 if run_all(names, options) else 0
    except ValueError as why:
        raise Refused(str(why)) from None
