"""Writes the expected results of a case into its file, as the model computes them from its arguments and its input.

A case begins as conformance/cases/NAME.case with `purpose:`, `words:` and its input: a script after `script:`, with
`bits:`, or bytes after `file:`. This tool adds or corrects the status, rules, checksum and text, and above status 1 the
line on standard error; all other lines remain. For `make` it writes the number of bytes and their checksum instead of a
text.

    conformance/write my_case
    conformance/write --print my_case

Exit status: 0 written, or nothing to change, 1 a case makes no input, or its runs don't end alike, 2 wrong arguments or
a case that can't be read. A case that isn't written stays as it was.
"""

from __future__ import annotations

import hashlib
import os

from cdma_tools.arguments import Parser
from cdma_tools.conformance import cases
from cdma_tools.conformance.by_model import Draft, Item, answer_of, input_of, items_of
from cdma_tools.conformance.rules import rules_of
from cdma_tools.errors import Refused, WrongArguments, text_of
from cdma_tools.writing import write_beside

BLOCKS = ["script", "file", "text"]
FIRST_WITH_ERROR = 2


def wants(case: Draft) -> dict[str, Item]:
    """Returns the model's results for a case, by the keys of its file; raises `Refused` if its runs don't end alike."""
    data = input_of(case)
    answers = [answer_of(case, words, data) for words in case.runs]
    answer = answers[0]
    if any(other[:3] != answer[:3] for other in answers):
        raise Refused(f"the runs of the case {case.name} end differently")
    found = {"status": Item("status", f"status: {answer.status}", [])}
    if case.input == "samples" and case.scripts or case.has("sha256"):
        found["sha256"] = Item("sha256", f"sha256: {hashlib.sha256(data).hexdigest()}", [])
    if "error" in case.fields or answer.status >= FIRST_WITH_ERROR:
        found["error"] = Item("error", f"error: {answer.told.decode().rstrip()}".rstrip(), [])
    wrote = answer.wrote or b""
    if case.written or case.words[:1] == ["make"] and answer.status == 0:
        told = f"output: {len(wrote)} {hashlib.sha256(wrote).hexdigest()}"
        found["output"] = Item("output", told, [])
    elif not case.sink:
        text = wrote if case.near is None else cases.claimed(wrote)
        found["text"] = Item("text", "text:", ["  " + line for line in text.decode("ascii").splitlines()])
    lines = [line[2:] for line in found["text"].block] if "text" in found else []
    found["rules"] = Item("rules", f"rules: {' '.join(rules_of(case, answer.status, lines))}", [])
    return found


def brought_up_to_date(name: str, text: str) -> str:
    """Returns a case's file with the model's results; new lines are placed in the order of the table of the form."""
    items = items_of(text)
    found = wants(Draft(name, items))
    if "output" in found:
        items = [item for item in items if item.key != "text"]
    order = cases.KEYS + BLOCKS
    for key, item in found.items():
        place = next((at for at, old in enumerate(items) if old.key == key), None)
        if place is None:
            behind = [at for at, old in enumerate(items) if old.key in order and order.index(old.key) > order.index(key)]
            items.insert(behind[0] if behind else len(items), item)
        else:
            items[place] = item
    return "".join(line + "\n" for item in items for line in [item.line, *item.block])


def parser() -> Parser:
    """The command line."""
    words = Parser("conformance_write", __doc__)
    words.add_argument("names", nargs="+", metavar="NAME", help="name of a case")
    words.add_argument("--print", action="store_true", help="print the files instead of writing them")
    return words


def bring_up_to_date(name: str, is_printed: bool) -> None:
    """Brings a case's file up to date, or prints what it would be."""
    path = os.path.join(cases.CASES, name + ".case")
    try:
        with open(path, encoding="ascii") as file:
            before = file.read()
        after = brought_up_to_date(name, before)
    except OSError as why:
        raise WrongArguments(text_of(why, path)) from None
    except ValueError as why:
        raise WrongArguments(f"{path}: {why}") from None
    if is_printed:
        print(after, end="")
    elif after != before:
        with write_beside(path) as out:
            out.write(after.encode("ascii"))
        print(f"{name}: written")
    else:
        print(f"{name}: nothing to change")


def main(arguments: list[str] | None = None) -> int:
    """Runs the tool, and returns its exit status."""
    options = parser().parse_args(arguments)
    for name in options.names:
        bring_up_to_date(name, options.print)
    return 0
