"""Makes each case again with the model, and reports the differences from the case.

The samples, the text and the status are those of `cdma_model/`, the link in plain Python, so a difference means that
the case or the model was changed by hand. Cases of more than eight million samples take long, and are left out without
--all. `conformance/write` brings a case up to date.

    conformance/check
    conformance/check --all --jobs 2
    conformance/check idle_slots find_noise

Exit status: 0 nothing differs, 1 something does, 2 wrong arguments or a case that can't be read.
"""

from __future__ import annotations

from cdma_tools.arguments import Parser
from cdma_tools.conformance import cases
from cdma_tools.conformance.by_model import differences, is_long
from cdma_tools.errors import Refused
from cdma_tools.workers import add_jobs_option, mapped


def parser() -> Parser:
    """The command line."""
    words = Parser("conformance_check", __doc__)
    words.add_argument("names", nargs="*", metavar="NAME", help="cases to check (default all that don't take long)")
    words.add_argument("--all", action="store_true", help="also check cases that take long")
    add_jobs_option(words, "cases")
    return words


def looked_at(name: str) -> str:
    """Returns the report of a case, empty if nothing differs; raises `Refused`."""
    case = cases.Case(name)
    return "".join(cases.shown(case, words, said) for words, said in differences(case))


def main(arguments: list[str] | None = None) -> int:
    """Runs the tool, and returns its exit status."""
    words = parser()
    options = words.parse_args(arguments)
    names = cases.names_of_cases()
    for name in options.names:
        if name not in names:
            words.error(f"no case {name}: conformance/run --list lists all cases")
    try:
        chosen = options.names or [name for name in names if options.all or not is_long(cases.Case(name))]
        differ = 0
        for told in mapped(looked_at, chosen, options.jobs):
            differ += bool(told)
            print(told, end="", flush=True)
    except ValueError as why:
        raise Refused(str(why)) from None
    left = 0 if options.names else len(names) - len(chosen)
    print(f"{len(chosen)} cases, {differ} differ" + (f"; {left} that take long are left to --all" if left else ""))
    return 1 if differ else 0
