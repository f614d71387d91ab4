"""Checks the script of a cell, shows it in words, begins a new one, and names what is wrong with a command's arguments.

    tools/script check FILE        all faults of a script: line, column, value, the reason, and what would be right
    tools/script show FILE         the cell in words: levels in dB, length in seconds, the noise that each channel bears
    tools/script new [OPTIONS]     writes a script to start from, by options or by questions
    tools/script words -- ARGS     what is wrong with arguments of cdma_replay

FILE is a script as `cdma_replay make` takes it (docs/FORMATS.md, "Script"), - for standard input. The program names
only the line of the first fault; `check` agrees with it, which its last line shows.

    tools/script check mine.script
    tools/script new --pn 100 --paging 1 --traffic 10:00c0ffee --seconds 2 --out mine.script
    tools/script words -- follow --esn 1234 --row 10

Exit status: 0 the script or the arguments are right, 1 they have a fault, or a file can't be read or written, 2 wrong
arguments.
"""

import argparse
import dataclasses
import json
import sys
from collections.abc import Callable

from cdma_tools.arguments import PartParser, Parser, Within, number_within, read_by, whole_within
from cdma_tools.errors import Refused, printable
from cdma_tools.overwriting import InputFile, OutputFile
from cdma_tools.reading import all_of
from cdma_tools.scripting import arguments as program_arguments
from cdma_tools.scripting import beginning, showing
from cdma_tools.scripting.checking import Fault, check, fault_text, verdict
from cdma_tools.scripting.values import LONGEST_SHOWN
from cdma_tools.writing import write_out

MOST_BYTES = 10 << 20  # that are looked at; a script has fewer
MOST_SHOWN = 100
LEVEL = number_within(-60, 20)
DEFAULT_SYNC, DEFAULT_PAGING, DEFAULT_TRAFFIC = -10.0, -4.0, -8.0


def parser() -> argparse.ArgumentParser:
    """Returns the parser of the command line."""
    top = Parser("script", __doc__)
    parts = top.add_subparsers(dest="part", required=True, metavar="check|show|new|words", parser_class=PartParser)
    one = parts.add_parser("check", help="report all faults of a script")
    add_file(one)
    one.add_argument("--json", action="store_true", help="one JSON object per fault")
    one.add_argument("--most", type=whole_within(1, 1_000_000), default=MOST_SHOWN, metavar="N",
                     help=f"number of faults that are shown (default {MOST_SHOWN})")  # fmt: skip
    add_file(parts.add_parser("show", help="describe a script in words"))
    add_new(parts.add_parser("new", help="write a script to start from"))
    words = parts.add_parser("words", help="name what is wrong with arguments of cdma_replay")
    words.add_argument("words", nargs=argparse.REMAINDER, metavar="-- ARGS", help="the arguments, after --")
    return top


def add_file(part: argparse.ArgumentParser) -> None:
    """Adds the arguments that name a script."""
    part.add_argument("script", type=InputFile, metavar="FILE", help="the script, - for standard input")
    part.add_argument(
        "--bits", type=int, choices=(8, 16), default=16, help="bits of a sample, as make has them (default 16)"
    )


def add_new(part: argparse.ArgumentParser) -> None:
    """Adds the options of `new`."""
    part.add_argument("--pn", type=whole_within(0, 511), default=0, metavar="P", help="the pilot's offset (default 0)")
    part.add_argument("--time", type=whole_within(0, 34_359_738_368), default=1_000, metavar="T",
                      help="system time of local chip 0 in units of 80 ms (default 1000)")  # fmt: skip
    part.add_argument("--state", type=long_code_state, default=1 << 41, metavar="H",
                      help="the long code's state then, 11 hex digits (default 20000000000)")  # fmt: skip
    part.add_argument("--seconds", type=Within(float, 0, 60, is_above=True), default=1.0, metavar="S",
                      help="length of the sample file (default 1)")  # fmt: skip
    part.add_argument("--bits", type=int, choices=(8, 16), default=16, help="bits of a sample (default 16)")
    part.add_argument("--sync", type=LEVEL, default=DEFAULT_SYNC, metavar="DB",
                      help=f"the sync channel's level against the pilot in dB (default {DEFAULT_SYNC:g})")  # fmt: skip
    part.add_argument("--paging", type=paging_of, action="append", default=[], metavar="CHANNEL[:DB]",
                      help=f"a paging channel, 1 to 7, and level (default {DEFAULT_PAGING:g}), repeatable")  # fmt: skip
    part.add_argument("--traffic", type=traffic_of, action="append", default=[], metavar="ROW:ESN[:OFFSET[:DB]]",
                      help="a traffic channel: Walsh row 1 to 63, serial number in hex, FRAME_OFFSET 0 to 15 "
                      f"(default 0), level (default {DEFAULT_TRAFFIC:g}), repeatable")  # fmt: skip
    part.add_argument(
        "--rate-set", type=int, choices=(1, 2), default=1, help="rate set of the traffic frames (default 1)"
    )
    part.add_argument("--ask", action="store_true", help="ask for each value on the terminal")
    part.add_argument("--quiet", action="store_true", help="leave out the comments, which go to standard error")
    out = "where the script goes (default: standard output)"
    part.add_argument("--out", type=OutputFile, default="-", metavar="FILE", help=out)


def long_code_state(text: str) -> int:
    """Returns the long code's state that eleven hex digits name."""
    value = read_by(lambda digits: int(digits, 16), text, "not eleven hex digits")
    if len(text) != 11 or not 1 <= value < 1 << 42:
        raise argparse.ArgumentTypeError(
            f"not eleven hex digits from 00000000001 to 3ffffffffff: {text[:LONGEST_SHOWN]!r}"
        )
    return int(value)


def paging_of(text: str) -> beginning.Paging:
    """Returns the paging channel that CHANNEL[:DB] names."""
    channel, _, level = text.partition(":")
    return beginning.Paging(whole_within(1, 7)(channel), LEVEL(level) if level else DEFAULT_PAGING)


def traffic_of(text: str) -> beginning.Traffic:
    """Returns the traffic channel that ROW:ESN[:OFFSET[:DB]] names, of rate set 1."""
    row, esn, offset, level, *more = [*text.split(":"), "", "", ""][: max(4, text.count(":") + 1)]
    if more or len(esn) != 8:
        raise argparse.ArgumentTypeError(
            f"not ROW:ESN[:OFFSET[:DB]] with an ESN of eight hex digits: {text[:LONGEST_SHOWN]!r}"
        )
    return beginning.Traffic(
        whole_within(1, 63)(row),
        read_by(lambda digits: int(digits, 16), esn, "not eight hex digits"),
        whole_within(0, 15)(offset) if offset else 0,
        LEVEL(level) if level else DEFAULT_TRAFFIC,
        1,
    )


# ---- check and show


def data_of(path: str) -> tuple[bytes, str]:
    """Returns the bytes of a script and its name; Refused if it has more than are looked at."""
    if path == "-":
        return all_of(sys.stdin.buffer, "standard input", MOST_BYTES), "standard input"
    with open(path, "rb") as file:
        return all_of(file, path, MOST_BYTES), path


def fault_object(fault: Fault) -> str:
    """Returns the JSON object that reports a fault."""
    return json.dumps({**dataclasses.asdict(fault), "kind": fault.kind.value}) + "\n"


def run_check(options: argparse.Namespace) -> int:
    """Reports all faults of a script, and the program's verdict."""
    data, name = data_of(options.script)
    found = check(data, options.bits)
    for fault in found[: options.most]:
        sys.stdout.write(fault_object(fault) if options.json else fault_text(fault, name) + "\n")
    if options.json:
        return 1 if found else 0
    if len(found) > options.most:
        sys.stdout.write(f"{name}: {len(found) - options.most:,} more faults\n")
    said = verdict(found)
    sys.stdout.write(f"{name}: cdma_replay make says: bad script: {said}\n" if said else f"{name}: right\n")
    return 1 if found else 0


def run_show(options: argparse.Namespace) -> int:
    """Describes a script that has no fault."""
    data, name = data_of(options.script)
    found = check(data, options.bits)
    if found:
        raise Refused(f"{fault_text(found[0], name)} (check reports all faults)")
    sys.stdout.write(showing.shown(data.decode("ascii"), options.bits))
    return 0


# ---- new

Question = tuple[str, str, Callable[[str], object]]
QUESTIONS: tuple[Question, ...] = (
    ("pn", "pilot offset, 0 to 511", whole_within(0, 511)),
    ("seconds", "length in seconds", Within(float, 0, 60, is_above=True)),
    ("sync", "level of the sync channel against the pilot in dB", LEVEL),
    ("paging", "a paging channel as CHANNEL[:DB], empty for none", paging_of),
    ("traffic", "a traffic channel as ROW:ESN[:OFFSET[:DB]], empty for none", traffic_of),
)


def ask(options: argparse.Namespace) -> None:
    """Asks for the main values on standard error, and reads the answers from standard input."""
    for name, question, read in QUESTIONS:
        before = getattr(options, name)
        is_list = isinstance(before, list)
        while True:
            sys.stderr.write(f"{question}{'' if is_list else f' [{before}]'}: ")
            sys.stderr.flush()
            answer = sys.stdin.readline().strip()
            if not answer:
                break
            try:
                value = read(answer)
            except argparse.ArgumentTypeError as why:
                sys.stderr.write(f"{why}\n")
                continue
            if not is_list:
                setattr(options, name, value)
                break
            before.append(value)


def run_new(options: argparse.Namespace) -> int:
    """Writes a new script, with a comment on each line on standard error."""
    if options.ask:
        ask(options)
    traffic = tuple(dataclasses.replace(one, rate_set=options.rate_set) for one in options.traffic)
    plan = beginning.Plan(
        options.pn,
        options.time,
        options.state,
        options.seconds,
        options.bits,
        options.sync,
        tuple(options.paging),
        traffic,
    )
    lines = beginning.lines_of(plan)
    text = "".join(line + "\n" for line, _ in lines)
    found = check(text.encode(), options.bits)
    if found:
        raise Refused(f"these options don't make a script: {found[0].reason}")
    with write_out(options.out) as file:
        file.write(text.encode())
    if not options.quiet:
        for number, (line, comment) in enumerate(lines, 1):
            sys.stderr.write(f"line {number}, {line.split(' ', 1)[0]}: {comment}\n")
    return 0


def run_words(options: argparse.Namespace) -> int:
    """Names what is wrong with arguments of the program."""
    words = options.words[1:] if options.words[:1] == ["--"] else options.words
    found = program_arguments.faults(words)
    for fault in found:
        sys.stdout.write(printable(fault) + "\n")
    if not found:
        sys.stdout.write("right\n")
    return 1 if found else 0


PARTS = {"check": run_check, "show": run_show, "new": run_new, "words": run_words}


def main(arguments: list[str] | None = None) -> int:
    """Runs the tool, and returns its exit status."""
    options = parser().parse_args(arguments)
    return PARTS[options.part](options)
