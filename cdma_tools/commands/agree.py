"""Gives the same random runs to the model and to a program, and reports the differences.

A run is a case as in conformance/, drawn from a number: run k uses the seed plus k. It has cells with random channels,
other paths, a second cell, noise, a file that is cut or too long, a script with a fault, or arguments of any command.
The text, the status and the line on standard error that the program writes are compared with those of `cdma_model/`. A
case in which they differ is kept as FOLDER/seed_N.case.

    tools/agree --seed 1 --count 100 crates/cdma_replay/out/cdma_replay
    tools/agree --seed 4711 --count 1 cdma_replay        the run of a reported number
    tools/agree --seed 1 --count 1 --print               its case

Exit status: 0 no difference, 1 some, 2 wrong arguments, or the program can't be run.
"""

from __future__ import annotations

import argparse
import functools
import os
import shlex
import time
from typing import NamedTuple

from cdma_tools.arguments import Parser, count_of, whole_within
from cdma_tools.conformance import cases
from cdma_tools.conformance.by_model import Draft, answer_of, input_of, items_of
from cdma_tools.conformance.random_case import random_case
from cdma_tools.errors import Refused
from cdma_tools.overwriting import InputFile, OutputFolder
from cdma_tools.program import add_program_option, find_program
from cdma_tools.workers import add_jobs_option, mapped
from cdma_tools.writing import write_beside

MOST_RUNS = 10_000_000
MINUTES = 5
MOST_SHOWN = 4


class Looked(NamedTuple):
    """Result of the run of a seed: its command, and the differences in lines."""

    seed: int
    command: str
    said: list[str]


def drawn(seed: int) -> Draft:
    """The case of a seed."""
    return Draft(f"seed_{seed}", items_of(random_case(seed)))


def compared(program: str, seed: int) -> Looked:
    """Runs a seed with the program and with the model; raises `Refused` if the program can't be run."""
    case = drawn(seed)
    try:
        data = input_of(case)
    except Refused as why:
        return Looked(seed, "", [f"the case makes no input: {why}"])
    words = case.words
    model, asked = answer_of(case, words, data), cases.asked(case, program, words, data, MINUTES)
    command = words[0] if words else ""
    if isinstance(asked, str):
        return Looked(seed, command, [asked])
    return Looked(seed, command, differences(model, asked))


def differences(model: cases.Answer, program: cases.Answer) -> list[str]:
    """Returns the differences of two answers, in lines."""
    said = []
    if program.status != model.status:
        said.append(f"status {program.status}, by the model {model.status}")
    if program.told != model.told:
        said.append(f"standard error {program.told!r}, by the model {model.told!r}")
    if program.wrote != model.wrote:
        said += text_differences(model.wrote or b"", program.wrote or b"")
    return said


def text_differences(model: bytes, program: bytes) -> list[str]:
    """Returns the first difference of two outputs: by bytes if one is a sample file, otherwise by lines."""
    if b"IS95" in (model[:4], program[:4]):
        pairs = enumerate(zip(model, program))
        place = next((at for at, (one, other) in pairs if one != other), min(len(model), len(program)))
        return [f"{len(program)} bytes, by the model {len(model)}: they differ from byte {place} on"]
    lines = zip(model.split(b"\n"), program.split(b"\n"))
    for at, (wanted, written) in enumerate(lines, 1):
        if wanted != written:
            return [f"line {at}: {written.decode(errors='replace')[:300]}", f"by the model: {wanted.decode()[:300]}"]
    return [f"{program.count(10)} lines, by the model {model.count(10)}"]


def parser() -> Parser:
    """The command line."""
    words = Parser("agree", __doc__)
    words.add_argument(
        "compared", type=InputFile, nargs="?", metavar="PROGRAM", help="program to compare with the model"
    )
    add_program_option(words)
    words.add_argument("--seed", type=count_of, required=True, metavar="N", help="seed of the first run")
    words.add_argument("--count", type=whole_within(1, MOST_RUNS), required=True, metavar="K", help="number of runs")
    add_jobs_option(words, "runs")
    words.add_argument(
        "--keep",
        type=OutputFolder,
        default="differences",
        metavar="FOLDER",
        help="folder in which cases are kept (default differences/)",
    )
    words.add_argument("--print", action="store_true", help="print the cases, and run nothing")
    return words


def checked(given: list[str] | None) -> argparse.Namespace:
    """Returns the options; ends the program if an argument is wrong."""
    words = parser()
    options = words.parse_args(given)
    if not options.print:
        options.program = find_program(options.compared or options.program)
    return options


def kept(folder: str, seed: int) -> str:
    """Returns the path at which the case of a seed is kept."""
    os.makedirs(folder, exist_ok=True)
    path = os.path.join(folder, f"seed_{seed}.case")
    with write_beside(path) as file:
        file.write(random_case(seed).encode("ascii"))
    return path


def shown(looked: Looked, path: str) -> str:
    """Returns the report of a run that differs."""
    lines = [f"seed {looked.seed}: {shlex.join(drawn(looked.seed).words)}: {path}"]
    return "\n".join(lines + [f"    {line}" for line in looked.said[:MOST_SHOWN]])


def compare_all(options: argparse.Namespace) -> int:
    """Does all runs, writes the differences, and returns the number of runs that differ."""
    seeds = range(options.seed, options.seed + options.count)
    commands: dict[str, int] = {}
    differ, began = 0, time.monotonic()
    for looked in mapped(functools.partial(compared, options.program), seeds, options.jobs, chunk=8):
        commands[looked.command] = commands.get(looked.command, 0) + 1
        if looked.said:
            differ += 1
            print(shown(looked, kept(options.keep, looked.seed)), flush=True)
    told = ", ".join(f"{count} of {command or 'no command'}" for command, count in sorted(commands.items()))
    print(f"{options.count} runs, {differ} differ, {time.monotonic() - began:.0f} s: {told}")
    return differ


def main(arguments: list[str] | None = None) -> int:
    """Runs the tool, and returns its exit status."""
    options = checked(arguments)
    if options.print:
        for seed in range(options.seed, options.seed + options.count):
            print(random_case(seed), end="")
        return 0
    return 1 if compare_all(options) else 0
