"""Runs the built program on damaged inputs that it makes itself, and fails if a run doesn't end as it must.

Sample files and scripts are cut off, or have bits inverted, bytes added or removed, or lines exchanged. Each run must
end with a status that the command has, and write exactly that status's line on standard error. Nothing may be written
for a script or a header with a fault. For a file that is cut off at any byte, the output must be the beginning of the
complete file's, and for one with bytes after its samples all of it. Build the program first, with `tools/build`.

    tools/hostile --count 1000
    tools/hostile --tools --count 10000
    tools/hostile --tools --seconds 60 --seed "$RANDOM"
    tools/hostile --tools --interrupts 50

--tools tries the tools instead of the program. Each run is a tool with random arguments, metadata and bytes. It must
end within 60 processor seconds with a status that the tool's --help names, without a traceback, with one line that
gives the reason if the status isn't 0, and with nothing half written. Every third run is a process: its output is its
input, a file that no listening wrote, a FIFO or a device; or it is interrupted at a random moment; or it shares its
work, and may listen on loopback addresses only. --interrupts takes each tool in turn, and interrupts its run at moments
that are spread over the time that it takes. `tools/starve` makes each allocation fail.

Exit status: 0 no fault, 1 some, 2 wrong arguments.
"""

import argparse
import os
import random
import re
import subprocess
import tempfile
import time
from collections import Counter
from collections.abc import Callable, Iterator
from concurrent.futures import ThreadPoolExecutor
from functools import partial

from cdma_tools import hostile_ends, hostile_tools
from cdma_tools.arguments import Parser, count_of, whole_within
from cdma_tools.errors import Refused
from cdma_tools.hostile_tools import Ran
from cdma_tools.places import EXAMPLES
from cdma_tools.program import add_program_option, find_program
from cdma_tools.sample_header import HEADER, header
from cdma_tools.workers import mapped

MOST_SHOWN, MOST_SECONDS, MOST_MOMENTS = 20, 1_000_000, 10_000
LINES = {
    0: r"",
    1: r"no sync message\n",
    2: r"bad words\n",
    3: r"bad file: (magic at 0|version at 4|flags at 6|count at 8|too few at 8|short at \d+|extra at \d+)\n",
    8: r"bad script: (too big|line \d+|walsh \d+|gain \d+|too loud \d+|too long \d+)\n",
}
SYNC = "sync gain=30 prev=3 min=1 sid=1 nid=2 lp=13 ltm=0 daylt=0 prat=0 rest=3:00\n"
PAGES = "paging channel=1 gain=60\npage half 34:04ff8046c0\n"
FRAMES = (
    "traffic row=10 esn=0000abcd offset=0 gain=40\n"
    "frame 9600 172:123456789abcdef0123456789abcdef0123456789ab0 0101010101010101\n"
    "frame 1200 16:8001 1111111100000000\n"
)


def cell(samples: int) -> str:
    """Returns the first lines of a script of `samples` samples."""
    return f"cell pn=511 time=1000 lc=20000000000 checks=0\nlink re=0 im=-3 start=0 samples={samples}\npilot gain=100\n"


SCRIPTS = [
    cell(1) + SYNC,
    cell(700) + SYNC + PAGES,
    cell(300) + SYNC + PAGES + FRAMES,
]


def run(program: str, words: list[str], data: bytes) -> tuple[int, bytes, str]:
    """The exit status of a run, what it wrote, and what it wrote on standard error."""
    ran = subprocess.run([program, *words], input=data, capture_output=True, timeout=60)
    return ran.returncode, ran.stdout, ran.stderr.decode("ascii")


def turned(draw: random.Random, data: bytes, first: int, last: int) -> bytes:
    """The bytes with one to eight bits turned between two places."""
    made = bytearray(data)
    for _ in range(draw.randint(1, 8)):
        made[draw.randrange(first, last)] ^= 1 << draw.randrange(8)
    return bytes(made)


class Hostile:
    """Damaged inputs of a program, each drawn from the seed and its number."""

    def __init__(self, program: str, seed: int) -> None:
        self.program, self.seed = program, seed
        self.statuses: Counter[tuple[str, int]] = Counter()
        status, self.long, _ = run(program, ["make"], (cell(360000) + SYNC + PAGES).encode())
        if status != 0:
            raise Refused(f"{program} make ended with {status}")
        self.small = self.noise(80)
        self.long_text = self.whole(["follow"], self.long)

    def noise(self, count: int) -> bytes:
        """A sample file of noise."""
        draw = random.Random(self.seed)
        return header(1, 0, count) + bytes(draw.randrange(256) for _ in range(4 * count))

    def whole(self, words: list[str], data: bytes) -> bytes:
        """Returns the output of a run over a complete file."""
        status, text, said = run(self.program, words, data)
        if status not in (0, 1):
            raise AssertionError(f"{' '.join(words)}: status {status}, {said!r}")
        return text

    def ends(self, case: str, words: list[str], data: bytes, statuses: set[int]) -> tuple[int, bytes, str]:
        """Returns the output of a run that must end with one of these statuses and its line."""
        status, text, said = run(self.program, words, data)
        self.statuses[words[0], status] += 1
        if status not in statuses or not re.fullmatch(LINES[status], said):
            raise AssertionError(f"{case}: status {status}, {said!r}")
        return status, text, said

    def cut(self, case: str, words: list[str], data: bytes, whole: bytes, draw: random.Random) -> None:
        """Tries a file that is cut off."""
        at = draw.randrange(len(data))
        _, text, said = self.ends(case, words, data[:at], {3})
        if not whole.startswith(text) or said != f"bad file: short at {at}\n":
            raise AssertionError(f"{case}: cut at {at}: {text!r}, {said!r}")

    def longer(self, case: str, words: list[str], data: bytes, whole: bytes, draw: random.Random) -> None:
        """Tries a file with bytes after its samples."""
        more = bytes(draw.randrange(256) for _ in range(draw.randint(1, 9)))
        _, text, said = self.ends(case, words, data + more, {3})
        if text != whole or said != f"bad file: extra at {len(data)}\n":
            raise AssertionError(f"{case}: {len(more)} bytes more: {text!r}, {said!r}")

    def header(self, case: str, words: list[str], data: bytes, draw: random.Random) -> None:
        """Tries a file whose header has turned bits."""
        damaged = turned(draw, data, 0, HEADER.size)
        status, text, said = self.ends(case, words, damaged, {0, 1, 3})
        if status == 3 and text and not re.search("short|extra", said):
            raise AssertionError(f"{case}: {text!r} of a header with a fault, {said!r}")

    def file(self, case: str, draw: random.Random) -> None:
        """Tries a damaged sample file."""
        is_long = draw.randrange(40) == 0
        words, data = (["follow"], self.long) if is_long else (["find", "--span", "64"], self.small)
        kind = draw.randrange(4)
        if kind == 0:
            return self.header(case, words, data, draw)
        if kind == 1 and is_long:
            return self.cut(case, words, data, self.long_text, draw)
        damaged = turned(draw, data, HEADER.size, len(data))
        whole = self.whole(words, damaged)
        return (self.longer if kind == 3 else self.cut)(case, words, damaged, whole, draw)

    def script(self, case: str, draw: random.Random) -> None:
        """Tries a damaged script."""
        script = draw.choice(SCRIPTS).encode()
        kind = draw.randrange(4)
        if kind == 0:
            script = script[: draw.randrange(len(script))]
        elif kind == 1:
            script = turned(draw, script, 0, len(script))
        elif kind == 2:
            lines = script.splitlines(True)
            draw.shuffle(lines)
            script = b"".join(lines)
        else:
            at = draw.randrange(len(script))
            script = script[:at] + script[at + draw.randint(1, 9) :]
        status, made, _ = self.ends(case, ["make"], script, {0, 8})
        if status == 8 and made:
            raise AssertionError(f"{case}: {len(made)} bytes of a faulty script")
        if status == 0 and len(made) != HEADER.size + 4 * HEADER.unpack(made[: HEADER.size])[3]:
            raise AssertionError(f"{case}: {len(made)} bytes")

    def case(self, number: int) -> str | None:
        """Returns the fault of a case, or None."""
        draw = random.Random(f"{self.seed}/{number}")
        name = f"case {number} of seed {self.seed}"
        try:
            if draw.randrange(4) == 0:
                self.script(name, draw)
            else:
                self.file(name, draw)
        except AssertionError as why:
            return str(why)
        except subprocess.TimeoutExpired:
            return f"{name}: it didn't end within a minute"
        return None


def parser() -> Parser:
    """The command line."""
    arguments = Parser("hostile", __doc__)
    inputs = "number of inputs (default 100,000; with --tools 1,000)"
    arguments.add_argument("--count", type=whole_within(1, 1_000_000_000), metavar="N", help=inputs)
    arguments.add_argument("--seed", type=count_of, default=1995, metavar="N", help="seed of the inputs (default 1995)")
    arguments.add_argument("--tools", action="store_true", help="try the tools instead of the program")
    seconds = "with --tools: begin no run after S seconds, instead of --count"
    arguments.add_argument("--seconds", type=whole_within(1, MOST_SECONDS), metavar="S", help=seconds)
    moments = "with --tools: interrupt a run of each tool at N moments, instead of --count"
    arguments.add_argument("--interrupts", type=whole_within(1, MOST_MOMENTS), metavar="N", help=moments)
    add_program_option(arguments)
    return arguments


def faults_of(case: Callable[[int], str | None], count: int) -> list[str]:
    """The faults of cases 0 to count - 1, which are tried as many at once as there are processors."""
    pool = ThreadPoolExecutor(os.cpu_count())
    try:
        return [fault for fault in pool.map(case, range(count)) if fault]
    finally:
        pool.shutdown(cancel_futures=True)


def rounds_of(count: int, seconds: int | None, jobs: int) -> Iterator[range]:
    """Yields the numbers of runs: all at once, or `jobs` at a time as long as there is time."""
    if seconds is None:
        yield range(count)
        return
    until, first = time.monotonic() + seconds, 0
    while time.monotonic() < until:
        yield range(first, first + jobs)
        first += jobs


def runs_of_tools(options: argparse.Namespace) -> tuple[list[str], Counter[tuple[str, int]]]:
    """Returns the faults of the runs of tools that the options ask for, and how many runs ended in which way."""
    statuses: Counter[tuple[str, int]] = Counter()
    faults: list[str] = []
    with open(os.path.join(EXAMPLES, "frames_9600.script"), "rb") as file:
        script = file.read()
    with tempfile.TemporaryDirectory(prefix="hostile-") as folder:
        runs = interrupted_runs if options.interrupts else drawn_runs
        for ran in runs(folder, script, options):
            statuses[ran.command, ran.status] += 1
            faults += [ran.fault] if ran.fault else []
    return faults, statuses


def drawn_runs(folder: str, script: bytes, options: argparse.Namespace) -> Iterator[Ran]:
    """Yields `--count` random runs, or as many as `--seconds` allow."""
    jobs = os.cpu_count() or 1
    for numbers in rounds_of(options.count or 1_000, options.seconds, 4 * jobs):
        yield from mapped(partial(hostile_tools.case, folder, script, options.seed), numbers, jobs)


def interrupted_runs(folder: str, script: bytes, options: argparse.Namespace) -> Iterator[Ran]:
    """Yields the runs of all tools that are interrupted, each tool by a process."""
    runs_of = partial(hostile_tools.interrupts_of, folder, script, options.seed, options.interrupts)
    for runs in mapped(runs_of, range(len(hostile_ends.LINES)), os.cpu_count() or 1):
        yield from runs


def main(arguments: list[str] | None = None) -> int:
    """Runs the tool, and returns its exit status."""
    words = parser()
    options = words.parse_args(arguments)
    if (options.seconds or options.interrupts) and not options.tools:
        words.error("--seconds and --interrupts go with --tools")
    if sum(1 for given in (options.count, options.seconds, options.interrupts) if given) > 1:
        words.error("--count, --seconds and --interrupts exclude each other")
    if options.tools:
        faults, statuses = runs_of_tools(options)
        count, kind = statuses.total(), f"runs of tools, seed {options.seed}"
    else:
        count, kind = options.count or 100_000, "damaged inputs"
        hostile = Hostile(find_program(options.program), options.seed)
        faults, statuses = faults_of(hostile.case, count), hostile.statuses
    for fault in faults[:MOST_SHOWN]:
        print(fault)
    for (command, status), number in sorted(statuses.items()):
        print(f"{command} status {status}: {number}")
    print(f"{count} {kind}, {len(faults)} faults")
    return 1 if faults else 0
