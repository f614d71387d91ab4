"""Measures what a lock to a recording loses: the cells, their recordings, what is decoded of them, and the tables."""

import collections
import json
import math
import os
import shlex
import subprocess
import sys
import tempfile
from typing import Any, NamedTuple

import numpy
from numpy.typing import NDArray

from cdma_tools.commands import process_arguments
from cdma_tools.errors import Refused
from cdma_tools.listening.measuring import Figures
from cdma_tools.places import TOP
from cdma_tools.progress import bar
from cdma_tools.radio.air import CHIP_RATE, PERIOD, decibels, ratio_of, short_code
from cdma_tools.radio.bench_cases import CASES, CELLS, Case, Cell, script_of
from cdma_tools.radio.bench_cells import CELLS_CASES, OFFSETS, CellsCase, busy_script
from cdma_tools.radio.channel import Cell as ChannelCell
from cdma_tools.radio.strength import PilotMeter
from cdma_tools.sample_file import SampleFile
from cdma_tools.sample_header import HEADER, header

# Chips over which a handset fits a path's gain: a power control group (docs/LINK.md).
WINDOW = 1_536
AT_ONCE, MEASURED_AT_ONCE = 64, 1 << 20
RATE = 2_400_000
MINUTES = 10
# The link of recordings of several cells, besides that of a case.
CELLS_LINK = ("--carrier", "1500", "--clock", "3", "--delay", "0.3")


# What a process does to write the most memory that it had, in KB, to a file at its end.
TELL_MEMORY = (
    "import atexit; atexit.register(lambda: open({path!r}, 'w').write("
    "next(line.split()[1] for line in open('/proc/self/status') if line.startswith('VmHWM'))))"
)


class Lock(NamedTuple):
    """A run of the lock: its status, its figures, its messages, its processor seconds and its memory in MB."""

    status: int
    figures: dict[str, str]
    said: str
    seconds: float
    megabytes: float


class Bench:
    """A folder to work in, and the program."""

    def __init__(self, program: str, folder: str) -> None:
        self.program, self.folder = program, folder
        # One thread, so that the processor's time is the time that one processor takes.
        self.environment = dict(os.environ, OMP_NUM_THREADS="1", OPENBLAS_NUM_THREADS="1")

    def at(self, name: str) -> str:
        """A file's place."""
        return os.path.join(self.folder, name)

    def run(self, words: list[str], text: bytes = b"", path: str | None = None) -> bytes:
        """Returns the output of a command for a text, or for a file on standard input."""
        with open(path or os.devnull, "rb") as file:
            given: dict[str, Any] = {"stdin": file} if path else {"input": text}
            ran = subprocess.run(words, capture_output=True, timeout=60 * MINUTES, env=self.environment, **given)
        if ran.returncode not in (0, 1):
            raise Refused(
                f"{' '.join(words)}: status {ran.returncode}: {ran.stderr.decode(errors='replace').strip()[-300:]}"
            )
        return ran.stdout

    def cell(self, name: str, script: str) -> str:
        """The sample file of a script, made once."""
        path = self.at(name.replace(" ", "_") + ".is95")
        if not os.path.exists(path):
            with open(path, "wb") as file:
                file.write(self.run([self.program, "make"], script.encode("ascii")))
        return path

    def heard(self, path: str, words: list[str]) -> collections.Counter[str]:
        """Counts the messages and frames that a handset decodes, each without its place."""
        lines = self.run([self.program, "follow", *words], path=path).decode("ascii").splitlines()
        told = [line.split(" ", 2) for line in lines if line.startswith(("sync ", "paging ", "frame "))]
        return collections.Counter(f"{kind} {rest}" for kind, _, rest in told if " good=0 " not in f" {rest} ")

    def record(self, cells: list[str], words: list[str], name: str) -> str:
        """A recording by tools/channel."""
        path = self.at(name)
        ran = subprocess.run(
            [*process_arguments("channel"), *words, *cells, path], capture_output=True, env=self.environment
        )
        if ran.returncode:
            raise Refused(ran.stderr.decode(errors="replace").strip())
        return path

    def lock(self, recording: str, words: list[str], name: str = "lock.is95") -> Lock:
        """Runs the lock, and measures what it takes.

        The process itself reports its memory at its end, because the system's figure for a child begins with its
        parent's.
        """
        *python, script = process_arguments("import_capture")
        measured = f"{TELL_MEMORY.format(path=self.at('memory'))}; {script}"
        words = [*python, measured, "--lock", *words, recording, self.at(name)]
        with tempfile.TemporaryFile() as said:
            ran = subprocess.Popen(words, stderr=said, env=self.environment)
            _, status, used = os.wait4(ran.pid, 0)
            ran.returncode = os.waitstatus_to_exitcode(status)
            said.seek(0)
            text = said.read().decode(errors="replace")
        figures = [
            dict(word.split("=", 1) for word in line.split())
            for line in text.splitlines()
            if line.startswith("carrier_hz=")
        ]
        seconds = used.ru_utime + used.ru_stime
        with open(self.at("memory"), encoding="ascii") as file:
            memory = int(file.read()) * 1_024 / 1e6
        return Lock(ran.returncode, figures[0] if figures else {}, text.strip(), seconds, memory)


def counts(sent: collections.Counter[str], heard: collections.Counter[str]) -> str:
    """Returns the counts of what was sent and decoded: sync messages, paging messages, frames."""
    both = sent & heard
    return "/".join(
        str(sum(number for line, number in both.items() if line.startswith(kind)))
        for kind in ("sync", "paging", "frame")
    )


def signal_to_noise(path: str, cell: str, first: int) -> float:
    """Returns the ratio in dB of a cell's signal, from its chip `first` on and with a gain for each window, to the rest
    of a file's chips."""
    got, sent = SampleFile(path), SampleFile(cell)
    count = min(got.count - max(0, -first), sent.count - max(0, first)) // WINDOW
    signal = noise = 0.0
    # Some windows at a time: the memory of a process that starts another counts as that one's too.
    for begin in range(0, count, AT_ONCE):
        size = min(AT_ONCE, count - begin)
        received = got.read(max(0, -first) + begin * WINDOW, size * WINDOW).reshape(size, WINDOW).astype(complex)
        wanted = sent.read(max(0, first) + begin * WINDOW, size * WINDOW).reshape(size, WINDOW).astype(complex)
        power = numpy.sum(numpy.abs(wanted) ** 2, axis=1)
        gain = numpy.sum(received * wanted.conj(), axis=1) / power
        noise += float(numpy.sum(numpy.abs(received - gain[:, None] * wanted) ** 2))
        signal += float(numpy.sum(numpy.abs(gain) ** 2 * power))
    for file in (got, sent):
        file.close()
    return float(10 * numpy.log10(signal / noise))


def phase_of(path: str) -> int:
    """The code phase of a clean cell's first chip."""
    file = SampleFile(path)
    head = file.read(0, PERIOD)
    file.close()
    return int(numpy.abs(numpy.fft.ifft(numpy.fft.fft(short_code()) * numpy.fft.fft(head).conj())).argmax())


def loss_of(bench: Bench, case: Case, cell: str, found: dict[str, str]) -> str:
    """Returns the amount in dB by which the locked chips lie below the ideal ones, if the link has one steady path."""
    if "--paths" in case.link:
        return ""
    first = (int(found["phase"]) - phase_of(cell)) % PERIOD
    first -= PERIOD if first > PERIOD // 2 else 0
    ideal = signal_to_noise(bench.at("ideal.is95"), cell, 0)
    return f"{ideal - signal_to_noise(bench.at('lock.is95'), cell, first):.2f}"


def true_values(case: Case, seconds: float) -> tuple[float, float]:
    """Returns the carrier and the clock in the middle of a recording of `seconds`."""
    words = shlex.split(case.link)
    told = {
        words[k]: float(words[k + 1])
        for k in range(len(words) - 1)
        if words[k] in ("--carrier", "--drift", "--clock", "--clock-drift")
    }
    middle = seconds / 2
    carrier = told.get("--carrier", 0.0) + told.get("--drift", 0.0) * middle
    return carrier, told.get("--clock", 0.0) + told.get("--clock-drift", 0.0) * middle


def row_of(bench: Bench, case: Case) -> str:
    """The row of a case."""
    cell = bench.cell(case.cell, script_of(CELLS[case.cell]))
    words = [*CELLS[case.cell].words, "--fingers", str(case.fingers)]
    link = [
        "--type",
        case.kind,
        "--rate",
        f"{case.rate:.0f}",
        *shlex.split(case.link),
        "--ideal",
        bench.at("ideal.is95"),
    ]
    lock = bench.lock(bench.record([cell], link, "in.sigmf-meta"), ["--fingers", str(case.fingers)])
    if lock.status:
        return f"| {case.name} | {case.kind} {case.rate / 1e6:g} | {case.link} | no lock: {lock.said} |"
    sent, ideal, heard = (bench.heard(path, words) for path in (cell, bench.at("ideal.is95"), bench.at("lock.is95")))
    carrier, clock = true_values(case, int(lock.figures["chips"]) / CHIP_RATE)
    errors = f"{float(lock.figures['carrier_hz']) - carrier:.1f} | {float(lock.figures['clock_ppm']) - clock:.3f}"
    return (
        f"| {case.name} | {case.kind} {case.rate / 1e6:g} | {case.link.replace('--', '')} | {counts(sent, sent)} | {counts(sent, ideal)}"
        f" | {counts(sent, heard)} | {loss_of(bench, case, cell, lock.figures)} | {errors} | {lock.figures['ec_io_db']}"
        f" | {lock.seconds:.1f} | {lock.megabytes:.0f} |"
    )


HEAD = """| Case | Recording | Link | Sent | Ideal | Lock | Loss dB | Carrier Hz | Clock ppm | Ec/Io dB | s | MB |
|---|---|---|---|---|---|---|---|---|---|---|---|"""


def print_table(bench: Bench, names: list[str]) -> None:
    """The table of the cases of some names."""
    print(HEAD)
    for case in bar([case for case in CASES if not names or case.name in names], text="links"):
        print(row_of(bench, case), flush=True)


def without_pilot(number: int, count: int) -> NDArray[numpy.complex128]:
    """Samples without a pilot: noise, carriers, pulses, bands, and signals of other kinds, by a number."""
    from scipy.signal import firwin, lfilter

    draws = numpy.random.default_rng(number)
    noise = draws.standard_normal(count) + 1j * draws.standard_normal(count)
    time = numpy.arange(count)
    kinds = (
        lambda: numpy.zeros(count),
        lambda: 30 * numpy.exp(2j * numpy.pi * draws.uniform(-0.4, 0.4) * time),
        lambda: sum(3 * numpy.exp(2j * numpy.pi * draws.uniform(-0.5, 0.5) * time) for _ in range(20)),
        lambda: 30 * ((time % draws.integers(2_000, 60_000)) < 40),
        lambda: 5 * lfilter(firwin(301, 0.25), 1, draws.standard_normal(count) + 1j * draws.standard_normal(count)),
        # A spread signal of the same period and the same rate, of another code.
        lambda: 3
        * numpy.tile(numpy.repeat(1 - 2.0 * draws.integers(0, 2, PERIOD), 2), count // (2 * PERIOD) + 1)[:count],
        # Minimum shift keying of 270 kilobits a second.
        lambda: 5
        * numpy.exp(
            0.5j * numpy.pi / 9 * numpy.cumsum(numpy.repeat(1 - 2 * draws.integers(0, 2, count // 9 + 1), 9)[:count])
        ),
        # Many carriers, each keyed by phase.
        lambda: 3
        * numpy.fft.ifft(draws.choice([1, 1j, -1, -1j], (count // 256 + 1, 256)), axis=1).reshape(-1)[:count]
        * 16,
        # A frequency that is swept.
        lambda: 10
        * numpy.exp(2j * numpy.pi * numpy.cumsum(0.4 * numpy.sin(2 * numpy.pi * time / draws.integers(500, 50_000)))),
        lambda: noise * (1 + 10 * (numpy.sin(time / 3_000) > 0.9)),
    )
    return numpy.asarray(noise + kinds[number % len(kinds)](), dtype=complex)


def print_false_locks(bench: Bench) -> None:
    """Prints for twenty recordings without a pilot the number of false locks, and why the others are refused."""
    parts, locks, unheard = [], 0, 0
    for number in bar(range(20), text="without a pilot"):
        samples = without_pilot(number, RATE // 2)
        scaled = samples / numpy.sqrt(numpy.mean(numpy.abs(samples) ** 2)) * 2_000
        numpy.stack([scaled.real, scaled.imag], axis=1).clip(-32_768, 32_767).astype("<i2").tofile(bench.at("none.raw"))
        lock = bench.lock(bench.at("none.raw"), ["--type", "ci16_le", "--rate", str(RATE)], "none.is95")
        if not lock.status or os.path.exists(bench.at("none.is95")):
            locks += 1
            print(f"- without a pilot, number {number}: {lock.said}")
        elif "nothing confirms it" in lock.said:
            unheard += 1
        else:
            words = lock.said.split()
            parts.append(float(words[words.index("energy") + 2]))
    print(
        f"- Twenty recordings of half a second without a pilot: {locks} locks; {unheard} passed the threshold and were"
        f" refused since nothing confirmed them; the best energies of the others are {min(parts):.2f} to"
        f" {max(parts):.2f} of the threshold."
    )


def print_weak_pilots(bench: Bench) -> None:
    """Ten pilots at an Ec/Io of -20 dB."""
    cell, found = bench.cell("loud", script_of(CELLS["loud"])), []
    for seed in bar(range(1, 11), text="weak pilots"):
        link = f"--type cu8 --ec-io -20 --seconds 0.5 --carrier {4_000 * seed - 22_000 + 700} --clock {3 * seed - 16} --delay {seed / 11:.2f} --seed {seed}"
        lock = bench.lock(bench.record([cell], link.split(), "weak.sigmf-meta"), [])
        is_right = bool(lock.figures) and abs(float(lock.figures["carrier_hz"]) - (4_000 * seed - 21_300)) < 30
        found.append(is_right)
    print(
        f"- Ten recordings of half a second with a pilot at an Ec/Io of -20 dB, over carriers and clocks: {sum(found)} found."
    )


def print_second_cell(bench: Bench) -> None:
    """A second cell 3 dB weaker, 40 chips off."""
    cell = CELLS["quiet"]
    first = bench.cell("quiet", script_of(cell))
    second = bench.cell("second", script_of(Cell(77, *cell[1:])))
    link = "--type cu8 --carrier 2000 --clock 5 --delay 0.3".split()
    sent = bench.heard(first, cell.words)
    told = []
    for cells in ([first], [first, f"{second}:-3:40"]):
        lock = bench.lock(bench.record(cells, link, "two.sigmf-meta"), [])
        told.append(bench.heard(bench.at("lock.is95"), cell.words) if not lock.status else collections.Counter())
    print(
        f"- A cell alone, and with a second one 3 dB weaker, 40 chips off: of {counts(sent, sent)} sent {counts(sent, told[0])} and"
        f" {counts(sent, told[1])} heard; {'no line is another' if told[0] == told[1] else 'the lines differ'}."
    )
    lock = bench.lock(bench.at("two.sigmf-meta"), ["--cell", "2"])
    sent, heard = (bench.heard(path, cell.words) for path in (second, bench.at("lock.is95")))
    print(
        f"- The second of them, by --cell 2: of {counts(sent, sent)} sent {counts(sent, heard)} heard, in"
        f" {lock.seconds:.1f} s of one processor and {lock.megabytes:.0f} MB."
    )


def print_times(bench: Bench) -> None:
    """Prints the times for 2 and for 27 seconds."""
    cell = CELLS["loud"]
    for seconds, chips in ((2.0, 2 * CHIP_RATE), (27.3, 33_554_432)):
        path = bench.cell(f"loud {seconds}", script_of(cell, samples=chips))
        link = "--type cu8 --ec-io -12 --carrier 12000 --drift 60 --clock -12 --clock-drift 0.4 --delay 0.3".split()
        recording = bench.record([path], link, "long.sigmf-meta")
        lock = bench.lock(recording, [])
        sent, heard = bench.heard(path, cell.words), bench.heard(bench.at("lock.is95"), cell.words)
        print(
            f"- {seconds:g} s at 2.4 million samples a second: {lock.seconds:.1f} s of one processor, {lock.megabytes:.0f} MB;"
            f" of {counts(sent, sent)} sent {counts(sent, heard)} heard."
        )
        for name in (path, bench.at("long.sigmf-data"), bench.at("lock.is95")):
            os.unlink(name)


STREAM_HEAD = """| Case | Recording | Link | Sent | File | Stream | File dB | Stream dB | Last, file | Stream | x real time | Late s | MB |
|---|---|---|---|---|---|---|---|---|---|---|---|---|"""
# Seconds of a recording; those at its end, when many fades have shown a stream its instants; and those of lines.
STREAM_SECONDS, LAST_SECONDS, MINUTE = 12, 4, 60


def streamed(bench: Bench, case: Case, recording: str) -> Figures:
    """Returns the figures of the lock that streams, in a process of its own; its chips are in stream.is95."""
    command = [sys.executable, "-B", "-m", "cdma_tools.listening.measuring"]
    words = [case.kind, f"{case.rate:.0f}", recording, bench.at("stream.is95"), str(case.fingers)]
    environment = dict(bench.environment, PYTHONPATH=TOP)
    ran = subprocess.run([*command, *words], capture_output=True, env=environment, timeout=60 * MINUTES)
    if ran.returncode:
        raise Refused(ran.stderr.decode(errors="replace").strip()[-300:])
    return Figures(**json.loads(ran.stdout))


def ec_io_of(path: str, phase: int, seconds: float = math.inf) -> float:
    """The pilot's share of all power in the last seconds of a sample file whose first chip has a code phase, in dB."""
    file, meter = SampleFile(path), PilotMeter()
    begin = file.count - int(min(seconds * CHIP_RATE, file.count))
    for first in range(begin, file.count, MEASURED_AT_ONCE):
        meter.add(phase + first, file.read(first, min(MEASURED_AT_ONCE, file.count - first)))
    file.close()
    return meter.ec_io


def stream_row(bench: Bench, case: Case) -> str:
    """The row of a case for the lock that streams."""
    cell = bench.cell(f"{case.cell} stream", script_of(CELLS[case.cell], samples=STREAM_SECONDS * CHIP_RATE))
    words = [*CELLS[case.cell].words, "--fingers", str(case.fingers)]
    link = ["--type", case.kind, "--rate", f"{case.rate:.0f}", *shlex.split(case.link)]
    recording = bench.record([cell], link, "in.sigmf-meta")
    lock = bench.lock(recording, ["--fingers", str(case.fingers)])
    if lock.status:
        return f"| {case.name} | {case.kind} {case.rate / 1e6:g} | {case.link} | no lock: {lock.said} |"
    figures = streamed(bench, case, bench.at("in.sigmf-data"))
    sent, whole, heard = (bench.heard(path, words) for path in (cell, bench.at("lock.is95"), bench.at("stream.is95")))
    chips = (bench.at("lock.is95"), int(lock.figures["phase"])), (bench.at("stream.is95"), figures.phase)
    shares = [ec_io_of(*file, seconds) for seconds in (STREAM_SECONDS, LAST_SECONDS) for file in chips]
    return (
        f"| {case.name} | {case.kind} {case.rate / 1e6:g} | {case.link.replace('--', '')} | {counts(sent, sent)}"
        f" | {counts(sent, whole)} | {counts(sent, heard)} | {' | '.join(f'{share:.2f}' for share in shares)}"
        f" | {figures.locked_air / figures.locked_seconds:.1f} | {figures.late:.2f} | {figures.megabytes:.0f} |"
    )


def print_minute(bench: Bench) -> None:
    """Prints what tools/listen takes for a minute, including the lines."""
    cell, sent = CELLS["quiet"], bench.at("minute.is95")
    third = MINUTE // 3 * CHIP_RATE  # a file has 27 seconds at most
    scripts = [script_of(cell, third, start=start).encode("ascii") for start in (0, third, 2 * third)]
    parts = [bench.run([bench.program, "make"], script) for script in scripts]
    with open(sent, "wb") as file:
        file.write(header(1, 0, 3 * third) + b"".join(part[HEADER.size :] for part in parts))
    recording = bench.record([sent], "--type cu8 --carrier 2000 --clock 5 --ec-io -8".split(), "minute.sigmf-meta")
    with open(bench.at("minute.txt"), "wb") as file:
        command = [*process_arguments("listen"), "--program", bench.program, recording, *cell.words]
        ran = subprocess.Popen(command, stdout=file, env=bench.environment)
        _, status, used = os.wait4(ran.pid, 0)
        ran.returncode = os.waitstatus_to_exitcode(status)
    seconds = used.ru_utime + used.ru_stime
    print(
        f"- {MINUTE} s at 2.4 million samples a second to lines: {seconds:.1f} s of one processor,"
        f" {MINUTE / seconds:.1f} times real time, status {ran.returncode}."
    )


def print_stream(bench: Bench, names: list[str]) -> None:
    """The table of the lock that streams, and what a minute takes."""
    print(STREAM_HEAD)
    for case in bar([case for case in CASES if not names or case.name in names], text="links"):
        print(stream_row(bench, case), flush=True)
    print_minute(bench)


class Power(NamedTuple):
    """The power of a chip of a cell and of its pilot, times its level in a recording."""

    all: float
    pilot: float


def power_of(path: str, level: float) -> Power:
    """The powers of a cell at a level in dB."""
    source = ChannelCell(path, level)
    source.file.close()
    return Power(source.power, source.pilot)


def ideal_of(bench: Bench, case: CellsCase, path: str, power: Power, noise: float) -> collections.Counter[str]:
    """Counts what an ideal receiver decodes of only one cell, in the same noise and over the same paths."""
    share = decibels(power.pilot / (power.all + noise))
    words = [*CELLS_LINK, *shlex.split(case.link), "--ec-io", f"{share:.4f}", "--ideal", bench.at("ideal.is95")]
    bench.record([path], words, "alone.raw")
    return bench.heard(bench.at("ideal.is95"), [])


def cells_row(bench: Bench, case: CellsCase) -> str:
    """Returns the row of a recording of several cells: for each, what was sent, what an ideal receiver decodes, and the
    lock."""
    paths = [bench.cell(f"busy {number}", busy_script(number)) for number in range(len(case.levels))]
    powers = [power_of(path, level.db) for path, level in zip(paths, case.levels)]
    noise = powers[0].all / ratio_of(case.noise)
    share = decibels(powers[0].pilot / (sum(power.all for power in powers) + noise))
    cells = [f"{path}:{level.db}:{level.delay}" for path, level in zip(paths, case.levels)]
    words = [*CELLS_LINK, *shlex.split(case.link), "--ec-io", f"{share:.4f}"]
    recording = bench.record(cells, words, "cells.sigmf-meta")
    told, seconds, megabytes = [], 0.0, 0.0
    for number, (path, power) in enumerate(zip(paths, powers)):
        lock = bench.lock(recording, ["--pn", str(OFFSETS[number]), "--program", bench.program])
        heard = bench.heard(bench.at("lock.is95"), []) if not lock.status else collections.Counter()
        sent, ideal = bench.heard(path, []), ideal_of(bench, case, path, power, noise)
        told.append(" ".join(counts(sent, got).removesuffix("/0") for got in (sent, ideal, heard)))
        seconds, megabytes = max(seconds, lock.seconds), max(megabytes, lock.megabytes)
    link = case.link.replace("--", "")
    return f"| {case.name} | {case.noise:g} | {link} | {', '.join(told)} | {seconds:.1f} | {megabytes:.0f} |"


def print_cells(bench: Bench, names: list[str]) -> None:
    """The table of recordings of several cells."""
    print("| Cells | Noise dB below | Link | Sent, ideal, lock of each | s | MB |\n|---|---|---|---|---|---|")
    for case in bar([case for case in CELLS_CASES if not names or case.name in names], text="cells"):
        print(cells_row(bench, case), flush=True)
