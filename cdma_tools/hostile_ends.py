"""Ends of tools that random arguments don't reach: outputs that are inputs, growing files, FIFOs, devices, sockets that
the network could reach, and interrupts at random moments."""

import contextlib
import os
import random
import re
import signal
import subprocess
import threading
import time
from collections.abc import Callable
from dataclasses import dataclass

from cdma_tools.commands import FAILED, FAILED_AS
from cdma_tools.lines import begins_line
from cdma_tools.places import TOP
from cdma_tools.starting import COMMANDS, INTERRUPTED, called

# Command lines with the names of a folder's files; OUT or PICTURE is the output.
RAW = "--type ci8 --rate 2457600"
LINES = (
    f"import_capture {RAW} input OUT",
    f"import_capture --lock {RAW} input OUT",
    "channel cell.is95 OUT",
    "channel cell.is95 /dev/null --ideal OUT",
    "make_capture --count 6400 OUT",
    "domain cell.is95 --program /bin/true --json OUT",
    "draw survey PICTURE survey.txt",
    "explain --sync cell.is95 --picture PICTURE",
    "report cell.is95 --program /bin/true --out OUT",
    "listen --type ci8 --rate 1228800 --program /bin/true input --out OUT",
    "listen --type ci8 --rate 1228800 --program /bin/true input --paging all --traffic 00c0ffee:12:2 --out-dir heard",
    "listen --type ci8 --rate 2457600 --program /bin/true - --shift 0 --shift 900000 --paging 1,2 --json",
    f"scan {RAW} --search 600 input",
    "lines survey.txt",
    "listen --type ci8 --rate 1228800 --program /bin/true -",
    "view --type ci8 --rate 1228800 --program /bin/true --no-browser --exit input",
    "view --type ci8 --rate 2457600 --program /bin/true --no-browser --exit input --paging 1,2 --shift 0 --shift 9e5",
    "curve it.script --from 1 --to 1 --step 1 --frames 1 --program /bin/true --out curves",
    "conformance /bin/true --only follow_zeros",
    "agree --seed 1 --count 1 --print",
    "margin it.script",
    "script show it.script",
    "adapt --command /bin/cat -- find",
    "gate_times survey.txt",
    "model find",
)
# What the interpreter reports of an interrupt before the first line of a launcher.
BEFORE_PYTHON = re.compile(
    r"^Python runtime state: (core initialized|preinitializ)|, line 0, in <module>\nKeyboardInterrupt\n\Z", re.MULTILINE
)
LAUNCHERS = {module: launcher for module, launcher, _ in COMMANDS}
INPUTS = ("input", "cell.is95", "survey.txt")
SECONDS = 120  # in which a run has to end
LONGEST = 2.5  # seconds after which a run is interrupted at most
SHARED_RUN = "listen --type ci8 --rate 1228800 --program /bin/true --part 10 --workers 2 zeros"
SHARED_SAMPLES, SHARED_WAIT = 2 * 1_228_800 * 20, 120
# What a listening's file may have besides what it wrote, by how it ends.
RESTS = (b"", b"my notes", b"pilot study", b"pilot phase=6", b"frame at=12 rate=9600 go", bytes(100), b"\xff\n", b"notes\n")
WHOLE = b"pilot phase=64 energy=1509949440000\n"


@dataclass(frozen=True)
class Ended:
    """The end of a process, and its standard error."""

    status: int
    said: str

    @property
    def is_before_python(self) -> bool:
        """Whether an interrupt ended the interpreter in the milliseconds before it read a line of the tool."""
        return BEFORE_PYTHON.search(self.said) is not None

    def fault(self, tool: str, statuses: set[int]) -> str:
        """Returns the fault of the end, empty if there is none."""
        if "Traceback" in self.said or "Warning" in self.said:
            return f"a traceback or a warning: {self.said[-300:]!r}"
        allowed = statuses | (set(range(11)) if tool in ("report", "model") else {0, 1, 2})
        return "" if self.status in allowed else f"status {self.status}, {self.said[-300:]!r}"


def words_of(line: str, output: str) -> list[str]:
    """The words of a command line with an output."""
    return [output if word in ("OUT", "PICTURE") else word for word in line.split()]


def started(words: list[str], folder: str) -> subprocess.Popen[bytes]:
    """Starts a tool in a process of its own that takes interrupts."""
    pipe = subprocess.PIPE
    return subprocess.Popen(
        [*launcher_of(words[0]), *words[1:]], stdin=pipe, stdout=subprocess.DEVNULL, stderr=pipe, cwd=folder,
        env=dict(os.environ, OMP_NUM_THREADS="1", OPENBLAS_NUM_THREADS="1"), start_new_session=True,
        preexec_fn=hear_interrupts,
    )  # fmt: skip


def launcher_of(tool: str) -> list[str]:
    """Returns the command of a tool in a checkout: its launcher catches an interrupt from its first line on."""
    return [os.path.join(TOP, LAUNCHERS[tool])]


def hear_interrupts() -> None:
    """Lets a process take Ctrl-C, though this one may run in the background of a shell, which ignores it."""
    signal.signal(signal.SIGINT, signal.SIG_DFL)


def ended(run: subprocess.Popen[bytes], closes_input: bool = True) -> Ended:
    """Returns how a run ends; it is killed after a time that no tool needs."""
    try:
        if not closes_input:
            assert run.stderr is not None
            run.wait(SECONDS)
        _, said = run.communicate(timeout=SECONDS)
    except subprocess.TimeoutExpired:
        with contextlib.suppress(ProcessLookupError):
            os.killpg(run.pid, signal.SIGKILL)
        return Ended(run.wait(), f"Traceback: it didn't end within {SECONDS} s")
    return Ended(run.returncode, said.decode(errors="replace"))


def state_of(path: str) -> tuple[bytes, int]:
    """Returns the content of a file, and the time of its last change."""
    with open(path, "rb") as file:
        return file.read(), os.stat(path).st_mtime_ns


def same_file(folder: str, draw: random.Random) -> tuple[str, str]:
    """A run whose output is its input, by one way or another: its command line, and its fault."""
    line = draw.choice([line for line in LINES if ("OUT" in line or "PICTURE" in line) and "make_capture" not in line])
    given = os.path.join(folder, next(word for word in line.split() if word in INPUTS))
    output, before = os.path.join(folder, "same.png"), state_of(given)
    if draw.randrange(2):
        os.link(given, output)
    else:
        os.symlink(given, output)
    words = words_of(line, output)
    end = ended(started(words, folder))
    fault = end.fault(words[0], set())
    if not fault and (end.status != FAILED_AS.get(words[0], FAILED) or end.said.count("\n") != 1 or output not in end.said):
        fault = f"not refused in one line: status {end.status}, {end.said[-300:]!r}"
    return " ".join(words), fault or ("" if state_of(given) == before else "an input was changed")


def growing_file(folder: str, draw: random.Random) -> tuple[str, str]:
    """A listening to a file that it may have begun, or not."""
    path, rest = os.path.join(folder, "lines.txt"), draw.choice(RESTS)
    whole = draw.choice([b"", WHOLE, 3 * WHOLE])
    with open(path, "wb") as file:
        file.write(whole + rest)
    before = state_of(path)
    words = ["listen", "--type", "ci8", "--rate", "1228800", "--program", "/bin/true", "--append", "--out", path, "-"]
    end = ended(started(words, folder))
    is_own = not rest or not rest.endswith(b"\n") and rest.isascii() and begins_line(rest.decode("ascii"))
    wanted = whole if is_own else before[0]
    fault = end.fault(words[0], set())
    if not fault and (state_of(path)[0] != wanted or not is_own and state_of(path) != before):
        fault = f"a file with {rest!r} at its end was changed, or wasn't"
    return " ".join(words), fault


def pipes_and_devices(folder: str, draw: random.Random) -> tuple[str, str]:
    """A run that writes into a FIFO, whose reader may go away, or to a device."""
    line = draw.choice([line for line in LINES if "OUT" in line.split()])
    output = draw.choice(["/dev/null", "/dev/full", "/dev/stdout", "fifo", "fifo", "fifo"])
    words = words_of(line, output if output.startswith("/") else os.path.join(folder, output))
    reader = -1
    if output == "fifo":
        os.mkfifo(words[words.index(os.path.join(folder, "fifo"))])
        reader = os.open(os.path.join(folder, "fifo"), os.O_RDONLY | os.O_NONBLOCK)
    run = started(words, folder)
    if reader >= 0:
        threading.Thread(target=read_some, args=(run, reader, draw.choice([0, 10, 1 << 30])), daemon=True).start()
    return " ".join(words), ended(run).fault(words[0], set())


def read_some(run: subprocess.Popen[bytes], reader: int, most: int) -> None:
    """Reads at most `most` bytes of a run's output, and closes it."""
    with os.fdopen(reader, "rb", buffering=0) as file:
        while most > 0 and run.poll() is None:
            most -= len(file.read(1 << 16) or b"")
            time.sleep(0.001)


def interrupted(folder: str, draw: random.Random) -> tuple[str, str]:
    """A run that is interrupted at a random moment."""
    return interrupted_after(draw.choice(LINES), folder, draw, LONGEST * draw.random() ** 2)


def interrupted_after(line: str, folder: str, draw: random.Random, wait: float) -> tuple[str, str]:
    """A run that is interrupted after some seconds."""
    words, number = words_of(line, written_by(line, folder)), draw.choice([signal.SIGINT, signal.SIGTERM])
    kept = state_of(output_of(folder))[0]
    run = started(words, folder)
    with contextlib.suppress(subprocess.TimeoutExpired):
        run.wait(wait)
    run.send_signal(number)
    end = ended(run, closes_input=False)
    fault = "" if end.is_before_python else end.fault(words[0], {INTERRUPTED, -number})
    if not fault and end.status == INTERRUPTED and end.said != f"{called(words[0])}: broken off\n":
        fault = f"not one line: {end.said!r}"
    if not fault and any(name.startswith(".part-") for name in os.listdir(folder)):
        fault = "a file is left half written"
    if not fault and end.status == INTERRUPTED and state_of(output_of(folder))[0] != kept:
        fault = "" if is_whole(line, folder) else "an output is left half written"
    return f"{' '.join(words)}, {number.name} after {wait:.3f} s", fault


def written_by(line: str, folder: str) -> str:
    """Returns the output of a command line: a file that is there, but none that a listening would refuse."""
    name = "output.png" if "PICTURE" in line else "heard.txt" if line.startswith("listen") else "output"
    return os.path.join(folder, name)


def lasting(line: str, folder: str) -> float:
    """Returns the seconds that a run of a command line takes; one whose input stays open ends after `LONGEST`."""
    began = time.monotonic()
    run = started(words_of(line, os.path.join(folder, "again.png")), folder)
    with contextlib.suppress(subprocess.TimeoutExpired):
        run.wait(LONGEST)
    ended(run)
    return time.monotonic() - began


def output_of(folder: str) -> str:
    """Returns the path of an output that was there before."""
    return os.path.join(folder, "output")


def is_whole(line: str, folder: str) -> bool:
    """Returns whether an output is what an uninterrupted run writes: the interrupt came when it was written."""
    again = os.path.join(folder, "again")
    ended(started(words_of(line, again), folder))
    return os.path.exists(again) and state_of(again)[0] == state_of(output_of(folder))[0]


def sockets(folder: str, _: random.Random) -> tuple[str, str]:
    """A run that shares its work: nothing of it may be reached from the network."""
    import psutil  # dask.distributed needs it too

    with open(os.path.join(folder, "zeros"), "wb") as file:
        file.truncate(SHARED_SAMPLES)
    run, until, fault = started(SHARED_RUN.split(), folder), time.monotonic() + SHARED_WAIT, "no socket is there"
    try:
        while time.monotonic() < until and run.poll() is None and fault:
            time.sleep(0.2)
            with contextlib.suppress(psutil.NoSuchProcess):
                group = [psutil.Process(run.pid), *psutil.Process(run.pid).children(recursive=True)]
                places = [one.laddr.ip for process in group for one in process.connections("inet") if not one.raddr]
                if outside := [place for place in places if place not in ("127.0.0.1", "::1")]:
                    return SHARED_RUN, f"it listens at {outside[0]}"
                fault = "" if len(places) > 3 and len(group) > 2 else fault
    finally:
        with contextlib.suppress(ProcessLookupError):
            os.killpg(run.pid, signal.SIGKILL)
        run.communicate()
    return SHARED_RUN, fault


Kind = Callable[[str, random.Random], tuple[str, str]]
# The kinds of endings, each as often as it is listed here.
KINDS: tuple[Kind, ...] = (*4 * (interrupted,), *2 * (same_file,), *2 * (pipes_and_devices,), growing_file)
SOCKETS_ONE_IN = 40


def case(folder: str, draw: random.Random) -> tuple[str, str, str]:
    """A run in a folder with the files of a room: its kind, its command line, and what is wrong about its end."""
    kind = sockets if draw.randrange(SOCKETS_ONE_IN) == 0 else draw.choice(KINDS)
    return (kind.__name__, *kind(folder, draw))
