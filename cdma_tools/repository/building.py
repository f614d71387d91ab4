"""Builds a crate and those below it with `rattle`, several at once, each checked from nothing over what others state.

A library is built with its statements and without its proofs, as `rt ci` builds it: a check above it reads what the
crate promises, and not why that holds. That takes much less time and memory than the libraries of `rt lib`, which keep
each part of each proof for the next `rt check`. The two kinds don't mix, so these libraries have a folder of their own.
"""

from __future__ import annotations

import contextlib
import fcntl
import hashlib
import os
import re
import shutil
import signal
import subprocess
import time
from collections import deque
from collections.abc import Callable, Collection, Iterator
from dataclasses import dataclass

from cdma_tools.errors import Refused
from cdma_tools.interrupts import noted_interrupts
from cdma_tools.receiver_run import ended_text
from cdma_tools.repository.crate_list import all_below
from cdma_tools.repository.plan import PARTS, Crate, clock_text, planned, stands_on, work_ahead
from cdma_tools.starting import pass_over_interrupts

TARGET = "x86_64-unknown-linux-gnu"
# The last line of a check that proved all and took nothing on trust but the kit's own: the only one that `rt` accepts.
# A further word would say what is left out.
VERDICT = re.compile(
    r"^logic=proved( (functions|axioms|target|cpu|threads|main|sum)=\S+)+"
    r" native=nat,char,string logic-built=trusted libraries-built=trusted statements=trusted$",
    re.M,
)
OF_JOB = 0.6  # of what a crate is planned with, each job of its check but the first takes so much more
MOST_JOBS = 8  # of one check: `rt` itself chooses no more
OF_FREE = 0.85  # of the memory that is free, so much is planned with, as `rt ci` does
LAST_LINES = 12  # of the log of a crate that failed
SECONDS_TO_END = 10.0
MEMORY_INFO, GROUP_LIMIT, GROUP_HELD = "/proc/meminfo", "/sys/fs/cgroup/memory.max", "/sys/fs/cgroup/memory.current"


class Failed(Exception):
    """Reason why a crate wasn't built."""


@dataclass(frozen=True)
class Room:
    """A number of processors and an amount of memory in MB."""

    processors: int
    memory: float


@dataclass
class Run:
    """A crate that is being built: the sum of what it is built from, its process, its jobs, its planned memory in MB,
    and when it began."""

    name: str
    sum: str
    child: subprocess.Popen[bytes]
    jobs: int
    memory: float
    begun: float


def number_in(path: str, form: str) -> int | None:
    """Returns the number that a form finds in a file of the system, or None."""
    with contextlib.suppress(OSError), open(path, encoding="ascii") as file:
        found = re.search(form, file.read())
        return int(found[1]) if found else None
    return None


def free_memory() -> float:
    """The memory that is free, in MB: the machine's, or what the control group of this process has left of its own."""
    free = number_in(MEMORY_INFO, r"MemAvailable:\s+(\d+) kB")
    found = [] if free is None else [free * 1_024]
    limit, held = number_in(GROUP_LIMIT, r"^(\d+)$"), number_in(GROUP_HELD, r"^(\d+)$")
    if limit is not None and held is not None:
        found.append(limit - held)
    return min(found, default=0) / 1e6


def jobs_for(memory: float, room: Room, others: int) -> int:
    """The jobs of a crate that is planned with so much memory: one, and as many more as leave one to each other."""
    held = 1 + int((room.memory / memory - 1) / OF_JOB)
    return max(1, min(room.processors - others, held, MOST_JOBS))


def folder_of(root: str, name: str) -> str:
    """Returns the folder of a crate."""
    return os.path.join(root, "crates", name)


def log_of(root: str, name: str) -> str:
    """Returns the path of the log of a crate's check."""
    return os.path.join(folder_of(root, name), "out", "build.log")


def is_program(root: str, name: str) -> bool:
    """Whether a crate is a program, which is linked too."""
    return os.path.isfile(os.path.join(folder_of(root, name), "src", "main.rt"))


def made_by(root: str, name: str) -> str:
    """Returns the path of what is built of a crate."""
    made = name if is_program(root, name) else os.path.join("statements", f"{name}.rlib")
    return os.path.join(folder_of(root, name), "out", made)


def object_of(root: str, name: str) -> str:
    """Returns the path of a program before it is linked."""
    return f"{made_by(root, name)}.o"


def sum_file_of(root: str, name: str) -> str:
    """Returns the path of the file that names what a crate was built from."""
    return os.path.join(folder_of(root, name), "out", "statements", "sum")


def text_of(path: str) -> str:
    """Returns the text of a file, or none if there is no such file."""
    with contextlib.suppress(FileNotFoundError), open(path, encoding="utf-8", errors="replace") as file:
        return file.read()
    return ""


def kit_folder() -> str:
    """Returns the folder of Rattle's kit: that of the `rt` on the path."""
    found = shutil.which("rt")
    if found is None:
        raise Refused("rt is not on the path: it is the command of Rattle's kit (see README.md)")
    folder = os.path.dirname(os.path.dirname(os.path.realpath(found)))
    for needed in (os.path.join("bin", "rattle"), "WHAT"):
        if not os.path.isfile(os.path.join(folder, needed)):
            raise Refused(f"{found} lies in no folder of Rattle's kit: {folder} has no {needed}")
    return folder


def read_files(folder: str) -> Iterator[tuple[str, bytes]]:
    """Yields the files of a crate that a check reads, each by its path in the crate's folder, in order."""
    for part in PARTS:
        for at, folders, names in os.walk(os.path.join(folder, part)):
            folders.sort()
            for name in sorted(names):
                path = os.path.join(at, name)
                with open(path, "rb") as file:
                    yield os.path.relpath(path, folder), file.read()


class Checkout:
    """The crates of a checkout: the commands that build them, and which of them are built."""

    def __init__(self, root: str, crates: dict[str, Crate]) -> None:
        self.root, self.crates = root, crates
        self.below = stands_on(crates)
        self.kit = kit_folder()
        self.kit_is = text_of(os.path.join(self.kit, "WHAT"))

    def words(self, name: str, jobs: int) -> list[str]:
        """The command that checks a crate from nothing, in the crate's folder."""
        has_main, rlibs = is_program(self.root, name), os.path.join(self.kit, "rlibs")
        words = [os.path.join(self.kit, "bin", "rattle"), "build", "--crate-name", name]
        words.append(os.path.join("src", "main.rt" if has_main else "lib.rt"))
        for it in dict.fromkeys(("std", *self.crates[name].of_kit)):
            words += ["--extern", f"{it}={rlibs}/{it}.rlib"]
        for it in self.below[name]:
            words += ["--extern", f"{it}={made_by(self.root, it)}"]
        for folder in (rlibs, *(os.path.dirname(made_by(self.root, it)) for it in sorted(all_below(self.below, name)))):
            words += ["-L", f"dependency={folder}"]
        words += ["--antt-project", os.path.join(self.kit, "rattle", "logic", "antt-project.json")]
        words += ["--logic-built", os.path.join(self.kit, "logic_built")]
        words += ["--jobs", str(jobs), "--links", f"{name}="]
        if has_main:
            return [*words, *self.toolchain(), "--backend", "llvm", "-o", object_of(self.root, name)]
        return [*words, "--statements", "-o", made_by(self.root, name)]

    def toolchain(self) -> list[str]:
        """The words that name the compiler and the linker of the kit."""
        return ["--toolchain", os.path.join(self.kit, "toolchain")]

    def link_words(self, name: str, to: str) -> list[str]:
        """The command that links a program into a file."""
        libraries = [os.path.join(self.kit, "c", it) for it in ("libos_c.a", "liblibc_c.a")]
        linker = os.path.join(self.kit, "bin", "rattle-link")
        return [linker, "--target", TARGET, *self.toolchain(), "-o", to, object_of(self.root, name), *libraries]

    def sum_of(self, name: str) -> str:
        """A sum over what a crate is built from: its files, its command, the kit, and the crates below as built."""
        below = (text_of(sum_file_of(self.root, it)) for it in self.below[name])
        made = hashlib.sha256(repr([self.kit_is, *self.words(name, 1), *below]).encode())
        for file in read_files(folder_of(self.root, name)):
            made.update(repr(file).encode())
        return made.hexdigest()

    def is_built(self, name: str) -> bool:
        """Whether a crate is built from its files as they stand, over the crates below as they are built, and nothing
        has replaced what was made, as `rt run` replaces a program."""
        noted = text_of(sum_file_of(self.root, name)).split()
        return len(noted) == 3 and [noted[0], noted[2]] == [self.sum_of(name), self.made_at(name)]

    def made_at(self, name: str) -> str:
        """The time of what was made of a crate, in nanoseconds; empty if there is nothing."""
        with contextlib.suppress(FileNotFoundError):
            return str(os.stat(made_by(self.root, name)).st_mtime_ns)
        return ""

    def note_built(self, name: str, made_from: str) -> None:
        """Notes what a crate was built from, and when: statements fit only the libraries that they were made over."""
        with open(sum_file_of(self.root, name), "w", encoding="utf-8") as file:
            file.write(f"{made_from} {time.time_ns()} {self.made_at(name)}\n")

    def built_among(self, names: Collection[str]) -> set[str]:
        """Returns those of some crates that are built, and all crates below them too."""
        found: set[str] = set()
        for name in sorted(names, key=lambda it: len(all_below(self.below, it))):
            if found.issuperset(self.below[name]) and self.is_built(name):
                found.add(name)
        return found


class Builder:
    """Builds a crate and those below it, as many at once as resources allow; `tell` takes lines about the progress."""

    def __init__(self, root: str, crates: dict[str, Crate], name: str, room: Room, tell: Callable[[str], None]) -> None:
        self.root, self.room, self.tell = root, room, tell
        self.checkout = Checkout(root, crates)
        self.below = self.checkout.below
        names = {name, *all_below(self.below, name)}
        self.ahead = work_ahead(crates, names)
        self.memory = {it: planned(crates, it) for it in names}
        self.built = self.checkout.built_among(names)
        self.kept = len(self.built)  # that were built before
        # Those that weren't begun, the longest work first.
        self.left = sorted(names - self.built, key=lambda it: (-self.ahead[it], it))
        self.running: list[Run] = []
        self.begun = time.monotonic()

    def build(self) -> None:
        """Builds all, and ends checks under way if one fails or an interrupt comes."""
        try:
            while self.left or self.running:
                self.begin_ready()
                self.wait()
        except KeyboardInterrupt:
            pass_over_interrupts()
            raise
        finally:
            self.end_all()

    def unused(self) -> Room:
        """Returns the resources that no check uses."""
        taken = self.running
        return Room(
            self.room.processors - sum(it.jobs for it in taken), self.room.memory - sum(it.memory for it in taken)
        )

    def begin_ready(self) -> None:
        """Begins crates that depend only on built ones, as long as resources last; afterwards at least one is under
        way."""
        ready = [name for name in self.left if self.built.issuperset(self.below[name])]
        for at, name in enumerate(ready):
            room, memory = self.unused(), self.memory[name]
            if room.processors > 0 and (memory <= room.memory or not self.running):
                self.begin(name, jobs_for(memory, room, len(ready) - at - 1) if self.is_longest(name) else 1)

    def is_longest(self, name: str) -> bool:
        """Whether no longer work lies ahead of a crate that isn't built: what is waited for in the end."""
        return all(self.ahead[it] <= self.ahead[name] for it in [*self.left, *(run.name for run in self.running)])

    def begin(self, name: str, jobs: int) -> None:
        """Begins the check of a crate."""
        self.left.remove(name)
        self.clear(name)
        made_from, words = self.checkout.sum_of(name), self.checkout.words(name, jobs)
        memory = self.memory[name] * (1 + OF_JOB * (jobs - 1))
        with (
            open(log_of(self.root, name), "wb") as write,
            noted_interrupts(signal.SIGINT, signal.SIGTERM),  # so that no process starts without an entry in `running`
        ):
            child = subprocess.Popen(
                words,
                cwd=folder_of(self.root, name),
                stdin=subprocess.DEVNULL,
                stdout=write,
                stderr=subprocess.STDOUT,
                process_group=0,
            )
            self.running.append(Run(name, made_from, child, jobs, memory, time.monotonic()))
        self.say(f"{name} begun, {jobs} job{'s' if jobs > 1 else ''}")

    def clear(self, name: str) -> None:
        """Makes the folder of a crate's library, and removes what says that the crate, or `rt`'s program, is built."""
        os.makedirs(os.path.dirname(sum_file_of(self.root, name)), exist_ok=True)
        stamp_of_run = os.path.join(folder_of(self.root, name), "out", f"{name}.stamp")
        for path in (sum_file_of(self.root, name), stamp_of_run):
            with contextlib.suppress(FileNotFoundError):
                os.remove(path)

    def wait(self) -> None:
        """Waits until a check has ended, and takes all that have; raises Failed if a crate wasn't built."""
        os.waitid(os.P_ALL, 0, os.WEXITED | os.WNOWAIT)
        for run in [it for it in self.running if it.child.poll() is not None]:
            self.running.remove(run)
            if why := self.why_not(run):
                self.fail(run, why)
            self.checkout.note_built(run.name, run.sum)
            self.built.add(run.name)
            self.say(f"{run.name} built in {clock_text(time.monotonic() - run.begun)}")

    def why_not(self, run: Run) -> str:
        """Says why a crate whose check has ended isn't built; nothing if it is. A program is linked."""
        if run.child.returncode:
            return ended_text(run.child.returncode)
        if not VERDICT.search(text_of(log_of(self.root, run.name))):
            return "its log has no verdict that all is proved"
        if self.checkout.sum_of(run.name) != run.sum:
            return "its files changed meanwhile"
        return self.why_not_linked(run.name) if is_program(self.root, run.name) else ""

    def why_not_linked(self, name: str) -> str:
        """Links a program, which replaces an older one, and says why that failed; nothing if it didn't."""
        made = made_by(self.root, name)
        with open(log_of(self.root, name), "ab") as log:
            status = subprocess.run(
                self.checkout.link_words(name, f"{made}.new"),
                cwd=folder_of(self.root, name),
                stdin=subprocess.DEVNULL,
                stdout=log,
                stderr=subprocess.STDOUT,
            ).returncode
        if status:
            return f"{ended_text(status)} of the linker"
        os.replace(f"{made}.new", made)
        return ""

    def fail(self, run: Run, why: str) -> None:
        """Reports a crate that isn't built, and raises Failed."""
        self.say(f"{run.name} failed after {clock_text(time.monotonic() - run.begun)}, {why}; the end of its log:")
        self.tell_log(run.name)
        if self.running:
            self.say(f"broken off: {' '.join(it.name for it in self.running)}")
        raise Failed(f"{run.name} wasn't built; its log is {log_of(self.root, run.name)}")

    def tell_log(self, name: str) -> None:
        """Prints the last lines of a log."""
        with open(log_of(self.root, name), encoding="utf-8", errors="replace") as file:
            for line in deque(file, LAST_LINES):
                self.tell(f"    {line.rstrip()}")

    def say(self, text: str) -> None:
        """Prints a line on a crate, after the time since the start."""
        self.tell(f"{clock_text(time.monotonic() - self.begun)} {text}")

    def end_all(self) -> None:
        """Ends the checks that are under way, with all that they began."""
        until = time.monotonic() + SECONDS_TO_END
        for number in (signal.SIGTERM, signal.SIGKILL):
            for run in self.running:
                with contextlib.suppress(ProcessLookupError):
                    os.killpg(run.child.pid, number)
            for run in self.running:
                with contextlib.suppress(subprocess.TimeoutExpired):
                    run.child.wait(max(0.0, until - time.monotonic()) if number == signal.SIGTERM else None)
        self.running.clear()


@contextlib.contextmanager
def alone_in(root: str) -> Iterator[None]:
    """Keeps other builds out of a checkout until this context is left; refuses if one is under way."""
    with open(os.path.join(root, "crates.txt"), "rb") as file:
        try:
            fcntl.flock(file, fcntl.LOCK_EX | fcntl.LOCK_NB)
        except BlockingIOError:
            raise Refused(f"another build works in {root}") from None
        yield
