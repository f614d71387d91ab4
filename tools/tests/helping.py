"""What the tests of the tools share: the places of files, and how a tool and the program are run."""

import atexit
import contextlib
import fcntl
import functools
import importlib
import importlib.util
import io
import os
import shutil
import struct
import subprocess
import tempfile
import time
import unittest
import unittest.mock
import warnings
from collections.abc import Callable, Sequence
from types import ModuleType

from cdma_tools.commands import package_of, status_of

ROOT = os.path.dirname(os.path.dirname(os.path.dirname(os.path.abspath(__file__))))
TOOLS = os.path.join(ROOT, "tools")
EXAMPLES = os.path.join(ROOT, "examples")
PROGRAM = os.environ.get("CDMA_REPLAY")
NO_PROGRAM = "CDMA_REPLAY names no built program"
HEADER = struct.Struct(">4sHHQ")
PYTHON = "/usr/bin/python3"
# The warnings that Python doesn't print by default.
UNSAID = (DeprecationWarning, PendingDeprecationWarning, ImportWarning, ResourceWarning)
# A way to run a tool: it takes a name, arguments and data, and returns a status and both outputs.
ToolRun = Callable[..., tuple[int, bytes, str]]
# Names the folder of what the processes of one run of all tests share.
SHARED = "CDMA_TOOLS_TESTS_SHARED"


def needs(*names: str) -> None:
    """Skips a module of tests if a package that it needs is missing."""
    for name in names:
        if importlib.util.find_spec(name) is None:
            raise unittest.SkipTest(f"no {name}: install the package {package_of(name)}")


def temporary_folder(clean: Callable[..., object]) -> str:
    """Returns the path of a new folder, removed with a test or with a class: `clean` is its addCleanup or
    addClassCleanup."""
    folder = tempfile.TemporaryDirectory()
    clean(folder.cleanup)
    return folder.name


@functools.cache
def shared_folder() -> str:
    """Returns the folder shared by the processes of a run of all tests; in any other run, this process's own."""
    named = os.environ.get(SHARED)
    if named:
        return named
    own = tempfile.mkdtemp(prefix="cdma-tests-")
    atexit.register(shutil.rmtree, own, ignore_errors=True)
    return own


def made_once(name: str, make: Callable[[str], object]) -> str:
    """Returns the path of a file that the first test that needs it makes, and that no test may change.

    The name stands for everything that the file depends on. Other tests that need the file wait until it is complete.
    """
    path = os.path.join(shared_folder(), name)
    with open(path + ".lock", "wb") as lock:
        fcntl.flock(lock, fcntl.LOCK_EX)
        if not os.path.exists(path):
            make(path + ".part")
            os.replace(path + ".part", path)
    return path


def loaded(name: str) -> ModuleType:
    """Returns a tool's module."""
    return importlib.import_module(f"cdma_tools.commands.{name}")


def run_tool(name: str, *words: object, data: bytes = b"") -> tuple[int, bytes, str]:
    """Runs a tool; returns its status, its output and its standard error."""
    command = [PYTHON, "-B", os.path.join(TOOLS, name), *map(str, words)]
    ran = subprocess.run(command, input=data, capture_output=True, timeout=300)
    return ran.returncode, ran.stdout, ran.stderr.decode()


def run_inside(name: str, *words: object, data: bytes = b"") -> tuple[int, bytes, str]:
    """Returns what `run_tool` returns, by a run within this process, which loads no package a second time.

    Use it for tests of what a tool does with its input. Tests of the process itself need a process.
    """
    wrote, said = io.BytesIO(), io.BytesIO()
    streams = [io.TextIOWrapper(held, "utf-8", "backslashreplace") for held in (io.BytesIO(data), wrote, said)]
    with (
        unittest.mock.patch("sys.stdin", streams[0]),
        contextlib.redirect_stdout(streams[1]),
        contextlib.redirect_stderr(streams[2]),
        warnings.catch_warnings(),
    ):
        warnings.resetwarnings()
        for kind in UNSAID:
            warnings.simplefilter("ignore", kind)
        status = status_of(name, [str(word) for word in words])
    for stream in streams[1:]:
        stream.flush()
    return status, wrote.getvalue(), said.getvalue().decode()


def run_program(*words: str, data: bytes = b"") -> tuple[int, bytes]:
    """Runs the built program; returns its status and its output."""
    assert PROGRAM is not None
    ran = subprocess.run([PROGRAM, *words], input=data, capture_output=True, timeout=300)
    return ran.returncode, ran.stdout


def is_gone(group: int) -> bool:
    """Returns whether no process of a group is left after at most some seconds."""
    until = time.monotonic() + 30
    while time.monotonic() < until:
        try:
            os.killpg(group, 0)
        except ProcessLookupError:
            return True
        time.sleep(0.05)
    return False


def example(name: str) -> bytes:
    """Returns the bytes of an example."""
    with open(os.path.join(EXAMPLES, name), "rb") as file:
        return file.read()


def read_file(path: str) -> tuple[int, int, list[tuple[int, int]]]:
    """Returns a sample file's version, flags and samples."""
    with open(path, "rb") as file:
        data = file.read()
    return taken_apart(data)


def taken_apart(data: bytes) -> tuple[int, int, list[tuple[int, int]]]:
    """Returns the version, the flags and the samples in a sample file's bytes."""
    magic, version, flags, count = HEADER.unpack(data[: HEADER.size])
    assert magic == b"IS95", magic
    form = {1: "h", 2: "b"}[version]
    parts = struct.unpack(f">{2 * count}{form}", data[HEADER.size :])
    return version, flags, list(zip(parts[::2], parts[1::2]))


def sample_file(samples: Sequence[tuple[int, int]], version: int = 1, flags: int = 0) -> bytes:
    """Returns the bytes of a sample file."""
    form = {1: "h", 2: "b"}[version]
    parts = [part for sample in samples for part in sample]
    return HEADER.pack(b"IS95", version, flags, len(samples)) + struct.pack(f">{len(parts)}{form}", *parts)
