"""How each tool begins: an interrupt during its imports ends it with one line, and a closed pipe with none."""

from __future__ import annotations

import os
import re
import signal
import subprocess
import time
import unittest

from cdma_tools.starting import called, named_by
from tools.tests.helping import PYTHON, ROOT, temporary_folder

SECONDS = 300  # the longest time of a tool on a busy machine; on an idle one it takes less than one
WAYS = [f"tools/{name}" for name in sorted(os.listdir(os.path.join(ROOT, "tools"))) if name != "tests"]
WAYS += [f"conformance/{name}" for name in ("check", "run", "run_recordings", "write")]
# Runs a text as a process's own, and gets a signal when a certain import is about to be made.
AT_AN_IMPORT = """
import os, signal, sys
number, left, text, sys.argv = int(sys.argv[1]), [int(sys.argv[2])], sys.argv[3], sys.argv[4:]
def count(event, _):
    left[0] -= event == "import"
    if event == "import" and left[0] == 0:
        os.kill(os.getpid(), number)
sys.addaudithook(count)
sys.path.insert(0, "")
exec(compile(text, sys.argv[0], "exec"), {"__name__": "__main__", "__file__": sys.argv[0]})
"""
MODEL = "import runpy, site; site.main(); runpy.run_module('model', run_name='__main__')"
INSTALLED = "import sys; from cdma_tools import entries; sys.exit(entries.cdma_report())"
FIRST_OF_COMMAND = 25  # an import that comes after those of `start`, and before each command's last one


def told_at_import(way: str, number: int, count: int, text: str = "") -> tuple[int, str]:
    """Sends a signal to a tool at its import of this count; returns its status and its standard error."""
    path = os.path.join(ROOT, way)
    if not text:
        with open(path, encoding="utf-8") as file:
            text = file.read()
    words = [PYTHON, "-S", "-B", "-c", AT_AN_IMPORT, str(int(number)), str(count), text, path, "--help"]
    ran = subprocess.run(words, capture_output=True, text=True, cwd=ROOT, preexec_fn=hear, timeout=SECONDS)
    return ran.returncode, ran.stderr


def name_of(way: str) -> str:
    """Returns the name that a tool gives itself."""
    return called(named_by(os.path.join(ROOT, way)))


class Imports(unittest.TestCase):
    """An interrupt at a certain import, whatever the machine's speed."""

    parted, seconds = True, 20

    def test_each_tool(self) -> None:
        for way in WAYS:
            with self.subTest(way):
                told = told_at_import(way, signal.SIGINT, FIRST_OF_COMMAND)
                self.assertEqual(told, (130, f"{name_of(way)}: broken off\n"))

    def test_at_many_imports(self) -> None:
        """The first ones are those of the script itself."""
        for way in ("tools/report", "conformance/run"):
            for count in (1, 2, 3, 5, 8, 13, 34, 55, 89, 144, 233, 377):
                with self.subTest(way, count=count):
                    status, said = told_at_import(way, signal.SIGINT, count)
                    line = f"{name_of(way)}: broken off\n"
                    self.assertIn((status, said), ((130, line), (0, "")))
                    self.assertFalse(status == 0 and count <= FIRST_OF_COMMAND)

    def test_an_installed_command(self) -> None:
        told = told_at_import("bin/cdma-report", signal.SIGINT, FIRST_OF_COMMAND, INSTALLED)
        self.assertEqual(told, (130, "cdma-report: broken off\n"))

    def test_the_model(self) -> None:
        told = told_at_import("model", signal.SIGINT, 89, MODEL)
        self.assertEqual(told, (130, "model: broken off\n"))

    def test_sigterm(self) -> None:
        for count in (FIRST_OF_COMMAND, 89):
            self.assertEqual(told_at_import("tools/scan", signal.SIGTERM, count), (130, "scan: broken off\n"))


class Instants(unittest.TestCase):
    """An interrupt some time after a tool begins to receive them: the tool is interrupted, or has done its work."""

    seconds = 20

    def test_instants(self) -> None:
        for way in ("tools/report", "tools/curve", "conformance/run"):
            for seconds in (0.0, 0.03, 0.1, 0.2, 0.4, 0.8):
                with self.subTest(way, seconds=seconds):
                    child = subprocess.Popen(
                        [os.path.join(ROOT, way), "--help"], stdout=subprocess.PIPE, stderr=subprocess.PIPE,
                        preexec_fn=hear, text=True,
                    )  # fmt: skip
                    self.addCleanup(child.kill)
                    wait_until_heard(child)
                    time.sleep(seconds)
                    child.send_signal(signal.SIGINT)
                    _, said = child.communicate(timeout=SECONDS)
                    self.assertIn((child.returncode, said), ((130, f"{name_of(way)}: broken off\n"), (0, "")))


# A command of one function, which is given as text, and a module for it to import.
COMMAND = """
import os, signal, sys, threading, types, weakref
from concurrent.futures import ThreadPoolExecutor
import numpy
from cdma_tools import commands, starting
def interrupt():
    os.kill(os.getpid(), signal.SIGINT)
def show(text):
    os.write(1, text.encode())
def wait():
    while True:
        signal.pause()
{function}
sys.path.append("{folder}")
sys.modules["cdma_tools.commands.fake"] = types.SimpleNamespace(main=main)
sys.exit(starting.start("fake"))
"""
LATE = "import __main__\n__main__.interrupt()\n__main__.show('loaded')\n"


class UnfitPlaces(unittest.TestCase):
    """An interrupt in places in which an exception would be lost, or leave something half done: it waits."""

    seconds = 8

    def ended(self, *function: str) -> tuple[int, str, str]:
        """Returns the status, the output and the standard error of a command with this `main`."""
        folder = temporary_folder(self.addCleanup)
        with open(os.path.join(folder, "late.py"), "w", encoding="utf-8") as file:
            file.write(LATE)
        text = COMMAND.format(function="\n".join(function), folder=folder)
        words = [PYTHON, "-B", "-c", text]
        ran = subprocess.run(words, capture_output=True, text=True, cwd=ROOT, preexec_fn=hear, timeout=SECONDS)
        return ran.returncode, ran.stdout, ran.stderr

    def broken_off(self, wrote: str, *function: str) -> None:
        """Checks that a command with this `main` is broken off after some output."""
        self.assertEqual(self.ended(*function), (130, wrote, "fake: broken off\n"))

    def test_a_late_import(self) -> None:
        self.broken_off("loaded", "def main(_):", "    import late", "    wait()")

    def test_the_end_of_an_object(self) -> None:
        self.broken_off(
            "removed", "class Kept:", "    def __del__(self):", "        interrupt()", "        show('removed')",
            "def main(_):", "    Kept()", "    wait()",
        )  # fmt: skip

    def test_a_weak_reference(self) -> None:
        """What Python drops there comes again."""
        self.broken_off(
            "", "class Kept:", "    pass", "def main(_):", "    it = Kept()",
            "    kept = weakref.ref(it, lambda _: [interrupt(), len('')])", "    del it", "    wait()",
        )  # fmt: skip

    def test_an_object_that_is_half_made(self) -> None:
        """Its end fails, since it isn't whole, and that isn't reported."""
        self.broken_off(
            "", "class Kept:", "    def __init__(self):", "        interrupt()", "        self.part = 1",
            "    def __del__(self):", "        self.part", "def main(_):", "    Kept()", "    wait()",
        )  # fmt: skip

    def test_another_dropped_exception(self) -> None:
        function = ("class Kept:", "    def __del__(self):", "        1 / 0", "def main(_):", "    Kept()", "    return 0")
        status, _, said = self.ended(*function)
        self.assertEqual((status, said.splitlines()[-1]), (0, "ZeroDivisionError: division by zero"))

    def test_a_check_that_a_package_in_c_makes(self) -> None:
        """numpy.fromfile makes a TypeError of an exception in such a check."""
        self.broken_off(
            "8 numbers", "class Checked(type(os.PathLike)):", "    def __instancecheck__(self, _):",
            "        interrupt()", "        return False", "os.PathLike.__class__ = Checked", "def main(_):",
            "    with open('/dev/zero', 'rb', buffering=0) as file:", "        found = numpy.fromfile(file, 'u1', 8)",
            "    show(f'{len(found)} numbers')", "    wait()",
        )  # fmt: skip

    def test_an_exception_that_replaces_it(self) -> None:
        self.broken_off(
            "", "def main(_):", "    try:", "        interrupt()", "    except KeyboardInterrupt:", "        raise TypeError"
        )

    def test_a_pool_that_begins(self) -> None:
        """The pool knows its thread, so the process ends."""
        self.broken_off(
            "done", "class Thread(threading.Thread):", "    def start(self):", "        super().start()",
            "        interrupt()", "def main(_):", "    threading.Thread = Thread",
            "    ThreadPoolExecutor(1).submit(show, 'done').result()", "    wait()",
        )  # fmt: skip

    def test_the_ends_of_a_with_statement(self) -> None:
        for end in ("__enter__", "__exit__"):
            with self.subTest(end):
                self.broken_off(
                    "left", "class Kept:", "    def __enter__(self):", "        pass", "    def __exit__(self, *_):",
                    "        show('left')", "class Interrupted(Kept):", f"    def {end}(self, *given):",
                    "        os.kill(os.getpid(), signal.SIGINT)", f"        return super().{end}(*given)",
                    "def main(_):", "    with Interrupted():", "        pass", "    wait()",
                )  # fmt: skip

    def test_held_interrupts(self) -> None:
        """One that comes again is held back as the first time."""
        self.broken_off(
            "whole", "import time", "from cdma_tools.interrupts import noted_interrupts", "def main(_):",
            "    with noted_interrupts(signal.SIGINT):", "        starting.send_again(signal.SIGINT)",
            "        time.sleep(0.2)", "        show('whole')", "    wait()",
        )  # fmt: skip

    def test_a_temporary_folder(self) -> None:
        """It is made, and removed at the end."""
        self.broken_off(
            "", "import tempfile", "def mkdir(*given, made=os.mkdir):", "    made(*given)", "    interrupt()",
            "def main(_):", "    tempfile.tempdir = sys.path[-1]", "    os.mkdir = mkdir",
            "    with tempfile.TemporaryDirectory():", "        wait()",
        )  # fmt: skip


class ClosedPipes(unittest.TestCase):
    """Help output whose reader takes one line, or none."""

    def test_head(self) -> None:
        for way in ("tools/report", "tools/curve", "conformance/run"):
            with self.subTest(way):
                line = f"'{ROOT}/{way}' --help | head -1"
                ran = subprocess.run(["sh", "-c", line], capture_output=True, text=True, timeout=SECONDS)
                self.assertRegex(ran.stdout, r"\Ausage: .*\n\Z")
                self.assertEqual(ran.stderr, "")

    def test_a_reader_that_has_gone(self) -> None:
        for way in ("tools/report", "tools/draw", "conformance/run"):
            with self.subTest(way):
                reader, writer = os.pipe()
                os.close(reader)
                words = [os.path.join(ROOT, way), "--help"]
                ran = subprocess.run(words, stdout=writer, stderr=subprocess.PIPE, timeout=SECONDS)
                os.close(writer)
                self.assertEqual((ran.returncode, ran.stderr), (1, b""))


def wait_until_heard(child: subprocess.Popen[str]) -> None:
    """Waits until a tool receives interrupts: Python by itself does not catch SIGTERM."""
    until = time.monotonic() + SECONDS
    while child.poll() is None and time.monotonic() < until:
        with open(f"/proc/{child.pid}/status", encoding="ascii") as file:
            caught = int(re.findall(r"SigCgt:\s*(\w+)", file.read())[0], 16)
        if caught >> (signal.SIGTERM - 1) & 1:
            return
        time.sleep(0.001)


def hear() -> None:
    """Makes a process receive interrupts, even if the tests run under a shell that ignores them."""
    signal.signal(signal.SIGINT, signal.SIG_DFL)


if __name__ == "__main__":
    unittest.main()
