"""tools/adapt and the worked adapters of examples/: receivers with files, at a TCP port, with lines of JSON."""

from __future__ import annotations

import json
import os
import signal
import socket
import subprocess
import threading
import unittest

from cdma_tools.adapting import places
from cdma_tools.errors import WrongArguments
from tools.tests.helping import EXAMPLES, NO_PROGRAM, PROGRAM, PYTHON, ROOT, TOOLS, needs, run_program, temporary_folder

needs("numpy")

ADAPT = os.path.join(TOOLS, "adapt")
SECONDS = 120
LINE = "pilot phase=7 energy=100"
HAS_RADIO = not subprocess.run([PYTHON, "-c", "from gnuradio import channels"], capture_output=True).returncode


def adapted(*words: str, data: bytes = b"samples") -> tuple[int, bytes, str]:
    """Runs tools/adapt; returns its status, its output and its standard error."""
    ran = subprocess.run([PYTHON, "-B", ADAPT, *words], input=data, capture_output=True, timeout=SECONDS)
    return ran.returncode, ran.stdout, ran.stderr.decode()


class Places(unittest.TestCase):
    """The values of the places of a command line."""

    def filled(self, line: str, *arguments: str) -> list[str]:
        """Returns a command line whose places are filled."""
        return places.filled(places.pieces_of(line), arguments, {"input": "/in", "output": "/out"})

    def test_what_fills_them(self) -> None:
        self.assertEqual(
            self.filled("rx '--in={input} it' {output} {command} -w{row}/{offset=0}", "follow", "--row", "10", "--k=2"),
            ["rx", "--in=/in it", "/out", "follow", "-w10/0"],
        )
        self.assertEqual(self.filled("rx {arguments} end", "find", "", "a b"), ["rx", "find", "", "a b", "end"])
        self.assertEqual(self.filled("rx {span=} {row}", "find", "--row={input}"), ["rx", "", "{input}"])

    def test_what_is_refused(self) -> None:
        for line, why in (
            ("rx {row", "a place that isn't {NAME} or {NAME=DEFAULT}: '{row'"),
            ("rx {Row}", "a place that isn't"),
            ("rx 'a", "No closing quotation"),
            ("", "names no program"),
            ("rx -a{arguments}", "must be an argument of its own"),
            ("rx {row}", "has no --row"),
        ):
            with self.subTest(line), self.assertRaisesRegex(WrongArguments, why):
                self.filled(line, "find")


class CommandLines(unittest.TestCase):
    """Receivers that are command lines of the shell."""

    def setUp(self) -> None:
        self.folder = temporary_folder(self.addCleanup)

    def shell(self, text: str) -> str:
        """Returns the path of a shell program."""
        path = os.path.join(self.folder, "receiver")
        with open(path, "w", encoding="ascii") as file:
            file.write(f"#!/bin/sh\n{text}\n")
        os.chmod(path, 0o700)
        return path

    def test_files(self) -> None:
        receiver = self.shell('cat "$1" > "$2"; echo " $3" >> "$2"; echo chatter; exit 1')
        status, wrote, said = adapted("--command", receiver + " {input} {output} {row=5}", "--", "follow", "--row", "9")
        self.assertEqual((status, wrote, said), (1, b"samples 9\n", "chatter\n"))

    def test_standard_streams(self) -> None:
        receiver = self.shell('cat; echo "$@" >&2')
        status, wrote, said = adapted("--command", receiver + " {arguments}", "--", "find", "--k=1")
        self.assertEqual((status, wrote, said), (0, b"samples", "find --k=1\n"))

    def test_lines_of_json(self) -> None:
        told = json.dumps({"line": "pilot", "phase": 7, "energy": 100})
        self.assertEqual(adapted("--json", "--command", self.shell(f"echo '{told}'")), (0, LINE.encode() + b"\n", ""))
        for text, why in (
            ("echo '{}'", "adapt: the receiver's line 1: "),
            (f"echo '{told}'; echo '{LINE}'", "adapt: the receiver's line 2: not JSON: "),
            (f"printf '%s' '{told}'", "adapt: the receiver's line 1: it has no line feed"),
            ("printf '\\377\\n'", "adapt: the receiver's line 1: it isn't ASCII text"),
        ):
            with self.subTest(text):
                status, _, said = adapted("--json", "--command", self.shell(text))
                self.assertEqual((status, said.count("\n")), (9, 1))
                self.assertTrue(said.startswith(why), said)

    def test_ends(self) -> None:
        self.assertEqual(adapted("--command", self.shell("kill -SEGV $$"))[0], 128 + signal.SIGSEGV)
        self.assertEqual(adapted("--command", "/none {input}")[::2], (9, "adapt: /none: No such file or directory\n"))
        with open("/dev/full", "wb") as full:
            ran = subprocess.run([ADAPT, "--command", "echo a"], stdout=full, stderr=subprocess.PIPE, timeout=SECONDS)
        self.assertEqual((ran.returncode, ran.stderr), (5, b"write fault\n"))
        here, there = socket.socketpair()
        here.send(b"x")
        there.close()  # which fails the next read of the other end
        with here:
            words = [ADAPT, "--command", "cat {input}"]
            ran = subprocess.run(words, stdin=here.fileno(), capture_output=True, timeout=SECONDS)
        self.assertEqual((ran.returncode, ran.stderr), (4, b"read fault\n"))
        for wrong in ((), ("--command", "a", "--connect", "b:1"), ("--connect", "b"), ("--connect", "b:65536")):
            self.assertEqual(adapted(*wrong)[0], 2)


class Ports(unittest.TestCase):
    """A receiver at a port, served by a thread of the test."""

    def served(self, answer: bytes, *words: str, data: bytes = b"samples") -> tuple[int, bytes, str]:
        """Runs against a receiver that sends this reply once it has all of the input; keeps what it received."""
        server = socket.create_server(("localhost", 0))
        self.addCleanup(server.close)

        def serve() -> None:
            """Serves one connection."""
            connection, _ = server.accept()
            with connection, connection.makefile("rb") as file:
                self.got = file.read()
                connection.sendall(answer)

        thread = threading.Thread(target=serve)
        thread.start()
        ran = adapted("--connect", f"localhost:{server.getsockname()[1]}", *words, data=data)
        thread.join(SECONDS)
        return ran

    def test_what_is_sent_and_answered(self) -> None:
        data = bytes(range(256)) * 4_000
        ran = self.served(LINE.encode() + b"\nstatus 1\n", "--", "find", "--span=64", "a b", data=data)
        self.assertEqual(ran, (1, LINE.encode() + b"\n", ""))
        self.assertEqual(self.got, b"find --span=64 'a b'\n" + data)
        self.assertEqual(self.served(b"a\nb"), (0, b"a\nb", ""))
        self.assertEqual(self.served(b"status 1 no sync message\n"), (1, b"", "no sync message\n"))
        self.assertEqual(self.served(b'{"status": 3}\n', "--json"), (3, b"", ""))
        told = b'{"status": 2, "error": "bad \\u0007 words"}\n'
        self.assertEqual(self.served(told, "--json"), (2, b"", "bad \\x07 words\n"))

    def test_what_is_no_answer(self) -> None:
        for answer, why, words in (
            (b"status 1\nmore\n", "line 2: it comes after the status", ()),
            (b"status x\n", "line 1: not a status from 0 to 255: 'x'", ()),
            (b"status 256\n", "line 1: not a status from 0 to 255: '256'", ()),
            (b"status\n", "line 1: not a status from 0 to 255: ''", ()),
            (b"status 1\n", "line 1: not JSON", ("--json",)),
            (b'{"status": 1, "line": "pilot"}\n', "line 1: an object with status may only have error", ("--json",)),
        ):
            with self.subTest(answer):
                status, _, said = self.served(answer, *words)
                self.assertEqual((status, said.count("\n")), (9, 1))
                self.assertIn(f"adapt: the receiver's {why}", said)

    def test_no_receiver(self) -> None:
        with socket.create_server(("localhost", 0)) as server:
            port = server.getsockname()[1]
        said = f"adapt: localhost:{port}: Connection refused\n"
        self.assertEqual(adapted("--connect", f"localhost:{port}")[::2], (9, said))


class Worked(unittest.TestCase):
    """The adapters of examples/, run by conformance/run and by hand."""

    def receiver(self, line: str) -> str:
        """Returns a receiver for the bench: a script of this line."""
        path = os.path.join(temporary_folder(self.addCleanup), "receiver")
        with open(path, "w", encoding="ascii") as file:
            file.write(f"#!/bin/sh\nexec {line}\n")
        os.chmod(path, 0o700)
        return path

    def asked(self, receiver: str, *names: str) -> tuple[int, str]:
        """Returns the bench's verdict on a receiver over these cases, which are given by their bytes."""
        only = [word for name in names for word in ("--only", name)]
        ran = subprocess.run(
            [os.path.join(ROOT, "conformance", "run"), *only, receiver], capture_output=True, text=True, timeout=SECONDS
        )
        return ran.returncode, ran.stdout + ran.stderr

    def test_the_model_at_a_port(self) -> None:
        words = [PYTHON, "-B", os.path.join(EXAMPLES, "model_at_port.py"), "0"]
        server = subprocess.Popen(words, stdout=subprocess.PIPE, text=True)
        self.addCleanup(server.wait)
        self.addCleanup(server.kill)
        assert server.stdout is not None
        self.addCleanup(server.stdout.close)
        port = server.stdout.readline().rpartition(":")[2].strip()
        receiver = self.receiver(f'{ADAPT} --connect localhost:{port} --json -- "$@"')
        ran = subprocess.run([receiver, "find"], input=b"none", capture_output=True, timeout=SECONDS)
        self.assertEqual((ran.returncode, ran.stdout, ran.stderr), (3, b"", b"bad file: short at 4\n"))
        self.assertEqual(
            self.asked(receiver, "find_8_bits_zeros", "file_empty", "follow_zeros"), (0, "3 cases, 0 differ\n")
        )

    @unittest.skipUnless(HAS_RADIO, "no gnuradio: install the package gnuradio")
    @unittest.skipUnless(PROGRAM, NO_PROGRAM)
    def test_a_flowgraph(self) -> None:
        """Through GNU Radio's channel, with and without noise, every sync message that was sent is received."""
        with open(os.path.join(EXAMPLES, "second_of_sync.script"), "rb") as file:
            made = run_program("make", data=file.read().replace(b"samples=1228800", b"samples=700000"))[1]
        clean = self.messages(run_program("follow", data=made)[1])
        self.assertEqual(len(clean), 2)
        for noise, taps in (("0", "1"), ("100", "1,0,0.5j")):
            with self.subTest(noise):
                environment = {**os.environ, "RECEIVER": str(PROGRAM), "NOISE": noise, "TAPS": taps}
                words = [PYTHON, "-B", os.path.join(EXAMPLES, "through_gnuradio.py"), "follow"]
                ran = subprocess.run(words, input=made, capture_output=True, env=environment, timeout=SECONDS)
                self.assertEqual((ran.returncode, self.messages(ran.stdout)), (0, clean), ran.stderr)

    def messages(self, wrote: bytes) -> list[bytes]:
        """Returns the sync messages of a text, without their places."""
        return [line.split(b" ", 2)[2] for line in wrote.splitlines() if line.startswith(b"sync ")]


if __name__ == "__main__":
    unittest.main()
