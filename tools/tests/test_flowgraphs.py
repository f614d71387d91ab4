"""The flowgraphs of examples/gnuradio: the air that they play has the lines of the chips, from files and at a port."""

import ast
import importlib.util
import os
import re
import shutil
import socket
import subprocess
import time
import unittest
from collections.abc import Sequence

from tools.tests.helping import EXAMPLES, NO_PROGRAM, PROGRAM, PYTHON, ROOT, made_once, needs, temporary_folder

needs("numpy", "scipy", "zmq")

from cdma_tools.radio.air import CHIP_RATE, HALF_PULSE  # noqa: E402

FOLDER = os.path.join(EXAMPLES, "gnuradio")
FLOWGRAPHS = ("cell_on_air", "air_to_listener")
HAS_GNURADIO = importlib.util.find_spec("gnuradio") is not None
NO_GNURADIO = "no gnuradio: install the package gnuradio"
# Chips of the cell, and those up to which lines are compared: the end of the stream cuts the last two frames.
CHIPS, RATE = 1_474_560, 2 * CHIP_RATE
END = CHIPS - 2 * 24_576
HANDSET = ["--esn", "00c0ffee", "--row", "12", "--offset", "2"]
AIR = ["--noise", "100", "--carrier", "1500", "--clock", "3", "--speed", "1000"]
# Seconds that a process may take on a busy machine, and those after which both ends know of a subscription.
SECONDS, SETTLING = 300, 2.0
ESTABLISHED, LISTENING = "01", "0A"  # states in /proc/net/tcp


def flowgraph(place: str, *words: str) -> list[str]:
    """The command line of a flowgraph."""
    return [PYTHON, "-B", place, *words]


def listening(*words: str) -> list[str]:
    """The command line of a listening."""
    return [PYTHON, "-B", f"{ROOT}/tools/listen", "--program", str(PROGRAM), "--rate", str(RATE), *HANDSET, *words]


def make_chips(place: str) -> None:
    """Writes the sample file of a cell with a traffic channel."""
    with open(os.path.join(EXAMPLES, "call.script"), "rb") as file:
        script = file.read().replace(b"samples=3686400", b"samples=%d" % CHIPS)
    with open(place, "wb") as chips:
        subprocess.run([str(PROGRAM), "make"], input=script, stdout=chips, check=True, timeout=SECONDS)


def make_air(place: str) -> None:
    """Writes what the first flowgraph makes of the cell."""
    words = ["--chips", made_once("flowgraph.is95", make_chips), "--recording", place, *AIR]
    subprocess.run(flowgraph(f"{FOLDER}/cell_on_air.py", *words), check=True, capture_output=True, timeout=SECONDS)


def events(wrote: bytes) -> list[tuple[int, str]]:
    """The messages and frames of a text, each with its chip."""
    found = [line.split(" ", 2) for line in wrote.decode().splitlines()]
    return [
        (int(at.removeprefix("at=")), f"{kind} {rest}")
        for kind, at, rest in (row for row in found if len(row) == 3)
        if kind in ("sync", "paging", "frame", "traffic")
    ]


def is_in(port: int, state: str) -> bool:
    """Whether a port of this machine is in a state: someone listens there, or is connected to it."""
    with open("/proc/net/tcp", encoding="ascii") as file:
        rows = [line.split() for line in file][1:]
    return any(row[1].endswith(f":{port:04X}") and row[3] == state for row in rows)


def free_port() -> int:
    """Returns a port that no one has."""
    with socket.create_server(("127.0.0.1", 0)) as server:
        return int(server.getsockname()[1])


@unittest.skipUnless(HAS_GNURADIO, NO_GNURADIO)
class Compiled(unittest.TestCase):
    """The files of GNU Radio Companion."""

    seconds = 10

    @unittest.skipUnless(shutil.which("grcc"), "no grcc: install the package gnuradio")
    def test_the_python_is_what_grcc_makes(self) -> None:
        folder = temporary_folder(self.addCleanup)
        compile_all(folder, *(f"{FOLDER}/{name}.grc" for name in FLOWGRAPHS))
        for name in FLOWGRAPHS:
            made, kept = (unversioned(f"{place}/{name}.py") for place in (folder, FOLDER))
            self.assertEqual(made, kept, name)

    @unittest.skipUnless(shutil.which("grcc"), "no grcc: install the package gnuradio")
    def test_a_radio_and_datagrams(self) -> None:
        """The blocks that no other test enables become calls of GNU Radio with the parameters' values."""
        folder = temporary_folder(self.addCleanup)
        place = switched(folder, ["radio_source", "udp_sink"], ["recording_source", "pace", "zmq_sink"])
        with open(place, encoding="utf-8") as file:
            module = ast.parse(file.read())
        calls = {ast.unparse(node.func): node for node in ast.walk(module) if isinstance(node, ast.Call)}
        sent = ast.unparse(calls["network.udp_sink"])
        self.assertEqual(sent, "network.udp_sink(gr.sizeof_gr_complex, 1, '127.0.0.1', port, 0, 1472, True)")
        self.assertEqual(ast.unparse(calls["soapy.source"].args[0]), "dev")
        self.assertIn("dev = 'driver=' + driver", ast.unparse(module))

    def test_the_pulse_is_the_standard_one(self) -> None:
        """Every second of the 48 taps of 7.1.3.1.10, for two samples per chip."""
        program = "import sys, cell_on_air as on; made = on.cell_on_air(sys.argv[1]); print(*made.pulse, made.rate)"
        words = [PYTHON, "-B", "-c", program, os.path.join(EXAMPLES, "pilot_in_noise.is95")]
        ran = subprocess.run(words, capture_output=True, text=True, check=True, timeout=SECONDS, cwd=FOLDER)
        *taps, rate = map(float, ran.stdout.split())
        self.assertEqual((taps, rate), ([*HALF_PULSE[::2], *HALF_PULSE[-1::-2]], RATE))


def compile_all(folder: str, *files: str) -> None:
    """Compiles files of GNU Radio Companion into a folder."""
    words = ["grcc", "-o", folder, *files]
    subprocess.run(words, check=True, capture_output=True, timeout=SECONDS, env={**os.environ, "HOME": folder})


def switched(folder: str, on: Sequence[str], off: Sequence[str]) -> str:
    """Enables and disables blocks of the second flowgraph, and compiles it; returns the place of the Python."""
    with open(f"{FOLDER}/air_to_listener.grc", encoding="utf-8") as file:
        blocks = re.split(r"^(?=- name: )", file.read(), flags=re.MULTILINE)
    for names, before, after in ((on, "disabled", "enabled"), (off, "enabled", "disabled")):
        for name in names:
            (number,) = (number for number, block in enumerate(blocks) if block.startswith(f"- name: {name}\n"))
            changed = blocks[number].replace(f"state: {before}", f"state: {after}")
            assert changed != blocks[number], name
            blocks[number] = changed
    place = os.path.join(folder, "air_to_listener.grc")
    with open(place, "w", encoding="utf-8") as file:
        file.write("".join(blocks))
    compile_all(folder, place)
    return os.path.join(folder, "air_to_listener.py")


def unversioned(place: str) -> list[str]:
    """The lines of compiled Python, without GNU Radio's version."""
    with open(place, encoding="utf-8") as file:
        return [line for line in file if not line.startswith("# GNU Radio version")]


@unittest.skipUnless(HAS_GNURADIO, NO_GNURADIO)
@unittest.skipUnless(PROGRAM, NO_PROGRAM)
class Played(unittest.TestCase):
    """What a listener writes of the air is what `follow` writes of the chips, some chips later."""

    seconds = 30

    def setUp(self) -> None:
        self.folder = temporary_folder(self.addCleanup)
        with open(made_once("flowgraph.is95", make_chips), "rb") as chips:
            words = [str(PROGRAM), "follow", *HANDSET]
            sent = subprocess.run(words, stdin=chips, capture_output=True, check=True, timeout=SECONDS)
        self.sent = events(sent.stdout)
        self.air = made_once("flowgraph.cf32", make_air)

    def check_lines(self, wrote: bytes) -> int:
        """The lines are those of the chips, later by one number of chips, which is returned."""
        heard = events(wrote)
        shift = heard[0][0] - self.sent[0][0]
        told = [(at - shift, text) for at, text in heard if at - shift <= END]
        self.assertEqual(told, [(at, text) for at, text in self.sent if at <= END])
        self.assertEqual({text.split()[0] for _, text in told}, {"sync", "paging", "frame", "traffic"})
        return shift

    def test_a_file(self) -> None:
        """Cell on air: the pulse's middle comes 23.5 of its taps, 5.9 chips, after its first tap."""
        ran = subprocess.run(listening("--type", "cf32", self.air), capture_output=True, timeout=SECONDS)
        self.assertEqual((ran.returncode, ran.stderr), (0, b""))
        self.assertIn(self.check_lines(ran.stdout), (5, 6))

    def play(self, place: str, port: int, source: list[str], *words: str) -> tuple[int, bytes, str]:
        """Plays the air in real time by a flowgraph to a listening at a port; returns its status and its two outputs."""
        pipe = os.path.join(self.folder, "air")
        os.mkfifo(pipe)
        command = flowgraph(place, "--recording", pipe, *words)
        player = subprocess.Popen(command, stdin=subprocess.PIPE, stdout=subprocess.DEVNULL, stderr=subprocess.PIPE)
        self.addCleanup(player.communicate)
        self.addCleanup(player.kill)
        # Opened for both, so that it doesn't wait for a player that failed.
        with os.fdopen(os.open(pipe, os.O_RDWR), "wb", buffering=0) as samples, open(self.air, "rb") as air:
            self.wait_for(player, port, LISTENING)
            listener = subprocess.Popen(listening(*source), stdout=subprocess.PIPE, stderr=subprocess.PIPE)
            self.addCleanup(listener.communicate)
            self.addCleanup(listener.kill)
            self.wait_for(listener, port, ESTABLISHED)
            time.sleep(SETTLING)
            shutil.copyfileobj(air, samples)
        wrote, said = listener.communicate(timeout=SECONDS)
        player.communicate(b"\n", timeout=SECONDS)
        self.assertEqual(player.returncode, 0)
        return listener.returncode, wrote, said.decode()

    def wait_for(self, process: subprocess.Popen[bytes], port: int, state: str) -> None:
        """Waits until a port is in a state, which a process brings about."""
        until = time.monotonic() + SECONDS
        while not is_in(port, state):
            self.assertIsNone(process.poll())
            self.assertLess(time.monotonic(), until)
            time.sleep(0.05)

    def test_a_zmq_socket(self) -> None:
        """Air to listener, as it is: the end of a publisher is a silence of ten seconds."""
        port = free_port()
        place, source = f"{FOLDER}/air_to_listener.py", f"zmq://127.0.0.1:{port}"
        status, wrote, said = self.play(place, port, [source], "--address", f"tcp://127.0.0.1:{port}")
        self.assertEqual((status, said), (1, f"listen: {source}: no samples for 10 s\n"))
        self.check_lines(wrote)


if __name__ == "__main__":
    unittest.main()
