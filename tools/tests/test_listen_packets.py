"""tools/listen --pcapng: packets as they arrive, which tshark reads from a pipe, with the times of the cell's script.
"""

import contextlib
import os
import re
import shutil
import subprocess
import tempfile
import time
import unittest
import unittest.mock
from collections import Counter
from collections.abc import Iterator
from fractions import Fraction

from tools.tests.helping import NO_PROGRAM, PROGRAM, PYTHON, ROOT, made_once, needs, run_inside, temporary_folder

needs("numpy", "scipy")

from cdma_tools.errors import Refused  # noqa: E402
from cdma_tools.listening.events import Event  # noqa: E402
from cdma_tools.listening.line_writer import Already, LineWriter  # noqa: E402
from cdma_tools.wireshark.capture import Capture  # noqa: E402
from cdma_tools.wireshark.pcapng import section_header  # noqa: E402
from cdma_tools.wireshark.stream import PacketStream  # noqa: E402
from tools.tests.listening_cell import HANDSET, made_cell, script_of, write_cell  # noqa: E402
from tools.tests.test_packets import DISSECTOR, PACKETS, packets_of  # noqa: E402

SECONDS, RATE = 4, 1_500_000
STREAM = ["--type", "cu8", "--rate", str(RATE)]
FIELDS = ("frame.time_epoch", "is95.time_known", "is95.chip", "is95.row", "_ws.lua.error", "is95.malformed")
ROWS = {"sync": "32", "paging": "1", "frame": "10", "traffic": "10"}
SYNC = "sync at=294848 prev=3 min=1 sid=1 nid=2 pn=511 lc=102a1d2e508 time=1007 lp=13 ltm=0 daylt=0 prat=0 rest=3:00"
FRAME = "frame at=%d rate=1200 good=1 bits=16:df67 commands=0000110001101101"


def make_recording(place: str) -> None:
    """Writes a recording of the cell."""
    with tempfile.TemporaryDirectory() as folder:
        cell = write_cell(os.path.join(folder, "cell.is95"), made_cell(PROGRAM or "", SECONDS, 0))
        path = os.path.join(folder, "radio.cu8")
        subprocess.run([PYTHON, "-B", f"{ROOT}/tools/channel", *STREAM, cell, path], check=True, capture_output=True)
        os.replace(path, place)


@unittest.skipUnless(PROGRAM, NO_PROGRAM)
@unittest.skipUnless(shutil.which("tshark"), "no tshark: install the package tshark")
class Listened(unittest.TestCase):
    """A recording of some seconds."""

    seconds = 20

    def setUp(self) -> None:
        self.recording = made_once(f"packets_{SECONDS}.cu8", make_recording)
        self.folder = temporary_folder(self.addCleanup)

    def shown(self, source: str) -> list[list[str]]:
        """Returns what tshark shows of the packets that a shell command writes."""
        options = " ".join(f"-e {name}" for name in FIELDS)
        line = f"{source} | tshark -n -X lua_script:{DISSECTOR} -r - -T fields {options}"
        environment = {**os.environ, "HOME": self.folder, "XDG_CONFIG_HOME": self.folder}
        ran = subprocess.run(["bash", "-c", line], capture_output=True, text=True, timeout=600, env=environment)
        said = [text for text in ran.stderr.splitlines() if not text.startswith("Running as user")]
        self.assertEqual((ran.returncode, said), (0, []))
        return [row.split("\t") for row in ran.stdout.splitlines()]

    def test_a_pipe_to_tshark(self) -> None:
        """Each line with a packet has one, at the script's time."""
        out, file = os.path.join(self.folder, "lines.txt"), os.path.join(self.folder, "packets.pcapng")
        words = " ".join([*STREAM, self.recording, *HANDSET, "--out", out])
        rows = self.shown(f"{PYTHON} -B {ROOT}/tools/listen {words} --pcapng -")
        with open(out, encoding="ascii") as text:
            lines = [line for line in text if line.split()[0] in PACKETS]
        self.assertGreater(len(lines), 50)
        self.assertEqual(len(rows), len(lines))
        time = re.search(r" time=(\d+)", script_of(1, 0, 0, 1))
        assert time
        # The system time begins 3,657 days after 1970, and 13 leap seconds have passed.
        begin = Fraction(98_304 * int(time[1]), 1_228_800) + 3_657 * 86_400 - 13
        for line, (seconds, is_timed, chip, row, *faults) in zip(lines, rows):
            at = re.search(r" at=(\d+)", line)
            assert at
            self.assertEqual((is_timed, chip, row, faults), ("1", at[1], ROWS[line.split()[0]], ["", ""]), line)
            self.assertAlmostEqual(
                Fraction(seconds), begin + Fraction(int(at[1]), 1_228_800), delta=Fraction(1, 10**5)
            )
        status, wrote, said = run_inside("listen", *words.split()[:-2], "--pcapng", file)
        self.assertEqual((status, said), (0, ""))
        self.assertEqual(len(wrote.splitlines()), len(lines) + wrote.count(b"pilot ") + wrote.count(b"sets "))
        self.assertEqual(self.shown(f"cat {file}"), rows)

    def test_a_reader_that_has_gone(self) -> None:
        """It ends the listening quietly, with the status of a closed pipe, whether lines have a file or not."""
        for more in (list[str](), ["--out", os.path.join(self.folder, "lines.txt")]):
            reader, writer = os.pipe()
            os.close(reader)
            words = [f"{ROOT}/tools/listen", *STREAM, self.recording, *HANDSET, *more, "--pcapng", "-"]
            ran = subprocess.run([PYTHON, "-B", *words], stdout=writer, stderr=subprocess.PIPE, timeout=600)
            os.close(writer)
            self.assertEqual((ran.returncode, ran.stderr), (1, b""), more)

    def test_a_listening_that_is_killed(self) -> None:
        """The file has whole packets; another listening continues it, and then it is as if none was killed."""
        out, file = os.path.join(self.folder, "lines.txt"), os.path.join(self.folder, "packets.pcapng")
        words = [*STREAM, self.recording, *HANDSET, "--out", out, "--pcapng", file]
        run = subprocess.Popen([PYTHON, "-B", f"{ROOT}/tools/listen", *words], stderr=subprocess.DEVNULL)
        try:
            while run.poll() is None and not (os.path.exists(file) and os.path.getsize(file) > 1_000):
                time.sleep(0.001)
        finally:
            run.kill()
            run.wait()
        before = self.shown(f"cat {file}")
        self.assertGreater(len(before), 0)
        status, _, said = run_inside("listen", *words)
        self.assertEqual((status, said), (0, ""))
        with open(out, encoding="ascii") as text:
            lines = [line for line in text if line.split()[0] in PACKETS]
        rows = self.shown(f"cat {file}")
        self.assertEqual(rows[: len(before)], before)
        ats = [re.findall(r" at=(\d+)", line)[0] for line in lines]
        # A line is written before its packet, so the last one before the kill may lack it.
        self.assertIn([row[2] for row in rows], (ats, ats[: len(before)] + ats[len(before) + 1 :]))


class Files(unittest.TestCase):
    """Where packets go."""

    seconds = 2

    def setUp(self) -> None:
        self.path = os.path.join(temporary_folder(self.addCleanup), "packets.pcapng")

    def written(self, *events: Event) -> Iterator[bytes]:
        """Returns the file after each event."""
        capture = Capture(self.path)
        self.addCleanup(capture.close)
        writer = LineWriter(lambda data: None, False, {})
        writer.packets = PacketStream(capture.write, 1, 10)
        writer.begin(64)
        for event in events:
            writer.event(event)
            with open(self.path, "rb") as file:
                yield file.read()

    def test_each_packet_is_there_at_once(self) -> None:
        """After each line the file has complete blocks, with the place counted from the recording's start."""
        events = [Event(294_912, SYNC), Event(300_000, FRAME % 300_000)]
        counts = [len(packets_of(data)) for data in self.written(*events)]
        self.assertEqual(counts, [1, 2])
        with open(self.path, "rb") as file:
            chips = [int.from_bytes(packet[12:20], "big") for packet in packets_of(file.read())]
        self.assertEqual(chips, [294_848, 299_936])

    def capture_of(self, *events: Event, is_continued: bool = True) -> None:
        """Writes the packets of some lines, after those that are there."""
        with contextlib.closing(Capture(self.path, is_continued)) as capture:
            writer = LineWriter(lambda data: None, False, {})
            writer.packets = PacketStream(capture.write, 1, 10)
            for event in events:
                writer.event(event)

    def test_a_file_that_is_continued(self) -> None:
        """Wherever it was cut off, its whole packets stay, and a section with the others follows."""
        events = [Event(294_912, SYNC), Event(300_000, FRAME % 300_000), Event(324_576, FRAME % 324_576)]
        self.capture_of(*events)
        with open(self.path, "rb") as file:
            whole = file.read()
        packets = packets_of(whole)
        self.assertEqual(len(packets), 3)
        for lost in (0, 1, 5, 60, 100, 150):
            with open(self.path, "wb") as out:
                out.write(whole[: len(whole) - lost])
            self.capture_of(events[0], events[2])
            with open(self.path, "rb") as file:
                kept = packets_of(file.read())
            self.assertEqual(kept[-2:], [packets[0], packets[2]])
            self.assertEqual(kept[:-2], packets[: len(kept) - 2])
            self.assertIn(len(kept), (3, 4) if lost else (5,), lost)
        self.capture_of(*events[:2], is_continued=False)
        with open(self.path, "rb") as file:
            self.assertEqual(packets_of(file.read()), packets[:2])

    def test_a_cell_that_lines_have_named(self) -> None:
        """A packet after lines that are there already has the cell of their sync message."""
        already = Already(counts=Counter(messages=1), at=294_912, same=Counter(messages=1))
        with contextlib.closing(Capture(self.path)) as capture:
            writer = LineWriter(lambda data: None, False, {}, already)
            writer.packets = PacketStream(capture.write, 1, 10)
            for event in (Event(294_912, SYNC), Event(300_000, FRAME % 300_000)):
                writer.event(event)
        with open(self.path, "rb") as file:
            written = file.read()
        self.assertEqual(len(packets_of(written)), 1)
        self.assertIn(b"SID 1 NID 2 PN 511 traffic", written)

    def test_files_that_are_not_continued(self) -> None:
        """What other programs wrote stays as it was."""
        with open(self.path, "wb") as file:
            file.write(section_header("another program"))
        self.capture_of(Event(294_912, SYNC), is_continued=False)
        with open(self.path, "rb") as file:
            own = file.read()
        damaged = own[:-1] + bytes([own[-1] ^ 1])
        for data in (section_header("another program"), b"notes", bytes(100), own[:12], own + b"\xff" * 12, damaged):
            with open(self.path, "wb") as file:
                file.write(data)
            with self.assertRaisesRegex(Refused, "it has other packets than those of listen"):
                Capture(self.path, is_continued=True)
            with open(self.path, "rb") as file:
                self.assertEqual(file.read(), data)

    @unittest.skipUnless(shutil.which("tshark"), "no tshark: install the package tshark")
    def test_tshark_reads_what_was_cut_off(self) -> None:
        """A file that is cut in a packet is shown up to it, and one that is continued is whole again."""
        events = [Event(294_912, SYNC), Event(300_000, FRAME % 300_000)]
        self.capture_of(*events)
        os.truncate(self.path, os.path.getsize(self.path) - 9)
        status, count, said = self.shown()
        self.assertEqual((status, count), (2, 1))
        self.assertIn("cut short", said)
        self.capture_of(events[1])
        self.assertEqual(self.shown(), (0, 2, ""))

    @unittest.skipUnless(shutil.which("dumpcap"), "no dumpcap: install the package wireshark-common")
    def test_a_live_capture(self) -> None:
        """dumpcap, by which `wireshark -k -i -` takes a pipe, takes only the order of bytes of its machine."""
        self.capture_of(Event(294_912, SYNC), Event(300_000, FRAME % 300_000))
        status, count, said = self.shown("-i", "-")
        self.assertEqual((status, count), (0, 2), said)
        self.assertIn("2 packets captured", said)

    def shown(self, *source: str) -> tuple[int, int, str]:
        """Returns the status of tshark for the file, the number of packets that it shows, and what it says."""
        folder = os.path.dirname(self.path)
        words = ["tshark", "-n", "-X", f"lua_script:{DISSECTOR}", *(source or ("-r", self.path))]
        environment = {**os.environ, "HOME": folder, "XDG_CONFIG_HOME": folder}
        with open(self.path, "rb") as file:
            data = file.read()
        ran = subprocess.run(words, input=data, capture_output=True, timeout=600, env=environment)
        said = [line for line in ran.stderr.decode().splitlines() if not line.startswith("Running as user")]
        return ran.returncode, len(ran.stdout.splitlines()), "".join(said)

    def test_a_full_disk_keeps_whole_blocks(self) -> None:
        capture = Capture(self.path)
        self.addCleanup(capture.close)
        capture.write(b"block")
        real = os.write

        def short(file: int, data: bytes) -> int:
            """Writes a part, then nothing more."""
            if data == b"another":
                return real(file, data[:3])
            raise OSError(28, "No space left on device")

        with unittest.mock.patch("os.write", short), self.assertRaises(OSError) as caught:
            capture.write(b"another")
        self.assertEqual(caught.exception.filename, self.path)
        with open(self.path, "rb") as file:
            self.assertEqual(file.read(), b"block")

    def test_refusals(self) -> None:
        words = ["--type", "cu8", "--rate", "1500000", "--program", "/bin/true", "/dev/null"]
        status, wrote, said = run_inside("listen", *words, "--json", "--pcapng", "-")
        self.assertEqual((status, wrote, said.count("\n")), (2, b"", 1))
        self.assertIn("--json needs --out", said)
        status, wrote, said = run_inside("listen", *words, "--pcapng", os.path.join(self.path, "none"))
        self.assertEqual((status, wrote, said.count("\n")), (1, b"", 1))
        self.assertIn("none: No such file", said)


if __name__ == "__main__":
    unittest.main()
