"""Recordings by their names, and live sources: cdma_tools.sources."""

import importlib.util
import io
import json
import os
import socket
import struct
import sys
import tarfile
import threading
import types
import unittest
from collections.abc import Callable
from fractions import Fraction
from typing import Any
from unittest import mock

from tools.tests.helping import needs, temporary_folder

needs("numpy", "scipy")

import numpy  # noqa: E402
from numpy.typing import NDArray  # noqa: E402

from cdma_tools.arguments import hertz_of, rate_of  # noqa: E402
from cdma_tools.commands import domain, import_capture, listen, report, scan  # noqa: E402
from cdma_tools.errors import Refused  # noqa: E402
from cdma_tools.frequencies import channel_at, channel_hertz  # noqa: E402
from cdma_tools.listening.options import source_of as listening_source  # noqa: E402
from cdma_tools.listening.parts import Recording as HeardRecording  # noqa: E402
from cdma_tools.recordings import Recording, type_named  # noqa: E402
from cdma_tools.sources import live  # noqa: E402
from cdma_tools.sources import stored as sources  # noqa: E402
from cdma_tools.sources.backlog import Backlog, Told  # noqa: E402
from cdma_tools.sources.rtl_tcp import Server, Tuning  # noqa: E402
from cdma_tools.sources.stored import Stored as StoredSamples  # noqa: E402
from cdma_tools.sources.taking import TakenSource, take  # noqa: E402
from tools.tests.radio_helping import Recordings, run_main  # noqa: E402

RATE = 2_400_000
PARTS = numpy.random.default_rng(1).integers(-3_000, 3_000, 2_000)


def wave(fields: bytes, data: bytes, more: bytes = b"", size: int | None = None, head: bytes = b"RIFF") -> bytes:
    """Returns a WAV file of a 'fmt ' chunk, of more chunks and of samples."""
    body = b"fmt " + struct.pack("<I", len(fields)) + fields + more
    body += b"data" + struct.pack("<I", len(data) if size is None else size) + data
    return head + struct.pack("<I", 4 + len(body)) + b"WAVE" + body


def fields_of(form: int, bits: int, channels: int = 2) -> bytes:
    """Returns a 'fmt ' chunk of 16 bytes."""
    block = channels * bits // 8
    return struct.pack("<HHIIHH", form, channels, RATE, RATE * block, block, bits)


class Kept(unittest.TestCase):
    """A folder for files of samples."""

    def setUp(self) -> None:
        self.folder = temporary_folder(self.addCleanup)

    def kept(self, name: str, data: bytes) -> str:
        """Returns the path of a file with these bytes."""
        path = os.path.join(self.folder, name)
        with open(path, "wb") as file:
            file.write(data)
        return path

    def parts(self, stored: StoredSamples | TakenSource) -> NDArray[Any]:
        """Returns all I and Q values of a recording."""
        with Recording(stored.path, stored.kind, float(stored.rate)) as recording:
            return recording.read(0, recording.count).view(numpy.float32)

    def meta(self, captures: list[dict[str, Any]], **more: Any) -> dict[str, Any]:
        """Returns the object of a recording of 16 bits."""
        return {"global": {"core:datatype": "ci16_le", "core:sample_rate": RATE, **more}, "captures": captures}

    def archive(self, names: dict[str, bytes]) -> str:
        """Returns the path of an archive of these files."""
        path = os.path.join(self.folder, "x.sigmf")
        with tarfile.open(path, "w") as file:
            for name, data in names.items():
                told = tarfile.TarInfo(name)
                told.size = len(data)
                file.addfile(told, io.BytesIO(data))
        return path


class Stored(Kept):
    def test_names_of_types_and_numbers(self) -> None:
        named = {"ci16": "ci16_le", "cf32": "cf32_le", "cu8": "cu8", "cf64": "cf64_le", "ci16_be": "ci16_be", "x": "x"}
        self.assertEqual({name: type_named(name) for name in named}, named)
        self.assertEqual((rate_of("2.4M"), rate_of("2400k"), hertz_of("878.49M")), (RATE, RATE, 878_490_000))
        for wrong in ("M", "2.4m", "1e999M", ""):
            with self.assertRaises(Exception):
                rate_of(wrong)

    def test_further_types(self) -> None:
        for kind, form in (("cf32_be", ">f4"), ("ci32_le", "<i4"), ("cf64_le", "<f8")):
            path = self.kept(kind, PARTS.astype(form).tobytes())
            self.assertTrue(numpy.array_equal(self.parts(StoredSamples(kind, Fraction(RATE), path)), PARTS), kind)

    def test_wave_files(self) -> None:
        auxi = b"auxi" + struct.pack("<I", 64) + bytes(32) + struct.pack("<I", 878_490_000) + bytes(28)
        for form, bits, kind, stored in (
            (1, 16, "ci16_le", "<i2"), (1, 32, "ci32_le", "<i4"), (3, 32, "cf32_le", "<f4"), (3, 64, "cf64_le", "<f8")
        ):  # fmt: skip
            data = PARTS.astype(stored).tobytes()
            content = wave(fields_of(form, bits), data, auxi) + b"LIST\4\0\0\0abcd"
            found = sources.stored_of(self.kept("x.wav", content), None)
            self.assertEqual((found.kind, found.rate, found.frequency), (kind, RATE, 878_490_000))
            self.assertTrue(numpy.array_equal(self.parts(found), PARTS))
        data = PARTS.astype("<i2").tobytes()
        # A program that was broken off leaves a size of 0 or of all ones, or fewer bytes than it says.
        for size in (0, 0xFFFF_FFFF, len(data) + 9_999):
            found = sources.stored_of(self.kept("y.wav", wave(fields_of(1, 16), data + b"\1", size=size)), None)
            self.assertTrue(numpy.array_equal(self.parts(found), PARTS))
            self.assertIsNone(found.frequency)
        long = b"ds64" + struct.pack("<IQQQI", 28, 0, len(data), 0, 0)
        content = wave(fields_of(1, 16), data, long, 0xFFFF_FFFF, b"RF64") + b"tail"
        found = sources.stored_of(self.kept("z.wav", content), None)
        self.assertTrue(numpy.array_equal(self.parts(found), PARTS))

    def test_wave_files_that_are_refused(self) -> None:
        data = PARTS.astype("<i2").tobytes()
        for content, why in (
            (b"RIFF", "not a WAV file"),
            (wave(fields_of(1, 16, 1), data), "1 channels"),
            (wave(fields_of(1, 24), data), "format 1 of 24 bits"),
            (wave(b"", data), "'fmt ' chunk before"),
            (b"RIFF\4\0\0\0WAVE", "without samples"),
        ):
            with self.assertRaisesRegex(Refused, why):
                sources.stored_of(self.kept("x.wav", content), None)
        with self.assertRaisesRegex(Refused, "--rate can't be given"):
            sources.stored_of(self.kept("x.wav", wave(fields_of(1, 16), data)), Fraction(RATE))

    def test_archives(self) -> None:
        data = PARTS.astype("<i2").tobytes()
        text = json.dumps(self.meta([{"core:sample_start": 0, "core:frequency": 878_490_000}])).encode()
        found = sources.stored_of(self.archive({"a/x.sigmf-meta": text, "a/x.sigmf-data": data}), None)
        self.assertEqual((found.kind, found.rate, found.frequency), ("ci16_le", RATE, 878_490_000))
        self.assertTrue(numpy.array_equal(self.parts(found), PARTS))
        for names, why in (
            ({"x.sigmf-data": data}, "0 recordings in the archive"),
            ({"x.sigmf-meta": text}, "no x.sigmf-data in the archive"),
            ({"x.sigmf-meta": text, "y.sigmf-meta": text, "x.sigmf-data": data}, "2 recordings"),
            ({"x.sigmf-meta": b"{", "x.sigmf-data": data}, "not JSON"),
        ):
            with self.assertRaisesRegex(Refused, why):
                sources.stored_of(self.archive(names), None)
        with self.assertRaisesRegex(Refused, "not a SigMF archive"):
            sources.stored_of(self.kept("y.sigmf", b"x" * 2_000), None)

    def test_captures(self) -> None:
        data, path = PARTS.astype("<i2").tobytes(), os.path.join(self.folder, "x.sigmf-meta")
        self.kept("x.sigmf-data", b"HEAD" + data[:800] + b"HEADHEAD" + data[800:] + b"END")
        captures = [
            {"core:sample_start": 0, "core:frequency": 1e9, "core:header_bytes": 4},
            {"core:sample_start": 200, "core:frequency": 2e9, "core:header_bytes": 8},
        ]
        self.kept("x.sigmf-meta", json.dumps(self.meta(captures, **{"core:trailing_bytes": 3})).encode())
        for capture, wanted, frequency in ((1, PARTS[:400], 1e9), (2, PARTS[400:], 2e9)):
            found = sources.stored_of(path, None, capture)
            self.assertTrue(numpy.array_equal(self.parts(found), wanted))
            self.assertEqual(found.frequency, frequency)
        for number, why in ((None, "of several frequencies: give --capture N"), (3, "no capture 3: it has 2")):
            with self.assertRaisesRegex(Refused, why):
                sources.stored_of(path, None, number)
        # Captures of one frequency that follow each other are one recording.
        self.kept("x.sigmf-data", data)
        captures = [{"core:sample_start": 0}, {"core:sample_start": 200}]
        self.kept("x.sigmf-meta", json.dumps(self.meta(captures)).encode())
        self.assertTrue(numpy.array_equal(self.parts(sources.stored_of(path, None)), PARTS))
        self.assertTrue(numpy.array_equal(self.parts(sources.stored_of(path, None, 2)), PARTS[400:]))

    def test_channels(self) -> None:
        # 7.1.1.1: 870 + 0.03 N MHz, and 1930 + 0.05 N MHz.
        found_hertz = [channel_hertz(*given) for given in ((384, 800), (25, 1900), (900, 800))]
        self.assertEqual(found_hertz, [881.52e6, 1931.25e6, None])
        found = channel_at(881.52e6 + 900)
        self.assertEqual(found and found.number, 384)


class Tools(Recordings):
    CHIPS = 300_000

    def test_each_form_is_locked_to_as_its_raw_samples(self) -> None:
        raw = self.recorded("--carrier", 700, "--ec-io", -8, name="in.raw")
        told = ("--type", "ci16", "--rate", "2.4M")
        self.locked(raw, *told, "--search", 2_000, "--conjugate", "no")
        with open(self.at("out.is95"), "rb") as file:
            wanted = file.read()
        with open(raw, "rb") as file:
            data = file.read()
        with open(self.at("in.wav"), "wb") as file:
            file.write(wave(fields_of(1, 16), data))
        self.locked(self.at("in.wav"), "--search", 2_000, "--conjugate", "no")
        with open(self.at("out.is95"), "rb") as file:
            self.assertTrue(file.read() == wanted)
        words = ("import_capture", "--lock", *told, "--search", 2_000, "--conjugate", "no", "-", "-")
        status, wrote, said = self.run_tool(*words, data=data + b"\1")  # it ends within a sample
        self.assertEqual((status, wrote == wanted), (0, True), said)
        status, wrote, said = self.run_tool(*words, data=b"\1")
        self.assertEqual((status, wrote, said), (1, b"", "import_capture: standard input: no samples arrived\n"))


def taken_by_import(words: list[str], name: str) -> TakenSource:
    """The samples that an import takes."""
    parser = import_capture.parser()
    options = parser.parse_args([*words, name, "-"])
    import_capture.check_words(parser, options)
    return take(name, options)


def taken_by_scan(words: list[str], name: str) -> TakenSource:
    """The samples that a scan takes."""
    parser = scan.parser()
    options = parser.parse_args([*words, name])
    scan.check_words(parser, options)
    return take(name, options)


def taken_by_domain(words: list[str], name: str) -> TakenSource:
    """The samples whose code domain is measured."""
    parser = domain.parser()
    options = parser.parse_args([*words, name])
    domain.check_arguments(parser, options)
    return take(name, options)


def taken_by_report(words: list[str], name: str) -> TakenSource:
    """The samples of which a page is made."""
    parser = report.parser()
    options = parser.parse_args([*words, name, "--out", "-"])
    report.check_words(parser, options)
    return take(name, report.import_options(options, "-"))


def taken_by_listening(words: list[str], name: str) -> StoredSamples:
    """The samples that are listened to."""
    parser = listen.parser()
    options = parser.parse_args([*words, name])
    listen.check(parser, options)
    source = listening_source(options)
    assert isinstance(source, HeardRecording)
    return StoredSamples(source.lock.kind, Fraction(source.lock.rate), source.path)


TAKEN_BY: tuple[Callable[[list[str], str], StoredSamples | TakenSource], ...] = (
    taken_by_import, taken_by_scan, taken_by_domain, taken_by_report, taken_by_listening,
)  # fmt: skip
# The arguments that each tool needs besides its source.
NEEDED: dict[str, list[str]] = {
    "import_capture": ["-"], "scan": [], "domain": [], "report": ["--out", "-"], "listen": []
}  # fmt: skip


class EveryForm(Kept):
    """Each tool takes each form of a recording, and refuses the same arguments."""

    def held(self, name: str, words: list[str], kind: str, wanted: NDArray[Any], frequency: float | None) -> None:
        """That each tool takes these samples from a recording."""
        for taken_by in TAKEN_BY:
            with self.subTest(taken_by.__name__, name=name, words=words):
                found = taken_by(words, name)
                self.assertEqual((found.kind, found.rate), (kind, RATE))
                self.assertEqual(getattr(found, "remarks", ()), ())  # as that the bytes look like another type
                self.assertTrue(numpy.array_equal(self.parts(found), wanted))
                if isinstance(found, TakenSource):
                    self.assertEqual(found.frequency, frequency)

    def test_each_type_of_raw_samples(self) -> None:
        for named, kind, form in (
            ("ci16", "ci16_le", "<i2"), ("ci16_be", "ci16_be", ">i2"), ("cf32", "cf32_le", "<f4"),
            ("cf32_be", "cf32_be", ">f4"), ("ci32", "ci32_le", "<i4"), ("cf64", "cf64_le", "<f8"),
        ):  # fmt: skip
            path = self.kept("x.raw", PARTS.astype(form).tobytes())
            self.held(path, ["--type", named, "--rate", "2.4M"], kind, PARTS, None)

    def test_recordings_that_state_their_type(self) -> None:
        data = PARTS.astype("<i2").tobytes()
        auxi = b"auxi" + struct.pack("<I", 64) + bytes(32) + struct.pack("<I", 878_490_000) + bytes(28)
        self.held(self.kept("x.wav", wave(fields_of(1, 16), data, auxi)), [], "ci16_le", PARTS, 878.49e6)
        captures = [{"core:sample_start": 0, "core:frequency": 1e9}, {"core:sample_start": 200, "core:frequency": 2e9}]
        text = json.dumps(self.meta(captures)).encode()
        archive = self.archive({"x.sigmf-meta": text, "x.sigmf-data": data})
        self.kept("x.sigmf-data", data)
        for name in (archive, self.kept("x.sigmf-meta", text)):
            self.held(name, ["--capture", "1"], "ci16_le", PARTS[:400], 1e9)
            self.held(name, ["--capture", "2"], "ci16_le", PARTS[400:], 2e9)

    def test_arguments_that_each_tool_refuses(self) -> None:
        raw, known = self.kept("x.raw", b""), self.kept("x.wav", b"")
        told = ["--type", "cu8", "--rate", "2.4M"]
        for name, words, why in (
            (raw, ["--type", "cu8"], "give --rate, unless the recording is a .sigmf-meta, a .sigmf or a .wav"),
            (raw, ["--rate", "2.4M"], "give --type, unless"),
            (known, ["--type", "cu8"], "--type can't be given with"),
            (raw, [*told, "--gain", "20"], "--gain goes with a radio"),
            (raw, [*told, "--bias-tee"], "--bias-tee goes with a radio"),
            ("tcp://a:1", ["--rate", "2.4M"], "--type is needed with tcp://"),
            ("tcp://a:1", ["--type", "cu8"], "--rate is needed with a live source"),
            ("tcp://a:1", [*told, "--agc"], "--agc goes with a radio"),
            ("tcp://a:1", [*told, "--capture", "1"], "--capture goes with a SigMF recording"),
            ("rtl_tcp://a", ["--type", "ci8", "--rate", "2.4M"], "the samples of rtl_tcp are cu8"),
            ("rtl_tcp://a", ["--rate", "2400000.5"], "as a whole number"),
            ("rtl_tcp://a", ["--rate", "200M"], "at most 100,000,000|not 1,228,800 to 100,000,000"),
            ("rtl_tcp://a", ["--rate", "2.4M", "--channel", "900"], "band 800 has no channel 900"),
            ("soapy:driver=a", ["--rate", "2.4M", "--band", "800"], "--band needs --channel"),
            ("soapy:driver=a", ["--rate", "2.4M", "--channel", "3", "--frequency", "9M"], "can't both be given"),
        ):
            for tool, more in NEEDED.items():
                with self.subTest(tool, name=name, words=words):
                    status, wrote, said = run_main(tool, *words, name, *more)
                    self.assertEqual((status, wrote), (2, ""), said)
                    self.assertRegex(said, why)

    def test_the_bound_goes_with_a_source_that_may_not_end(self) -> None:
        raw, words = self.kept("x.raw", b""), ["--type", "cu8", "--rate", "2.4M", "--seconds", "3"]
        for tool in NEEDED.keys() - {"listen"}:
            status, _, said = run_main(tool, *words, raw, *NEEDED[tool])
            self.assertEqual(status, 2)
            self.assertIn("--seconds goes with standard input or a live source", said)


class Bound(unittest.TestCase):
    """What is taken of standard input."""

    def taken(self, data: bytes, *words: str) -> TakenSource:
        """The samples that an import takes of standard input."""
        with mock.patch("sys.stdin", mock.Mock(buffer=io.BytesIO(data))):
            found = taken_by_import(["--rate", "2M", *words], "-")
        self.addCleanup(found.close)
        return found

    def bytes_of(self, found: TakenSource) -> bytes:
        """All bytes that were kept."""
        with open(found.path, "rb") as file:
            return file.read()

    def test_at_most_a_number_of_seconds_is_taken(self) -> None:
        data = PARTS.astype("<i2").tobytes() * 100
        found = self.taken(data, "--type", "ci16", "--seconds", "0.01")
        self.assertTrue(self.bytes_of(found) == data[: 4 * 20_000])
        self.assertEqual(found.remarks, ())
        found = self.taken(data, "--type", "ci16")
        self.assertTrue(self.bytes_of(found) == data)
        found.close()
        self.assertFalse(os.path.exists(found.path))

    def test_the_type_is_guessed_of_what_came(self) -> None:
        draws = numpy.random.default_rng(5)
        parts = numpy.rint(draws.normal(0, 900, 400_000)).astype("<i2")
        for count, cut in ((len(parts), 20_000), (4_000, 2_000)):  # before the end, and at it
            found = self.taken(parts[:count].tobytes() + b"\1", "--type", "auto", "--seconds", "0.01")
            self.assertEqual(found.kind, "ci16_le")
            self.assertIn("the sample type is guessed from the bytes: ci16_le", found.remarks)
            self.assertTrue(self.bytes_of(found) == parts[: 2 * cut].tobytes())
        with self.assertRaisesRegex(Refused, "^standard input: 4 bytes are too few to guess the sample type"):
            self.taken(b"abcd", "--type", "auto")


class Live(unittest.TestCase):
    def source(self, address: str, kind: str = "ci16_le", tuning: Tuning = Tuning()) -> live.LiveSource:
        """Returns the live source of an address."""
        scheme = live.scheme_of(address)
        assert scheme is not None
        return live.LiveSource(address, scheme, kind, Fraction(RATE), tuning)

    def items(self, source: live.LiveSource) -> list[Any]:
        """Returns everything that a source puts into a backlog, up to its end, and why it was refused."""
        backlog = Backlog()
        made: list[Any] = []
        reader = threading.Thread(target=source.begin(backlog), daemon=True)
        reader.start()
        try:
            for item in backlog:
                made.append(item)
        except Refused as why:
            made.append(str(why))
        reader.join(timeout=10)
        self.assertFalse(reader.is_alive())
        return made

    def server(self, data: bytes, waits: float = 0.0) -> str:
        """Returns the address of a server that sends bytes once, waits, and ends."""
        listener = socket.create_server(("127.0.0.1", 0))
        self.addCleanup(listener.close)

        def serve() -> None:
            connection, _ = listener.accept()
            with connection:
                connection.sendall(data)
                threading.Event().wait(waits)

        threading.Thread(target=serve, daemon=True).start()
        return f"tcp://127.0.0.1:{listener.getsockname()[1]}"

    def test_schemes(self) -> None:
        for address, scheme in (
            ("rtl_tcp://a", "rtl_tcp"), ("tcp://a:1", "tcp"), ("udp://a:1", "udp"), ("zmq://a:1", "zmq"),
            ("soapy:driver=hackrf", "soapy"), ("a.wav", None), ("-", None), ("file://a", None),
        ):  # fmt: skip
            self.assertEqual(live.scheme_of(address), scheme)
        for wrong in ("tcp://a", "tcp://:5", "udp://a:99999", "zmq://a:1/x"):
            with self.assertRaises(Refused):
                self.source(wrong).place
        self.assertEqual(self.source("rtl_tcp://a").place, ("a", 1_234))

    def test_the_commands_of_rtl_tcp(self) -> None:
        # rtl_tcp.c: 1 frequency, 2 rate, 3 gain by hand, 4 gain in tenths of dB, 5 millionths, 8 AGC, 14 bias tee.
        tuning = Tuning(878_490_000, 29.7, -57, True, False)
        wanted = [(2, RATE), (1, 878_490_000), (5, 2**32 - 57), (3, 1), (8, 0), (4, 297), (14, 1)]
        self.assertEqual(Server("a", 1, RATE, 2, tuning).commands(), wanted)
        self.assertEqual(Server("a", 1, RATE, 2).commands(), [(2, RATE)])
        self.assertEqual(Server("a", 1, RATE, 2, Tuning(has_agc=True)).commands(), [(2, RATE), (3, 0), (8, 1)])

    def test_a_server_of_samples(self) -> None:
        data = PARTS.astype("<i2").tobytes()
        found = self.items(self.source(self.server(data)))
        self.assertEqual(b"".join(found), data)
        with mock.patch.object(live, "SERVER_TIMEOUT", 0.2):
            address = self.server(data, waits=1.0)
            *found, why = self.items(self.source(address))
        self.assertEqual(b"".join(found), data)
        self.assertEqual(why, f"{address}: no samples for 0 s")
        with socket.create_server(("127.0.0.1", 0)) as free:
            port = free.getsockname()[1]
        with self.assertRaisesRegex(Refused, "Connection refused"):
            self.source(f"tcp://127.0.0.1:{port}").begin(Backlog())

    def test_datagrams(self) -> None:
        data = PARTS.astype("<i2").tobytes()
        with socket.socket(socket.AF_INET, socket.SOCK_DGRAM) as free:
            free.bind(("127.0.0.1", 0))
            port = free.getsockname()[1]
        backlog = Backlog()
        run = self.source(f"udp://127.0.0.1:{port}").begin(backlog)
        with socket.socket(socket.AF_INET, socket.SOCK_DGRAM) as sender:
            for begin in range(0, len(data), 1_000):
                sender.sendto(data[begin : begin + 1_000], ("127.0.0.1", port))
            sender.sendto(b"", ("127.0.0.1", port))
        run()
        self.assertEqual(b"".join(item for item in backlog if isinstance(item, bytes)), data)

    @unittest.skipUnless(importlib.util.find_spec("zmq"), "no zmq: install the package python3-zmq")
    def test_a_pub_socket_of_gnu_radio(self) -> None:
        import zmq

        data = PARTS.astype("<f4").tobytes()
        with zmq.Context() as context, context.socket(zmq.PUB) as publisher:
            port = publisher.bind_to_random_port("tcp://127.0.0.1")
            backlog, stops = Backlog(), threading.Event()

            def send() -> None:
                while not stops.wait(0.05):
                    publisher.send(data)

            sender = threading.Thread(target=send, daemon=True)
            sender.start()
            run = self.source(f"zmq://127.0.0.1:{port}", "cf32_le").begin(backlog)
            reader = threading.Thread(target=run, daemon=True)
            reader.start()
            self.assertEqual(backlog.get(), data)
            backlog.stop()
            reader.join(timeout=10)
            stops.set()
            sender.join(timeout=10)
        self.assertFalse(reader.is_alive())

    def soapy(self, reads: list[int]) -> tuple[types.ModuleType, list[tuple[Any, ...]]]:
        """Returns a stand-in for SoapySDR whose radio returns these numbers from reads, and the calls that it gets."""
        calls: list[tuple[Any, ...]] = []

        class Device:
            """A radio."""

            def __init__(self, words: str) -> None:
                calls.append(("Device", words))

            def __getattr__(self, name: str) -> Any:
                return lambda *words: calls.append((name, *words))

            def readStream(self, stream: Any, blocks: list[NDArray[Any]], count: int, timeoutUs: int) -> Any:
                """Writes samples of 1, or returns an error."""
                number = reads.pop(0)
                blocks[0][: max(0, number)] = 1
                return types.SimpleNamespace(ret=number)

        module = types.ModuleType("SoapySDR")
        module.__dict__.update(Device=Device, SOAPY_SDR_RX=1, SOAPY_SDR_CF32="CF32")
        return module, calls

    def test_a_radio_of_soapy(self) -> None:
        tuning = Tuning(878_490_000, 30.0, 12, True, False)
        module, calls = self.soapy([5, -4, 3, -1])
        with mock.patch.dict(sys.modules, {"SoapySDR": module}):
            first, lost, second, why = self.items(self.source("soapy:driver=x,serial=7", "cf32_le", tuning))
        self.assertEqual((len(first), len(second)), (40, 24))
        self.assertIsInstance(lost, Told)
        self.assertEqual(why, "soapy:driver=x,serial=7: no samples for 10 s")
        self.assertEqual(calls[:7], [
            ("Device", "driver=x,serial=7"), ("setSampleRate", 1, 0, 2.4e6), ("setFrequency", 1, 0, 878.49e6),
            ("setFrequencyCorrection", 1, 0, 12.0), ("setGainMode", 1, 0, False), ("setGain", 1, 0, 30.0),
            ("writeSetting", "biastee", "true"),
        ])  # fmt: skip
        self.assertEqual([call[0] for call in calls[-2:]], ["deactivateStream", "closeStream"])
        with mock.patch.dict(sys.modules, {"SoapySDR": None}), self.assertRaisesRegex(Refused, "python3-soapysdr"):
            self.source("soapy:driver=x", "cf32_le").begin(Backlog())


if __name__ == "__main__":
    unittest.main()
