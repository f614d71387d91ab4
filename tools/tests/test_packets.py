"""tools/lines --pcapng and the dissector: the bits of messages by the model, and what tshark shows of every case."""

import csv
import io
import os
import random
import re
import shutil
import struct
import subprocess
import unittest
from collections.abc import Iterator
from dataclasses import dataclass
from fractions import Fraction
from typing import Any, NamedTuple

from tools.tests.helping import ROOT, TOOLS, needs, run_inside, temporary_folder

needs("numpy")

from cdma_model.bits import Bits, bits_of_text  # noqa: E402
from cdma_model.coding import MESSAGE_16, MESSAGE_30  # noqa: E402
from cdma_model.lines import paging_line, sync_line, traffic_line  # noqa: E402
from cdma_model.messages import body_of, paging_message, sync_message, traffic_message  # noqa: E402
from cdma_tools.lines import BY_WORDS, read_line  # noqa: E402
from cdma_tools.wireshark import dissector  # noqa: E402
from cdma_tools.wireshark.layouts import message_digits  # noqa: E402
from cdma_tools.wireshark.packets import HEADER  # noqa: E402
from cdma_tools.wireshark.pcapng import (  # noqa: E402
    INTERFACE,
    PACKET,
    block,
    interface_block,
    packet_block,
    section_header,
)
from tools.tests.test_lines import CASES, LINES  # noqa: E402

DISSECTOR = os.path.join(ROOT, "share", "cdma-replay", "is95.lua")
MESSAGES = ("sync", "paging", "traffic")
PACKETS = (*MESSAGES, "frame", "frame2", "raw")
# MSG_TYPE of each kind (docs/LINK.md).
TYPES = {
    ("sync", None): 1,
    ("paging", "system"): 1,
    ("paging", "neighbors"): 3,
    ("paging", "channels"): 4,
    ("traffic", "system"): 7,
    ("traffic", "neighbors"): 8,
    ("traffic", "handoff"): 17,
}
# Fields of the dissector that lines leave out, and the result of an expert: any is a fault.
LEFT_OUT = ("msg_type", "search_included", "hard_included", "add_length")
FAULTS = ("is95.malformed", "is95.version.unknown", "_ws.malformed", "_ws.lua.error")
HEADER_FIELDS = (
    "content",
    "channel",
    "check",
    "cell.sid",
    "cell.nid",
    "cell.pilot_pn",
    "row",
    "time_known",
    "chip",
    "rate",
)
OWN_FIELDS = ("frame.bits", "frame.commands", "capsule.msg_length", "capsule.crc")
FRAME_FIELDS = ("frame.time_epoch", "frame.interface_name")
MODEL = {
    "sync": (sync_message, sync_line),
    "paging": (paging_message, paging_line),
    "traffic": (traffic_message, traffic_line),
}


@dataclass(frozen=True)
class Heard:
    """A case: its name, its scripts, and its expected lines."""

    name: str
    scripts: list[str]
    lines: list[str]


class Packet(NamedTuple):
    """A packet: its case, its line, the line's object, and what tshark shows of it."""

    case: Heard
    line: str
    read: dict[str, Any]
    shown: dict[str, list[str]]


def heard_cases() -> Iterator[Heard]:
    """Returns the cases that have lines with packets."""
    for name in sorted(os.listdir(CASES)):
        with open(os.path.join(CASES, name), encoding="ascii") as file:
            front, _, text = file.read().partition("\ntext:\n")
        lines = [line[2:] for line in text.splitlines()]
        if any(line.split()[0] in PACKETS for line in lines):
            yield Heard(name, re.findall(r"script:\n((?:  .*\n?)+)", front), lines)


def model_bits(digits: str) -> Bits:
    """Returns digits as the model's bits."""
    return [int(digit) for digit in digits]


def standard_names(meaning: str) -> list[str]:
    """Returns the standard's names in the meaning of a field."""
    return re.findall(r"\b[A-Z][A-Z_]+\b", meaning)


def wanted_fields(read: dict[str, Any]) -> dict[str, list[str]]:
    """Returns what a message's packet should show, by filter name without `is95.`: the line's values, as text."""
    line, found = read["line"], dict[str, list[str]]()
    for field in BY_WORDS[line, read.get("message")].fields():
        if field.name in ("at", "type") or field.name not in read:
            continue
        value, names = read[field.name], standard_names(field.meaning) or [field.name]
        if field.name in ("rest", "bits", "extra"):
            names = [field.name]
        columns = (
            zip(*value)
            if isinstance(value, list) and len(names) > 1
            else [value if isinstance(value, list) else [value]]
        )
        for name, column in zip(names, columns):
            found[f"{line}.{name.lower()}"] = [str(one) for one in column]
    return {name: values for name, values in found.items() if values}


def number_of(text: str) -> str:
    """Returns a number of tshark in decimal; other text is unchanged."""
    return str(int(text, 16)) if text.startswith("0x") else text


class Tshark:
    """What tshark shows of a capture."""

    def __init__(self, folder: str) -> None:
        """Keeps captures and settings in a folder."""
        self.folder = folder

    def ran(self, capture: bytes, *words: str) -> str:
        """Returns tshark's output for a capture; it must succeed."""
        path = os.path.join(self.folder, "packets.pcapng")
        with open(path, "wb") as file:
            file.write(capture)
        command = ["tshark", "-n", "-X", f"lua_script:{DISSECTOR}", "-r", path, *words]
        environment = {**os.environ, "HOME": self.folder, "XDG_CONFIG_HOME": self.folder, "TZ": "UTC"}
        ran = subprocess.run(command, capture_output=True, text=True, timeout=300, env=environment)
        said = [line for line in ran.stderr.splitlines() if not line.startswith("Running as user")]
        assert (ran.returncode, said) == (0, []), ran.stderr
        return ran.stdout

    def fields(self, capture: bytes) -> list[dict[str, list[str]]]:
        """Returns all fields of each packet, by filter name without `is95.`, each with all its values."""
        own = [f"is95.{name}" for name in (*HEADER_FIELDS, *OWN_FIELDS)] + [
            column[0] for column in dissector.all_columns()
        ]
        names = [*FRAME_FIELDS, *own, *FAULTS]
        options = [word for name in names for word in ("-e", name)]
        text = self.ran(capture, "-T", "fields", "-E", "separator=/t", "-E", "aggregator=;", *options)
        rows = csv.reader(io.StringIO(text), delimiter="\t", quoting=csv.QUOTE_NONE)
        return [
            {
                name.removeprefix("is95."): [number_of(one) for one in cell.split(";")]
                for name, cell in zip(names, row)
                if cell
            }
            for row in rows
        ]


def blocks_of(capture: bytes) -> Iterator[tuple[int, bytes]]:
    """Returns the type and the body of each block of a capture."""
    place = 0
    while place < len(capture):
        kind, length = struct.unpack_from("<II", capture, place)
        assert struct.unpack_from("<I", capture, place + length - 4) == (length,)
        yield kind, capture[place + 8 : place + length - 4]
        place += length


def packets_of(capture: bytes) -> list[bytes]:
    """Returns the data of the packets of a capture."""
    bodies = [body for kind, body in blocks_of(capture) if kind == PACKET]
    return [body[20 : 20 + struct.unpack_from("<I", body, 12)[0]] for body in bodies]


def merged(captures: list[bytes]) -> bytes:
    """Returns one section with all interfaces and packets of captures of one section each."""
    made, interfaces = section_header("test"), 0
    for capture in captures:
        first = interfaces
        for kind, body in blocks_of(capture):
            if kind == PACKET:
                (interface,) = struct.unpack_from("<I", body)
                made += block(PACKET, struct.pack("<I", first + interface) + body[4:])
            elif kind == INTERFACE:
                made += block(INTERFACE, body)
                interfaces += 1
    return made


def capture_of(lines: list[str]) -> bytes:
    """Returns the capture of lines."""
    status, wrote, said = run_inside("lines", "--pcapng", data="".join(line + "\n" for line in lines).encode())
    assert (status, said) == (0, ""), said
    return wrote


class MessageBits(unittest.TestCase):
    """The bits of messages, by the model, which reads them by docs/LINK.md."""

    seconds = 3

    def test_each_message_of_each_case(self) -> None:
        kinds = set()
        for line in LINES:
            read = read_line(line)
            if read["line"] in MESSAGES:
                kinds.add((read["line"], read.get("message")))
                message_of, line_of = MODEL[read["line"]]
                message = message_of(model_bits(message_digits(read)))
                self.assertEqual(message and line_of(read["at"], message), line)
        self.assertEqual(kinds, {*TYPES, ("paging", "other"), ("traffic", "other")})

    def test_messages_are_those_of_the_capsules(self) -> None:
        """If a case has a message as received, it has the same bits before its check."""
        compared = 0
        for case in heard_cases():
            told = [read_line(line) for line in case.lines]
            bodies = [model_bits(message_digits(read)) for read in told if read["line"] in MESSAGES]
            for read in told:
                if read["line"] == "raw" and bodies:
                    check = MESSAGE_16 if read["channel"] == "traffic" else MESSAGE_30
                    capsule = bits_of_text(read["bits"])
                    assert capsule is not None
                    both = [body_of(capsule, complemented, check) for complemented in (False, True)]
                    self.assertTrue(any(body in bodies for body in both if body is not None), case.name)
                    compared += 1
        self.assertGreater(compared, 5)


class Dissector(unittest.TestCase):
    """The dissector's text."""

    seconds = 1

    def test_it_is_made_of_the_tables(self) -> None:
        self.assertTrue(dissector.is_current(), "python3 -m cdma_tools.wireshark.dissector --write")

    def test_a_message_has_the_fields_of_its_line(self) -> None:
        with open(DISSECTOR, encoding="utf-8") as file:
            text = file.read()
        for name in ("is95.paging.pilot_pn", "is95.sync.lc_state", "is95.traffic.pwr_comb_ind"):
            self.assertIn(f'{{ "{name}", ', text)


@unittest.skipUnless(shutil.which("tshark"), "no tshark: install the package tshark")
class Cases(unittest.TestCase):
    """What tshark shows of the lines of every case."""

    seconds = 20

    packets: list[Packet]

    @classmethod
    def setUpClass(cls) -> None:
        tshark = Tshark(temporary_folder(cls.addClassCleanup))
        cases = list(heard_cases())
        shown = iter(tshark.fields(merged([capture_of(case.lines) for case in cases])))
        cls.packets = [
            Packet(case, line, read_line(line), next(shown))
            for case in cases
            for line in case.lines
            if line.split()[0] in PACKETS
        ]
        assert next(shown, None) is None

    def test_no_packet_is_malformed(self) -> None:
        self.assertGreater(len(self.packets), 3_000)
        for case, line, _, shown in self.packets:
            self.assertEqual(
                [name for name in FAULTS if name.removeprefix("is95.") in shown], [], f"{case.name}: {line}"
            )

    def test_messages_have_the_fields_of_their_lines(self) -> None:
        for case, line, read, shown in self.packets:
            if read["line"] in MESSAGES:
                place = read["line"]
                fields = {name: values for name, values in shown.items() if name.startswith(place + ".")}
                kind = TYPES.get((place, read.get("message")), read.get("type"))
                self.assertEqual(fields.pop(f"{place}.msg_type"), [str(kind)], line)
                for name in LEFT_OUT:
                    fields.pop(f"{place}.{name}", None)
                self.assertEqual(fields, wanted_fields(read), f"{case.name}: {line}")

    def test_capsules_have_the_fields_of_their_messages(self) -> None:
        """By the model, which reads the same capsule."""
        compared = 0
        for case, line, read, shown in self.packets:
            if read["line"] == "raw":
                capsule, channel = bits_of_text(read["bits"]), read["channel"]
                assert capsule is not None
                check = MESSAGE_16 if channel == "traffic" else MESSAGE_30
                message_of, line_of = MODEL[channel]
                message = message_of(capsule[8 : -check.degree])
                assert message is not None
                wanted = wanted_fields(read_line(line_of(0, message)))
                self.assertLessEqual(wanted.items(), shown.items(), f"{case.name}: {line}")
                self.assertEqual(shown["capsule.msg_length"], [str(len(capsule) // 8)])
                self.assertEqual(bits_of_text(shown["capsule.crc"][0]), capsule[-check.degree :])
                compared += 1
        self.assertGreater(compared, 50)

    def test_frames(self) -> None:
        for case, line, read, shown in self.packets:
            if read["line"] in ("frame", "frame2"):
                commands = "".join(map(str, read["commands"]))
                wanted = {"frame.bits": [read["bits"]], "frame.commands": [commands], "rate": [str(read["rate"])]}
                wanted["check"] = ["1" if read["good"] else "2"]
                wanted["content"] = ["3" if read["line"] == "frame" else "4"]
                self.assertLessEqual(wanted.items(), shown.items(), f"{case.name}: {line}")

    def test_header_and_interface(self) -> None:
        cells: dict[str, list[str]] = {}
        for case, line, read, shown in self.packets:
            if read["line"] == "sync":
                cells[case.name] = [str(read[name]) for name in ("sid", "nid", "pn")]
            channel = read["channel"] if read["line"] == "raw" else read["line"].rstrip("2").replace("frame", "traffic")
            self.assertEqual(shown["channel"], [str(1 + MESSAGES.index(channel))])
            self.assertEqual(shown["chip"], [str(read["at"])])
            cell = cells.get(case.name)
            found = [shown[f"cell.{name}"][0] for name in ("sid", "nid", "pilot_pn") if cell]
            self.assertEqual(found, cell or [])
            where = "SID {} NID {} PN {}".format(*cell) if cell else "unknown cell"
            self.assertEqual(shown["frame.interface_name"], [f"{where} {channel}"])
            if channel == "sync":
                self.assertEqual(shown["row"], ["32"])

    def test_times(self) -> None:
        """Sample t of a script is sent at chip 98,304 T + S + t of the system time (docs/FORMATS.md, "Script")."""
        compared = 0
        for case, line, read, shown in self.packets:
            is_timed = shown["time_known"] == ["1"]
            begin = self.begin_of(case) if is_timed else Fraction(0)
            if begin is not None:
                time = begin + Fraction(read["at"], 1_228_800)
                shown_time = Fraction(shown["frame.time_epoch"][0])
                self.assertAlmostEqual(shown_time, time, delta=Fraction(1, 10**5), msg=f"{case.name}: {line}")
                compared += is_timed
        self.assertGreater(compared, 1_000)

    def begin_of(self, case: Heard) -> Fraction | None:
        """Returns the time of sample 0 of a case with one script, in seconds since 1970; None if it has several."""
        if len(case.scripts) != 1:
            return None
        numbers = dict(re.findall(r" (start|lp)=(\d+)", case.scripts[0]))
        time = re.search(r"cell .* time=(\d+)", case.scripts[0])
        assert time
        chips = 98_304 * int(time[1]) + int(numbers["start"])
        # The system time begins on 6 January 1980, 3,657 days after 1 January 1970.
        return Fraction(chips, 1_228_800) + 3_657 * 86_400 - int(numbers["lp"])


@unittest.skipUnless(shutil.which("tshark"), "no tshark: install the package tshark")
class Damaged(unittest.TestCase):
    """Packets that no tool writes."""

    seconds = 5

    def test_damaged_packets_are_shown(self) -> None:
        """Packets cut or changed at random places cause no error in the dissector."""
        draws, tshark = random.Random(92), Tshark(temporary_folder(self.addCleanup))
        lines = [line for line in draws.sample(LINES, 400) if line.split()[0] in PACKETS]
        packets = [self.damaged(packet, draws) for packet in packets_of(capture_of(lines)) for _ in range(4)]
        blocks = [packet_block(0, 0, packet) for packet in packets]
        shown = tshark.fields(section_header("test") + interface_block("test") + b"".join(blocks))
        self.assertEqual(len(shown), len(packets))
        self.assertFalse(any("_ws.lua.error" in fields for fields in shown))
        for name in ("malformed", "version.unknown"):
            self.assertGreater(sum(name in fields for fields in shown), 10)

    @staticmethod
    def damaged(packet: bytes, draws: random.Random) -> bytes:
        """Returns a packet that is cut, or has some bytes changed."""
        if draws.randrange(2):
            return packet[: draws.randrange(1, len(packet) + 1)]
        changed = bytearray(packet)
        for _ in range(draws.randrange(1, 4)):
            changed[draws.randrange(len(changed))] = draws.randrange(256)
        return bytes(changed)


class Written(unittest.TestCase):
    """The capture of some lines, byte by byte."""

    seconds = 3

    def test_a_packet_as_the_page_says(self) -> None:
        """The header's bytes, by the table in docs/FORMATS.md."""
        sync = "sync at=7 prev=3 min=1 sid=1 nid=2 pn=511 lc=00000000010 time=7 lp=13 ltm=0 daylt=0 prat=0 rest=3:00"
        sets = "sets at=8 time=7015 active=40/10/0,511/45/1 candidate= report=0"
        frame = "frame at=258 rate=1200 good=0 bits=16:df67 commands=0000110001101101"
        packets = packets_of(capture_of([sync, sets, frame]))
        self.assertEqual(len(packets), 2)
        wanted = "01 03 03 02  0001 0002 01ff  2d 03  0000000000000102 04b0 0c6d 0010 df67"
        self.assertEqual(packets[1], bytes.fromhex(wanted))

    def test_nothing_known(self) -> None:
        """A packet before any sync message counts from 1970, and names no cell."""
        frame = "frame2 at=1228800 rate=1800 good=1 bits=0: commands=0000000000000000"
        capture = capture_of(["survey pn=211 delta=-6 energy=0", frame])
        self.assertEqual(packets_of(capture)[0][:12], bytes.fromhex("01 04 03 01 0000 0000 0000 00 00"))
        place = capture.index(struct.pack("<I", HEADER.size), capture.index(b"unknown cell traffic"))
        self.assertEqual(struct.unpack_from("<II", capture, place - 8), (0, 1_000_000_000))

    def test_refusals(self) -> None:
        late = b"frame at=18446744073709551615 rate=1200 good=1 bits=0: commands=0000000000000000\n"
        for words, data, status, why in (
            (("--pcapng", "--csv", "pilot"), b"", 2, "not allowed with"),
            (("--pcapng", "--back"), b"", 2, "not allowed with"),
            (("--pcapng",), b"frame\n", 1, "standard input: line 1: at= is expected"),
            (("--pcapng",), late, 1, "line 1: its time is .* pcapng can't hold"),
        ):
            with self.subTest(words):
                ended, _, said = run_inside("lines", *words, data=data)
                self.assertEqual((ended, said.count("\n")), (status, 1), said)
                self.assertRegex(said, why)

    def test_a_reader_that_goes_away(self) -> None:
        """It ends the tool without a word."""
        frames = os.path.join(temporary_folder(self.addCleanup), "frames.txt")
        with open(frames, "w", encoding="ascii") as file:
            file.write("frame at=9 rate=1200 good=1 bits=16:df67 commands=0000110001101101\n" * 10_000)
        line = f"'{TOOLS}/lines' --pcapng '{frames}' | head -c 4 | od -An -tx1"
        ran = subprocess.run(["bash", "-c", line], capture_output=True, text=True, timeout=300)
        self.assertEqual((ran.stdout, ran.stderr), (" 0a 0d 0d 0a\n", ""))


if __name__ == "__main__":
    unittest.main()
