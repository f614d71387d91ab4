"""tools/report: what it measures and reports, its page, its errors, and that text of a recording stays text."""

import argparse
import contextlib
import html.parser
import io
import json
import math
import os
import re
import tempfile
import unittest
from unittest import mock
from typing import Any

from tools.tests.helping import (
    NO_PROGRAM,
    PROGRAM,
    ROOT,
    example,
    loaded,
    needs,
    run_program,
    run_tool,
    sample_file,
    temporary_folder,
)

needs("numpy", "plotly", "jinja2")

import numpy  # noqa: E402
from jinja2 import UndefinedError  # noqa: E402
from markupsafe import Markup  # noqa: E402
from numpy.typing import NDArray  # noqa: E402

from cdma_tools.commands import import_capture, status_of  # noqa: E402
from cdma_tools.correlation import codes, energy_at  # noqa: E402
from cdma_tools.errors import Refused  # noqa: E402
from cdma_tools.lines import SHAPES, read_line, spell_line  # noqa: E402
from cdma_tools.report import gathering, meaning, measures, rendering  # noqa: E402
from tools.tests.report_fixture import FOLLOWED, PHASE, PILOT, SPAN, SYNC, Fake, file_of, sent_symbols, signal  # noqa: E402

REPORT = loaded("report")
MOST_BYTES = 6_000_000
EVERY_BYTE = bytes(byte for byte in range(256) if byte != 10)
MARKUP = "<img src=x onerror=\"window.taken=1\"></pre></script><script>window.taken=1</script>&lt;b&gt;'\"--><!--"


class Meanings(unittest.TestCase):
    """Expected values are those of GPS time, of the channel plan and of the standard's tables, worked out by hand."""

    def told(self, line: str) -> dict[str, tuple[str, str]]:
        read = read_line(line)
        shape = next(shape for shape in SHAPES if (shape.line, shape.word) == (read["line"], read.get("message")))
        return {row.name: (row.value, row.meaning) for row in meaning.rows_of(shape, read)}

    def test_a_sync_message(self) -> None:
        told = self.told(FOLLOWED[1])
        self.assertEqual(
            told["SYS_TIME"], ("14590800225", "2017-01-01 00:00:00.00 UTC, 2016-12-31 19:00:00.00 local time (UTC-05:00)")
        )
        self.assertEqual(told["P_REV"], ("5", "TIA/EIA-95-B"))
        self.assertEqual(told["LTM_OFF"], ("54", "local time is UTC-05:00"))
        self.assertEqual(told["CDMA_FREQ"], ("283", "878.49 MHz at 800 MHz, or 1944.15 MHz at 1.9 GHz"))
        self.assertEqual(told["LC_STATE"][0], "00000000010")
        self.assertEqual(len(told), 12)

    def test_system_parameters(self) -> None:
        told = self.told(FOLLOWED[3])
        self.assertEqual(len(told), 37)
        self.assertEqual(told["BASE_LAT"][1], "37.774931°, 37° 46′ 29.75″ N")
        self.assertEqual(told["BASE_LONG"][1], "-122.419375°, 122° 25′ 9.75″ W")
        self.assertEqual(told["MAX_SLOT_CYCLE_INDEX"][1], "a handset sleeps for 5.12 s at most")
        self.assertIn("30.9 minutes", told["REG_PRD"][1])  # 2^14.5 times 80 ms
        self.assertIn("20 chips for active", told["SRCH_WIN_A"][1])
        self.assertIn("-14 dB", told["T_ADD"][1])
        self.assertIn("4 s", told["T_TDROP"][1])
        self.assertIn("80 frames", told["PWR_REP_FRAMES"][1])

    def test_each_value_of_each_field_has_a_meaning(self) -> None:
        """Every value has words, and none raises."""
        for line in (FOLLOWED[1], FOLLOWED[3]):
            read = read_line(line)
            for name, value in read.items():
                if isinstance(value, int):
                    self.check_values(read, name)

    def check_values(self, read: dict[str, Any], name: str) -> None:
        for value in [*range(0, 70), *(2**width - 1 for width in range(1, 43))]:
            try:
                line = spell_line({**read, name: value})
            except ValueError:
                continue
            for row in self.told(line).values():
                self.assertTrue(row[1], (name, value))

    def test_channels(self) -> None:
        wanted = {384: "881.52 MHz", 1_013: "869.70 MHz", 1_199: "1989.95 MHz", 25: "1931.25 MHz", 2_047: "not a channel"}
        for channel, told in wanted.items():
            self.assertIn(told, meaning.megahertz(channel))

    def test_places(self) -> None:
        self.assertEqual(meaning.degrees(2**22 - 1, 22, "NS"), "-0.000069°, 0° 0′ 0.25″ S")
        self.assertEqual(meaning.degrees(0, 22, "NS"), "0.000000°, 0° 0′ 0.00″ N")
        self.assertEqual(meaning.hours_of(meaning.HALF_HOUR * 11), "+05:30")


class Measures(unittest.TestCase):
    def measured(self, samples: NDArray[Any], phase: int | None = PHASE, span: int = SPAN) -> measures.Measured:
        return self.measured_file(file_of(samples), phase, span)

    def measured_file(self, data: bytes, phase: int | None = PHASE, span: int = SPAN) -> measures.Measured:
        with tempfile.NamedTemporaryFile() as file:
            file.write(data)
            file.flush()
            return measures.measured(file.name, phase, span)

    def test_a_clean_signal(self) -> None:
        found = self.measured(signal())
        self.assertEqual((found.count, found.told, found.drift), (120_000, 120_000, 0))
        assert found.ratio is not None and found.level and found.carrier is not None and found.symbols
        self.assertAlmostEqual(found.ratio, PILOT**2 / (PILOT**2 + SYNC**2), places=3)
        self.assertAlmostEqual(found.level.power, 2 * (PILOT**2 + SYNC**2), delta=2)
        self.assertEqual(found.level.top, PILOT + SYNC)
        self.assertAlmostEqual(found.carrier, 0, places=6)
        numpy.testing.assert_allclose(found.symbols.points.imag, 0, atol=1e-9)
        first = PHASE + found.symbols.places[0]
        self.assertEqual(first % 32_768, 0)
        wanted = SYNC / PILOT * sent_symbols(2_000)[first // 256 :][: len(found.symbols.points)]
        numpy.testing.assert_allclose(found.symbols.points.real, wanted, atol=1e-9)

    def test_the_ratio_is_the_energy(self) -> None:
        samples = signal(SPAN)
        parts = samples.real.astype(int), samples.imag.astype(int)
        found = self.measured(samples)
        power = int((parts[0] ** 2 + parts[1] ** 2).sum())
        assert found.correlation
        for delta in (-40, -1, 0, 17, 40):
            wanted = energy_at(parts, codes(), PHASE + delta) / (2 * SPAN * power)
            self.assertAlmostEqual(found.correlation.ratios[delta + 40], wanted, places=12)

    def test_what_is_left_of_carrier_and_clock(self) -> None:
        samples = signal() * numpy.exp(2j * numpy.pi * 25.0 / 1_228_800 * numpy.arange(120_000))
        carrier = self.measured(50 * samples).carrier
        assert carrier is not None
        self.assertAlmostEqual(carrier, 25.0, places=2)
        self.assertEqual(self.measured(numpy.delete(signal(), [50_000, 50_001, 50_002])).drift, 3)
        self.assertEqual(self.measured(numpy.insert(signal(), 50_000, 0)).drift, -1)

    def test_noise(self) -> None:
        draws = numpy.random.default_rng(3)
        noise = numpy.round(200 * (draws.normal(size=60_000) + 1j * draws.normal(size=60_000)))
        found = self.measured(noise)
        self.assertFalse(found.stands_out)
        self.assertIsNone(found.symbols)
        assert found.level
        self.assertAlmostEqual(math.sqrt(found.level.power / 2), 200, delta=2)

    def test_less_than_a_recording(self) -> None:
        self.assertEqual(self.measured_file(b"").version, 0)
        self.assertEqual(self.measured_file(b"RIFF" + bytes(100)).count, 0)
        self.assertEqual(self.measured_file(file_of(signal(100))[:-5]).count, 98)
        self.assertIsNone(self.measured(signal(100)).ratio)
        self.assertIsNone(self.measured(signal(4_000)).symbols)
        self.assertIsNone(self.measured(signal(4_000), None).ratio)
        zeros = self.measured(numpy.zeros(3_000, dtype=complex), 0)
        self.assertEqual((zeros.ratio, zeros.level), (0.0, (0.0, 0)))

    def test_eight_bits(self) -> None:
        found = self.measured_file(sample_file([(100, -50)] * 3_000, version=2))
        self.assertEqual((found.version, found.count, found.level), (2, 3_000, (12_500.0, 100)))


class Parsed(html.parser.HTMLParser):
    """The elements of a page, and the text of those that have a name or hold lines."""

    def __init__(self, page: str) -> None:
        super().__init__(convert_charrefs=True)
        self.elements: list[tuple[str, tuple[str, ...]]] = []
        self.texts: dict[str, str] = {}
        self.open: list[str] = []
        self.feed(page)

    def handle_starttag(self, tag: str, attrs: list[tuple[str, str | None]]) -> None:
        told = dict(attrs)
        self.elements.append((tag, tuple(sorted(name for name, _ in attrs))))
        self.open.append(told.get("data-command") or told.get("id") or told.get("class") or tag)
        if tag in ("meta", "input"):
            self.open.pop()

    def handle_endtag(self, tag: str) -> None:
        self.open.pop()

    def handle_data(self, data: str) -> None:
        if self.open:
            self.texts[self.open[-1]] = self.texts.get(self.open[-1], "") + data


class Folder(unittest.TestCase):
    def setUp(self) -> None:
        self.folder = temporary_folder(self.addCleanup)
        self.fake = Fake(self.folder)
        self.file = self.keep("radio.is95", file_of(signal()))
        self.out = self.at("page.html")

    def at(self, name: str) -> str:
        return os.path.join(self.folder, name)

    def keep(self, name: str, data: bytes) -> str:
        with open(self.at(name), "wb") as file:
            file.write(data)
        return self.at(name)

    def ran(self, *words: str) -> tuple[int, str]:
        """Runs the tool within this process, which compresses Plotly once; returns its status and its standard error.
        """
        wrote, said = io.StringIO(), io.StringIO()
        with contextlib.redirect_stdout(wrote), contextlib.redirect_stderr(said):
            status = status_of("report", list(words))
        self.assertEqual(wrote.getvalue(), "")
        return status, said.getvalue()

    def page(self, *words: str, status: int = 0, file: str = "") -> str:
        """Returns the page of a run that ends so, and writes nothing on standard error."""
        ended = self.ran(file or self.file, "--out", self.out, "--program", self.fake.path, *words)
        self.assertEqual(ended, (status, ""))
        with open(self.out, encoding="utf-8") as made:
            return made.read()

    def assert_holds(self, page: str, text: str) -> None:
        """Reports the missing text, and not the whole page."""
        self.assertTrue(text in page, text)

    def plots(self, page: str) -> dict[str, Any]:
        told: dict[str, Any] = json.loads(Parsed(page).texts["plots"])
        return told


class Pages(Folder):
    def test_what_runs(self) -> None:
        self.page("--span", "2048", "--esn=8badf00d", "--row", "10", "--fingers", "3", "--workers", "2")
        runs = [
            "follow --span=2048 --workers=2 --fingers=3 --esn=8badf00d --row=10",
            "find --span=2048 --workers=2",
            # The pilot of offset 0 lies 64 chips for each of the 300 steps above the best one, modulo 32,768.
            f"survey --span=2048 --workers=2 --base={(PHASE + 64 * 300) % 32_768} --width=31",
        ]
        self.assertEqual(self.fake.words(), runs)

    def test_it_stands_alone(self) -> None:
        page = self.page()
        self.assertLess(len(page.encode()), MOST_BYTES)
        told = re.search(r'Content-Security-Policy" content="(.*?)"', page)
        assert told
        policy = html.unescape(told[1])
        scripts, others = "script-src 'sha256-[^']+' 'sha256-[^']+'", "style-src 'unsafe-inline'; img-src data: blob:"
        self.assertRegex(policy, f"^default-src 'none'; {scripts}; {others}$")
        names = {name for _, names in Parsed(page).elements for name in names}
        self.assertNotIn("src", names)
        self.assertEqual(set(re.findall(r'href="(.)', page)), {"#"})
        status, wrote, said = run_tool("report", self.file, "--out", self.out, "--program", self.fake.path)
        self.assertEqual((status, wrote, said), (0, b"", ""))
        with open(self.out, encoding="utf-8") as file:
            self.assertTrue(file.read() == page, "another run makes another page")

    def test_lines_and_plots(self) -> None:
        page = self.page()
        texts, plots = Parsed(page).texts, self.plots(page)
        self.assertEqual(texts["follow"].lstrip("\n"), "\n".join(FOLLOWED))
        self.assertEqual(len(texts["survey"].split()), 4 * 512)
        self.assertEqual(list(plots), ["correlation", "constellation", "survey", "timeline", "domain"])
        self.assertEqual(len(plots["correlation"]["data"][0]["x"]), 81)
        self.assertEqual(len(plots["survey"]["data"][0]["x"]), 512)
        marks = [place for trace in plots["timeline"]["data"] for place in trace.get("customdata", [])]
        self.assertEqual(sorted(marks), list(range(1, len(FOLLOWED))))
        power = next(trace for trace in plots["timeline"]["data"] if trace["name"] == "power control")
        self.assertEqual((power["y"][13], power["y"][15], power["y"][31]), (14, 12, -4))

    def test_a_long_run_is_small(self) -> None:
        """27 seconds of full channels: 1,365 frames, and a paging message each 10 ms."""
        lines = [FOLLOWED[0], FOLLOWED[1]]
        for at in range(700_000, 33_554_432, 24_576):
            lines += [re.sub(r"at=\d+", f"at={at}", FOLLOWED[line]) for line in (2, 3, 4)]
        self.fake.tell("follow", lines)
        page = self.page()
        self.assertLess(len(page.encode()), MOST_BYTES)
        self.assertEqual(len(Parsed(page).texts["follow"].split("\n")), len(lines) + 1)

    def test_what_is_told(self) -> None:
        page = self.page()
        for text in (
            "0.10 seconds of the IS-95 forward link, at about 2017-01-01 00:00:00 UTC",
            "120,000</td>",
            "-122.419375°",
            "PILOT_INC is 4",
            # 168 % 5 - 2 chips early, and an energy of 1 / 8.388608 of a pilot that has 1 / 1.09 of all power.
            f"{-10 * math.log10(1.09 * 8.388608):.1f} dB in the first 2,048 samples (1.7 ms), -1 chips",
            "unknown",
            "no more than noise",
            "1931.25 MHz at 1.9 GHz",
            "frames 2400, 1 bad",
        ):
            self.assert_holds(page, text)
        self.assert_holds(page, "Everything was read, and follow ended with status 0.")


class Hostile(Folder):
    def test_bytes_of_every_value(self) -> None:
        """Output of the program, a file's name and a recording's notes are text in the page: no element is new."""
        strange = [MARKUP.encode(), EVERY_BYTE, b"paging at=1 " + EVERY_BYTE, b"sync at=1 " + MARKUP.encode()]
        for place in range(256):
            if place != 10:
                strange.append(FOLLOWED[4].encode()[:30] + bytes([place]) + FOLLOWED[4].encode()[31:])
        self.fake.tell("follow", [*FOLLOWED, *("x" for _ in strange)])
        plain = Parsed(self.page(file=self.keep("a.is95", file_of(signal()))))
        self.fake.tell("follow", "\n".join(FOLLOWED).encode() + b"\n" + b"\n".join(strange) + b"\n")
        hostile = Parsed(self.page(file=self.keep(MARKUP.replace("/", "\\") + "\x07\u202e.is95", file_of(signal()))))
        self.assertEqual(hostile.elements, plain.elements)
        shown = hostile.texts["follow"].lstrip("\n").split("\n")
        self.assertEqual(shown, [*FOLLOWED, *(gathering.escaped(line) for line in strange)])
        self.assertEqual(shown[len(FOLLOWED)], MARKUP)
        self.assertIn(MARKUP.replace("/", "\\"), hostile.texts["h1"])
        self.assertIn("\\x07\\u202e", hostile.texts["h1"])
        self.assertEqual(len(strange), 259)

    def test_a_name_that_is_no_text(self) -> None:
        path = os.path.join(os.fsencode(self.folder), b"\xff\xfe<b>.is95")
        with open(path, "wb") as file:
            file.write(file_of(signal()))
        self.assert_holds(self.page(file=os.fsdecode(path)), "\\xff\\xfe&lt;b&gt;.is95")

    def test_escapes(self) -> None:
        self.assertEqual(gathering.escaped(b"a\\b\x00<\xff"), "a\\x5cb\\x00<\\xff")

    def test_a_template_escapes_all_that_it_shows(self) -> None:
        filled = rendering.templates().from_string("<p title='{{ text }}'>{{ text }}{{ number }}{{ markup }}</p>")
        page = filled.render(text="<b>'\"&\n", number=3, markup=Markup("<br>"))
        shown = "&lt;b&gt;&#x27;&quot;&amp;\\n"
        self.assertEqual(page, f"<p title='{shown}'>{shown}3<br></p>")
        with self.assertRaises(UndefinedError):
            filled.render(text="")


class BadInput(Folder):
    def test_no_pilot_and_no_sync_message(self) -> None:
        draws = numpy.random.default_rng(3)
        noise = numpy.round(200 * (draws.normal(size=9_000) + 1j * draws.normal(size=9_000)))
        self.fake.tell("find", ["pilot phase=77 energy=3000000000"])
        self.fake.tell("survey", [f"survey pn={pilot} delta=0 energy={2_000_000_000 - pilot}" for pilot in range(512)])
        self.fake.tell("follow", ["pilot phase=77 energy=3000000000"], status=1, said="no sync message\n")
        page = self.page(status=1, file=self.keep("noise.is95", file_of(noise)))
        self.assert_holds(page, "No pilot stands out: the best phase has -")
        self.assert_holds(page, "No sync message with the long code")
        self.assertEqual(list(self.plots(page)), ["correlation", "survey"])
        self.assertEqual(self.fake.words()[-1], "survey --base=77 --width=31")

    def test_a_broken_file(self) -> None:
        for command in ("find", "survey", "follow"):
            lines = list(FOLLOWED[:3]) if command == "follow" else []
            self.fake.tell(command, lines, status=3, said="bad file: short at 400001\n")
        page = self.page(status=3, file=self.keep("cut.is95", file_of(signal())[:400_001]))
        self.assert_holds(page, "The file is broken (bad file: short at 400001)")
        self.assert_holds(page, "99,996 of 120,000")
        self.assertEqual(list(self.plots(page)), ["timeline"])

    def test_no_file_at_all(self) -> None:
        for command in ("find", "survey", "follow"):
            self.fake.tell(command, [], status=3, said="bad file: magic at 0\n")
        for data in (b"", b"RIFF", bytes(50_000)):
            page = self.page(status=3, file=self.keep("none.is95", data))
            self.assert_holds(page, "bad file: magic at 0")
            self.assertEqual(self.plots(page), {})

    def test_what_was_not_asked_for(self) -> None:
        """If the arguments of follow leave messages out, that is not a fault."""
        self.fake.tell("follow", [line for line in FOLLOWED if line.startswith("frame")])
        page = self.page("--messages", "0", "--pilots", "0")
        self.assert_holds(page, "Everything was read")
        self.assertEqual(len(self.plots(page)), 5)

    def test_other_endings(self) -> None:
        self.fake.tell("follow", list(FOLLOWED[:2]), status=6, said="out of memory\n")
        self.assert_holds(self.page(status=6), "follow ended with status 6 (out of memory)")

    def test_refusals(self) -> None:
        wrong: tuple[tuple[Any, ...], ...] = (
            ("No such file", 9, self.at("none.is95"), "--out", self.out),
            ("not a regular file", 9, self.folder, "--out", self.out),
            ("page.html: No such file", 9, self.file, "--out", self.at("none/page.html")),
            ("no program at /none", 9, self.file, "--out", self.out, "--program", "/none"),
            ("required: --out", 2, self.file),
            ("unrecognized arguments: --key=1", 2, self.file, "--out", self.out, "--key=1"),
            ("--import goes with a recording", 2, self.file, "--out", self.out, "--import=--skip 1"),
            ("No closing quotation", 2, self.file, "--out", self.out, "--type=cu8", "--import=--skip '1"),
        )
        for why, status, *words in wrong:
            program = [] if "--program" in words else ["--program", self.fake.path]
            ended, said = self.ran(*words, *program)
            self.assertEqual(ended, status, said)
            self.assertIn(why, said)
        self.fake.tell("follow", [], status=2, said="bad words\n")
        ended, said = self.ran(self.file, "--out", self.out, "--program", self.fake.path, "--row", "77")
        self.assertEqual(ended, 2)
        self.assertIn("not arguments of follow: --row=77", said)
        self.assertFalse(os.path.exists(self.out))
        self.assertEqual([name for name in os.listdir(self.folder) if name.startswith(".part-")], [])


class Lock:
    """The result of a lock, as the tests set it."""

    def __init__(self, remarks: list[str]) -> None:
        self.told = remarks

    def line(self) -> str:
        """The figures as name=value."""
        return FOUND

    def remarks(self) -> list[str]:
        """Returns what else a user should know."""
        return self.told


FOUND = (
    "carrier_hz=1999.6 drift=1.75 clock_ppm=4.989 phase=12345 ec_io_db=-10.01 paths=0.00:0.0 equaliser=no conjugate=no lost=0"
    " chips=120000 scale=111.101"
)


class Recordings(Folder):
    """A lock set by the tests replaces the real one."""

    def setUp(self) -> None:
        super().setUp()
        self.taken: list[argparse.Namespace] = []
        self.imports([], b"")

    def imports(self, remarks: list[str], data: bytes = b"", why: str = "") -> None:
        """Sets the import's further remarks and what it writes as the file, or why it refuses."""

        def take(options: argparse.Namespace, recording: object, look: object) -> Lock:
            self.taken.append(options)
            if why:
                raise Refused(why)
            with open(options.file, "wb") as out, open(self.file, "rb") as file:
                out.write(data or file.read())
            return Lock(remarks)

        replaced = mock.patch.object(import_capture, "take_by_lock", take)
        replaced.start()
        self.addCleanup(replaced.stop)

    def meta(self, **told: object) -> str:
        meta = {"global": {"core:datatype": "cu8", "core:sample_rate": 2_400_000, **told}, "captures": [{"core:frequency": 878490000}]}
        return self.keep("radio.sigmf-meta", json.dumps(meta).encode())

    def test_a_recording(self) -> None:
        meta = self.meta()
        self.imports(["3 I and Q values were clipped"])
        page = self.page("--fingers", "3", "--import=--skip 100 --search 3000", file=meta)
        options = self.taken[0]
        self.assertEqual((options.recording, options.fingers, options.skip, options.search), (meta, 3, 100, 3_000))
        self.assertFalse(os.path.exists(options.file))
        self.assert_holds(page, "--lock --fingers=3 --skip 100 --search 3000")
        for text in ("1999.6 Hz above", "4.989 ppm", "2,400,000 samples a second, cu8", "3 I and Q values were clipped", "878490000", "-10.01 dB"):
            self.assert_holds(page, text)
        self.assertEqual(len(self.plots(page)), 5)

    def test_raw_samples(self) -> None:
        raw = self.keep("radio.bin", b"raw")
        self.page("--type", "cu8", "--rate", "2400000", file=raw)
        options = self.taken[0]
        self.assertEqual((options.recording, options.type, options.rate), (raw, "cu8", 2_400_000))

    def test_one_that_cannot_be_imported(self) -> None:
        self.imports([], why="radio.bin: no pilot <b>")
        page = self.page(status=10, file=self.meta())
        self.assert_holds(page, "The recording can&#x27;t be imported: radio.bin: no pilot &lt;b&gt;.")
        self.assertEqual(self.plots(page), {})
        self.assertFalse(os.path.exists(f"{self.fake.path}.words"))

    def test_hostile_notes(self) -> None:
        """Names and texts of a recording's notes are shown as text, whatever they contain."""
        plain = Parsed(self.page(file=self.meta(**{"a": "b"})))
        every = "".join(map(chr, range(256)))
        hostile = Parsed(self.page(file=self.meta(**{MARKUP: MARKUP + every})))
        self.assertEqual(hostile.elements, plain.elements)
        self.assertIn(MARKUP, hostile.texts["td"])
        for told in (b"[]", b"{", b'{"global": 3, "captures": 4}', b'{"captures": {"a": 1}}', b"\xff", b"[" * 100_000):
            self.page(status=10, file=self.keep("strange.sigmf-meta", told))

    def test_the_markup_stays_as_it_is(self) -> None:
        """Apart from its scripts and its style, the page is a kept one that no template made, byte by byte."""
        page = self.page(file=self.meta(**{MARKUP: MARKUP + "".join(map(chr, range(256)))}))
        page = re.sub(r"(<(style|script)\b[^>]*>).*?(</\2>)", r"\1\3", page, flags=re.DOTALL)
        page = re.sub(r"sha256-[\w+/=]+", "sha256-", page)
        with open(os.path.join(ROOT, "tools", "tests", "report_page.html"), encoding="utf-8") as kept:
            self.assertEqual(page, kept.read())

    def test_wrong_arguments_of_the_import(self) -> None:
        """The import's own command line judges them, and there is no page."""
        raw = self.keep("radio.bin", b"raw")
        for why, *words in (
            ("give --type, unless", "--rate", "2400000"),
            ("give --rate, unless", "--type", "cu8"),
            ("argument --rate: not a number: 'x'", "--type", "cu8", "--rate", "x"),
            ("argument --type: invalid choice: 'cu9'", "--type", "cu9", "--rate", "2400000"),
            ("unrecognized arguments: --none", "--type", "cu8", "--rate", "2400000", "--import=--none"),
            ("--help makes no page", "--type", "cu8", "--rate", "2400000", "--import=--help"),
        ):
            with self.subTest(words):
                status, said = self.ran(raw, "--out", self.out, "--program", self.fake.path, *words)
                self.assertEqual((status, said.count("\n")), (2, 1), said)
                self.assertIn(why, said)
                self.assertFalse(os.path.exists(self.out))


@unittest.skipUnless(PROGRAM, NO_PROGRAM)
class WithTheProgram(Folder):
    def test_a_second_of_paging(self) -> None:
        _, made = run_program("make", data=example("second_of_paging.script"))
        _, lines = run_program("follow", data=made)
        self.fake.path = str(PROGRAM)
        page = self.page(file=self.keep("second.is95", made))
        self.assertEqual(Parsed(page).texts["follow"].lstrip("\n"), lines.decode().rstrip("\n"))
        marks = [place for trace in self.plots(page)["timeline"]["data"] for place in trace.get("customdata", [])]
        self.assertEqual(len(marks), lines.count(b"\n") - 1)
        symbols = self.plots(page)["constellation"]["data"][0]
        self.assertEqual({round(x, 3) for x in symbols["x"]}, {0.3, -0.3})

    def test_a_pilot_alone(self) -> None:
        self.fake.path = str(PROGRAM)
        page = self.page(status=1, file=os.path.join(ROOT, "examples", "pilot_in_noise.is95"))
        self.assert_holds(page, "follow")
        self.assertFalse("No pilot stands out" in page)
        self.assert_holds(page, "No sync message with the long code")


if __name__ == "__main__":
    unittest.main()
