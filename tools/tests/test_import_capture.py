"""tools/import_capture on recordings that the tests make: the output bit by bit, and each error."""

import hashlib
import json
import os
import struct
import unittest
from collections.abc import Iterable, Sequence

from cdma_tools import __version__
from tools.tests.helping import (
    NO_PROGRAM,
    PROGRAM,
    example,
    needs,
    read_file,
    run_inside,
    run_program,
    run_tool,
    sample_file,
    taken_apart,
    temporary_folder,
)

needs("numpy", "scipy")

import numpy  # noqa: E402
from numpy.typing import NDArray  # noqa: E402
from scipy.signal import resample_poly  # noqa: E402

Sample = tuple[int, int]
Taken = tuple[int, int, list[Sample]]
CHIP_RATE = 1_228_800
SIXTEEN = [(0, 1), (-1, 255), (256, -256), (32_767, -32_768), (1_234, -4_321)]
EIGHT = [(0, 1), (-1, 127), (-128, 64), (-64, 2), (99, -99)]


def parts_of(samples: Iterable[Sample]) -> list[int]:
    """Returns I and Q of each sample in a row."""
    return [part for sample in samples for part in sample]


def recorded(samples: Iterable[Sample], kind: str) -> bytes:
    """Returns the bytes of a recording of whole samples."""
    parts = parts_of(samples)
    if kind == "cu8":
        return bytes(part + 128 for part in parts)
    form = {"ci16_le": "<%dh", "ci16_be": ">%dh", "ci8": "%db", "cf32_le": "<%df"}[kind]
    return struct.pack(form % len(parts), *parts)


class Imports(unittest.TestCase):
    def setUp(self) -> None:
        self.folder = temporary_folder(self.addCleanup)
        self.out = self.at("out.is95")

    def at(self, name: str) -> str:
        """Returns the path of a file in the test's folder."""
        return os.path.join(self.folder, name)

    def keep(self, name: str, data: bytes) -> str:
        """Writes a file into the test's folder, and returns its path."""
        with open(self.at(name), "wb") as file:
            file.write(data)
        return self.at(name)

    def taken(self, data: bytes, kind: str, *words: object, rate: int | float | str = CHIP_RATE) -> Taken:
        """Returns the version, the flags and the samples of the file made from a recording."""
        path = self.keep("in.raw", data)
        status, wrote, said = run_tool("import_capture", "--type", kind, "--rate", rate, *words, path, self.out)
        self.assertEqual((status, wrote), (0, b""), said)
        self.assertEqual(sorted(os.listdir(self.folder)), ["in.raw", "out.is95"])
        self.said = said
        return read_file(self.out)

    def refused(self, why: str, *words: object, status: int = 1) -> None:
        """Asserts that a run ends with this reason, and writes nothing."""
        ended, wrote, said = run_tool("import_capture", *words)
        self.assertEqual((ended, wrote), (status, b""), said)
        self.assertRegex(said, why)
        self.assertNotIn("Traceback", said)
        self.assertFalse(os.path.exists(self.out))
        self.assertEqual([name for name in os.listdir(self.folder) if name.startswith(".part-")], [])


class WholeSamples(Imports):
    def test_sixteen_bits_as_they_are(self) -> None:
        for kind in ("ci16_le", "ci16_be"):
            self.assertEqual(self.taken(recorded(SIXTEEN, kind), kind), (1, 0, SIXTEEN))
            self.assertEqual(self.said, "5 chips, scale 1, greatest part 32768 of 32767\n")

    def test_the_bytes_of_a_file(self) -> None:
        self.taken(bytes([0xD2, 0x04, 0x1F, 0xEF]), "ci16_le")
        with open(self.out, "rb") as file:
            self.assertEqual(file.read(), b"IS95" + bytes([0, 1, 0, 0, 0, 0, 0, 0, 0, 0, 0, 1, 0x04, 0xD2, 0xEF, 0x1F]))
        self.taken(bytes([5, 0xFB]), "ci8", "--format", 2, "--complement-30")
        with open(self.out, "rb") as file:
            self.assertEqual(file.read(), b"IS95" + bytes([0, 2, 0, 1, 0, 0, 0, 0, 0, 0, 0, 1, 5, 0xFB]))

    def test_eight_bits_in_both_versions(self) -> None:
        for kind in ("ci8", "cu8"):
            for version in (1, 2):
                self.assertEqual(self.taken(recorded(EIGHT, kind), kind, "--format", version), (version, 0, EIGHT))

    def test_the_old_word_for_the_format(self) -> None:
        """Earlier versions called it --version, which without a number now prints the version of the tool."""
        for words in (("--version", 2), ("--version=2",)):
            with self.subTest(words):
                self.assertEqual(self.taken(recorded(EIGHT, "ci8"), "ci8", *words), (2, 0, EIGHT))
        self.assertEqual(run_inside("import_capture", "--version"), (0, f"import_capture {__version__}\n".encode(), ""))
        _, text, _ = run_inside("import_capture", "--help")
        self.assertIn(b"--format {1,2}", text)
        self.assertNotIn(b"--version N", text)

    def test_unsigned_zero_is_128(self) -> None:
        self.assertEqual(self.taken(bytes([128, 127, 0, 255]), "cu8")[2], [(0, -1), (-128, 127)])

    def test_flags(self) -> None:
        data = recorded(EIGHT, "ci8")
        self.assertEqual(self.taken(data, "ci8", "--complement-30")[1], 1)
        self.assertEqual(self.taken(data, "ci8", "--complement-16")[1], 2)
        self.assertEqual(self.taken(data, "ci8", "--complement-16", "--complement-30")[1], 3)

    def test_scale_rounds_to_the_nearest_even(self) -> None:
        taken = self.taken(recorded([(1, 3), (-1, -3), (5, 2)], "ci16_le"), "ci16_le", "--scale", "0.5")
        self.assertEqual(taken[2], [(0, 2), (0, -2), (2, 1)])

    def test_fit(self) -> None:
        taken = self.taken(recorded([(1_000, -500), (0, 250)], "ci16_le"), "ci16_le", "--scale", "fit", "--format", 2)
        self.assertEqual(taken[2], [(127, -64), (0, 32)])
        taken = self.taken(recorded([(-10, 5)], "ci8"), "ci8", "--scale", "fit")
        self.assertEqual(taken[2], [(-32_767, 16_384)])
        self.assertEqual(self.taken(recorded([(0, 0)], "ci8"), "ci8", "--scale", "fit")[2], [(0, 0)])

    def test_skip_and_count(self) -> None:
        data = recorded(SIXTEEN, "ci16_le")
        self.assertEqual(self.taken(data, "ci16_le", "--skip", 1, "--count", 3)[2], SIXTEEN[1:4])
        self.assertEqual(self.taken(data, "ci16_le", "--skip", 4, "--count", 9)[2], SIXTEEN[4:])

    def test_standard_output(self) -> None:
        path = self.keep("in.raw", recorded(SIXTEEN, "ci16_be"))
        status, wrote, _ = run_tool("import_capture", "--type", "ci16_be", "--rate", CHIP_RATE, path, "-")
        self.assertEqual((status, taken_apart(wrote)), (0, (1, 0, SIXTEEN)))


class Multiples(Imports):
    def setUp(self) -> None:
        super().setUp()
        self.samples = [(k * k - 40, 3 * k - 20) for k in range(17)]
        self.data = recorded(self.samples, "ci16_le")

    def test_one_in_so_many(self) -> None:
        for multiple in (2, 3, 4):
            for offset in range(multiple):
                taken = self.taken(self.data, "ci16_le", "--offset", offset, rate=multiple * CHIP_RATE)
                self.assertEqual(taken[2], self.samples[offset::multiple])
        self.assertEqual(self.taken(self.data, "ci16_le", rate=4 * CHIP_RATE)[2], self.samples[::4])

    def test_sums(self) -> None:
        for multiple in (2, 4):
            for offset in range(multiple):
                taken = self.taken(self.data, "ci16_le", "--sum", "--offset", offset, rate=multiple * CHIP_RATE)
                count = (len(self.samples) - offset) // multiple
                sums = [
                    tuple(sum(self.samples[offset + multiple * chip + k][part] for k in range(multiple)) for part in (0, 1))
                    for chip in range(count)
                ]
                self.assertEqual(taken[2], sums)

    def test_a_sum_that_does_not_fit(self) -> None:
        path = self.keep("in.raw", recorded([(30_000, 0), (2_767, 1), (30_000, 0), (2_768, -1)], "ci16_le"))
        words = ["--type", "ci16_le", "--rate", 2 * CHIP_RATE, "--sum", path, self.out]
        self.refused(r"chip 1 would be \(32768, -1\), but version 1 holds -32768 to 32767", *words)

    def test_count_with_a_multiple(self) -> None:
        taken = self.taken(self.data, "ci16_le", "--offset", 1, "--count", 2, "--skip", 1, rate=3 * CHIP_RATE)
        self.assertEqual(taken[2], [self.samples[2], self.samples[5]])


class FloatingPoint(Imports):
    def test_default_scale(self) -> None:
        data = struct.pack("<6f", 0.5, -0.25, 0.125, 0.0, -0.5, 0.25)
        self.assertEqual(self.taken(data, "cf32_le")[2], [(32_767, -16_384), (8_192, 0), (-32_767, 16_384)])
        self.assertEqual(self.taken(data, "cf32_le", "--format", 2)[2], [(127, -64), (32, 0), (-127, 64)])

    def test_scale(self) -> None:
        data = struct.pack("<4f", 1.0, -2.0, 0.24, 0.26)
        self.assertEqual(self.taken(data, "cf32_le", "--scale", "10")[2], [(10, -20), (2, 3)])

    def test_zeros(self) -> None:
        self.assertEqual(self.taken(bytes(16), "cf32_le")[2], [(0, 0), (0, 0)])

    def test_a_scale_that_is_too_great(self) -> None:
        path = self.keep("in.raw", struct.pack("<4f", 0.0, 0.0, 0.5, -4.0))
        words = ["--type", "cf32_le", "--rate", CHIP_RATE, "--scale", "10000", path, self.out]
        self.refused(r"chip 1 would be \(5000, -40000\).*at most 8191.75, or --scale fit", *words)

    def test_what_is_not_finite(self) -> None:
        for value in (float("nan"), float("inf"), -float("inf")):
            path = self.keep("in.raw", struct.pack("<4f", 0.0, 0.0, 1.0, value))
            self.refused("sample 1 isn't finite", "--type", "cf32_le", "--rate", CHIP_RATE, path, self.out)


class OtherRates(Imports):
    def test_resampled_as_scipy_does(self) -> None:
        draw = numpy.random.default_rng(95)
        parts = draw.integers(-2_000, 2_000, 2 * 2_000)
        rates: tuple[tuple[int | str, int, int], ...] = ((2_048_000, 3, 5), (2_000_000, 384, 625), ("1843200", 2, 3))
        for rate, up, down in rates:
            taken = self.taken(parts.astype("<i2").tobytes(), "ci16_le", rate=rate)
            self.check_resampled(taken, parts, up, down)

    def check_resampled(self, taken: Taken, parts: NDArray[numpy.int64], up: int, down: int) -> None:
        """Checks that the samples are those that scipy makes from the parts, at the scale that fits."""
        both = [resample_poly(parts[k::2].astype(float), up, down) for k in (0, 1)]
        scale = 32_767 / max(abs(branch).max() for branch in both)
        wanted = [numpy.rint(scale * branch).astype(int).tolist() for branch in both]
        self.assertEqual(taken[2], list(zip(*wanted)))

    def test_the_first_chips_do_not_hang_on_the_rest(self) -> None:
        draw = numpy.random.default_rng(96)
        data = draw.integers(-2_000, 2_000, 2 * 4_000).astype("<i2").tobytes()
        whole = self.taken(data, "ci16_le", "--scale", "2", rate=2_048_000)[2]
        first = self.taken(data, "ci16_le", "--scale", "2", "--count", 500, rate=2_048_000)[2]
        self.assertEqual(first, whole[:500])


class Turned(Imports):
    def test_a_quarter_of_the_rate(self) -> None:
        data = recorded([(100, 0)] * 5, "ci16_le")
        taken = self.taken(data, "ci16_le", "--shift", CHIP_RATE // 4, "--scale", "1")
        self.assertEqual(taken[2], [(100, 0), (0, -100), (-100, 0), (0, 100), (100, 0)])
        taken = self.taken(data, "ci16_le", f"--shift={-CHIP_RATE // 4}", "--scale", "1")
        self.assertEqual(taken[2], [(100, 0), (0, 100), (-100, 0), (0, -100), (100, 0)])

    def test_a_carrier_is_brought_to_zero(self) -> None:
        at = numpy.arange(4_000)
        wave = 0.5 * numpy.exp(2j * numpy.pi * 12_345.0 / (2 * CHIP_RATE) * at)
        data = numpy.stack([wave.real, wave.imag], axis=1).astype("<f4").tobytes()
        taken = self.taken(data, "cf32_le", "--shift", "12345", "--scale", "2000", rate=2 * CHIP_RATE)
        self.assertEqual(set(taken[2]), {(1_000, 0)})

    def test_no_turn_leaves_whole_samples(self) -> None:
        self.assertEqual(self.taken(recorded(SIXTEEN, "ci16_le"), "ci16_le", "--shift", "0")[2], SIXTEEN)


# Captures between which the radio was retuned.
SEVERAL: list[dict[str, object]] = [
    {"core:sample_start": 0, "core:frequency": 878_490_000},
    {"core:sample_start": 2, "core:frequency": 881_520_000},
]


class SigMF(Imports):
    def meta(
        self, fields: dict[str, object], captures: Sequence[dict[str, object]] = (), name: str = "radio"
    ) -> str:
        """Writes the metadata of a recording, and returns their path."""
        path = self.at(name + ".sigmf-meta")
        with open(path, "w") as file:
            json.dump({"global": fields, "captures": list(captures), "annotations": []}, file)
        return path

    def test_each_type(self) -> None:
        for kind, samples in (("ci16_le", SIXTEEN), ("ci16_be", SIXTEEN), ("ci8", EIGHT), ("cu8", EIGHT)):
            data = recorded(samples, kind)
            self.keep("radio.sigmf-data", data)
            fields = {"core:datatype": kind, "core:sample_rate": 1_228_800.0, "core:num_channels": 1}
            path = self.meta({**fields, "core:sha512": hashlib.sha512(data).hexdigest()}, [{"core:sample_start": 0}])
            status, _, said = run_tool("import_capture", path, self.out)
            self.assertEqual(status, 0, said)
            self.assertEqual(read_file(self.out), (1, 0, samples))

    def test_a_dataset_by_name_and_a_rate_by_option(self) -> None:
        self.keep("kept.bin", recorded(EIGHT, "ci8"))
        path = self.meta({"core:datatype": "ci8", "core:dataset": "kept.bin"})
        status, _, said = run_tool("import_capture", "--rate", 2 * CHIP_RATE, path, self.out)
        self.assertEqual(status, 0, said)
        self.assertEqual(read_file(self.out)[2], EIGHT[::2])

    def test_what_is_refused(self) -> None:
        self.keep("radio.sigmf-data", recorded(EIGHT, "ci8"))
        good: dict[str, object] = {"core:datatype": "ci8", "core:sample_rate": CHIP_RATE}
        wrong: tuple[tuple[str, dict[str, object], Sequence[dict[str, object]]], ...] = (
            ("core:datatype is 'ri8', not one of ci16_le", {**good, "core:datatype": "ri8"}, ()),
            ("core:datatype is None", {"core:sample_rate": CHIP_RATE}, ()),
            ("2 channels", {**good, "core:num_channels": 2}, ()),
            ("no core:sample_rate; give --rate", {"core:datatype": "ci8"}, ()),
            ("core:sample_rate is 'fast'", {**good, "core:sample_rate": "fast"}, ()),
            ("core:sample_rate is 0", {**good, "core:sample_rate": 0}, ()),
            ("2 captures of several frequencies: give --capture N", good, SEVERAL),
            ("no samples in the part taken", good, [{"core:header_bytes": 16}]),
            ("no samples in the part taken", {**good, "core:trailing_bytes": 16}, ()),
            ("without samples", {**good, "core:metadata_only": True}, ()),
            ("core:dataset is not a file's name", {**good, "core:dataset": "../kept.bin"}, ()),
            ("its checksum isn't core:sha512", {**good, "core:sha512": "00"}, ()),
            ("lost.bin: No such file", {**good, "core:dataset": "lost.bin"}, ()),
        )
        for why, fields, captures in wrong:
            with self.subTest(why):
                self.refused(why, self.meta(fields, captures), self.out)
        path = self.meta(good)
        self.refused("--rate can't be given too", "--rate", CHIP_RATE, path, self.out)
        self.refused("--type can't be given with a .sigmf-meta", "--type", "ci8", path, self.out, status=2)
        self.refused("not JSON", self.keep("bad.sigmf-meta", b"{"), self.out)
        self.refused("no object 'global'", self.keep("bad.sigmf-meta", b"[]"), self.out)
        bad = self.keep("bad.sigmf-meta", b'{"global": {}, "captures": 1}')
        self.refused("'captures' is not a list", bad, self.out)
        self.refused("No such file", self.at("none.sigmf-meta"), self.out)


class Refusals(Imports):
    def test_recordings(self) -> None:
        path = self.keep("in.raw", recorded(SIXTEEN, "ci16_le"))
        chip_rate = ["--type", "ci16_le", "--rate", CHIP_RATE]
        for why, words in (
            ("fewer than the chip rate", ["--type", "ci16_le", "--rate", CHIP_RATE - 1, path]),
            ("not a ratio of small numbers", ["--type", "ci16_le", "--rate", CHIP_RATE + 1, path]),
            ("20 bytes are not a whole number of samples of 8 bytes", ["--type", "cf32_le", "--rate", CHIP_RATE, path]),
            ("no samples left", [*chip_rate, self.keep("empty.raw", b"")]),
            ("no samples left after --skip 5: it has 5", [*chip_rate, "--skip", 5, path]),
            ("--offset and --sum have no effect at the chip rate", [*chip_rate, "--sum", path]),
            ("--offset and --sum have no effect at the chip rate", [*chip_rate, "--offset", 1, path]),
            ("--offset and --sum need a multiple of the chip rate", ["--type", "ci8", "--rate", 2_048_000, "--offset", 0, path]),
            ("--offset is 2, but a chip has 2 samples: 0 to 1", ["--type", "ci8", "--rate", 2_457_600, "--offset", 2, path]),
            ("too few samples for one chip", ["--type", "ci16_le", "--rate", 8 * CHIP_RATE, "--sum", path]),
            ("No such file", [*chip_rate, self.at("none.raw")]),
            ("Is a directory|not a whole number of samples", [*chip_rate, self.folder]),
            (r"chip 1 would be \(-1, 255\), but version 2 holds -128 to 127", [*chip_rate, "--format", 2, path]),
        ):
            with self.subTest(why):
                self.refused(why, *words, self.out)

    def test_too_many_chips(self) -> None:
        path = self.at("long.raw")
        with open(path, "wb") as file:
            file.truncate(2 * 33_554_433)
        words = ["--type", "ci8", "--rate", CHIP_RATE, path, self.out]
        self.refused("33554433 chips, but a file of version 1 holds at most 33554432: give --count", *words)

    def test_words(self) -> None:
        path = self.keep("in.raw", recorded(SIXTEEN, "ci16_le"))
        wrong: tuple[tuple[str, list[object]], ...] = (
            ("give --type and --rate", [path]),
            ("give --rate, unless", ["--type", "ci8", path]),
            ("invalid choice", ["--type", "cf16_le", "--rate", CHIP_RATE, path]),
            ("--rate: not 1 to 10,000,000,000", ["--type", "ci8", "--rate", "0", path]),
            ("not a number", ["--type", "ci8", "--rate", "1/0", path]),
            ("not a number", ["--type", "ci8", "--rate", CHIP_RATE, "--shift", "far", path]),
            ("--scale: not 1e-12 to 1,000,000,000,000", ["--type", "ci8", "--rate", CHIP_RATE, "--scale", "0", path]),
            ("--scale: not a number: 'big'", ["--type", "ci8", "--rate", CHIP_RATE, "--scale", "big", path]),
            ("--skip: not 0 to 1,000,000,000,000,000", ["--type", "ci8", "--rate", CHIP_RATE, "--skip=-1", path]),
            ("--count: not 1 to", ["--type", "ci8", "--rate", CHIP_RATE, "--count", "0", path]),
            ("--format: invalid choice: 3", ["--type", "ci8", "--rate", CHIP_RATE, "--format", "3", path]),
            ("--format: invalid choice: 3", ["--type", "ci8", "--rate", CHIP_RATE, "--version", "3", path]),
        )
        for why, words in wrong:
            with self.subTest(why):
                self.refused(why, *words, self.out, status=2)
        self.refused("is a folder", "--type", "ci8", "--rate", CHIP_RATE, path, self.folder, status=2)

    def test_no_place_to_write(self) -> None:
        path = self.keep("in.raw", recorded(SIXTEEN, "ci16_le"))
        words = ["--type", "ci16_le", "--rate", CHIP_RATE, path, self.at("none/out.is95")]
        self.refused("No such file", *words)

    def test_an_older_file_stays_where_nothing_is_written(self) -> None:
        old = self.keep("old.is95", b"old")
        path = self.keep("in.raw", recorded(SIXTEEN, "ci16_le"))
        status, _, _ = run_tool("import_capture", "--type", "cf32_le", "--rate", CHIP_RATE, path, old)
        self.assertEqual(status, 1)
        with open(old, "rb") as file:
            self.assertEqual(file.read(), b"old")


def turned_into(samples: list[Sample], kind: str) -> bytes:
    """Returns the samples of 16 bits as a recording of a type, with as much of them as it can hold."""
    if kind in ("ci8", "cu8"):
        most = max(abs(part) for sample in samples for part in sample)
        samples = [(round(first * 127 / most), round(second * 127 / most)) for first, second in samples]
    if kind == "cf32_le":
        return struct.pack(f"<{2 * len(samples)}f", *(part / 32_768 for part in parts_of(samples)))
    return recorded(samples, kind)


class OfTheExample(Imports):
    def test_whole_samples_give_the_example_back(self) -> None:
        samples = taken_apart(example("pilot_in_noise.is95"))[2]
        for kind in ("ci16_le", "ci16_be"):
            self.taken(recorded(samples, kind), kind)
            with open(self.out, "rb") as file:
                self.assertEqual(file.read(), example("pilot_in_noise.is95"))
        self.taken(turned_into(samples, "cf32_le"), "cf32_le", "--scale", 32_768)
        with open(self.out, "rb") as file:
            self.assertEqual(file.read(), example("pilot_in_noise.is95"))

    @unittest.skipUnless(PROGRAM, NO_PROGRAM)
    def test_the_pilot_of_each_type_is_found(self) -> None:
        samples = taken_apart(example("pilot_in_noise.is95"))[2]
        for kind in ("ci16_le", "ci16_be", "ci8", "cu8", "cf32_le"):
            for words in ("", "--format 2 --scale fit"):
                self.taken(turned_into(samples, kind), kind, *words.split())
                with open(self.out, "rb") as file:
                    status, wrote = run_program("find", data=file.read())
                self.assertEqual(status, 0)
                self.assertRegex(wrote, rb"^pilot phase=12345 energy=\d+\n$")
                if not words and kind in ("ci16_le", "ci16_be"):
                    self.assertEqual(wrote, b"pilot phase=12345 energy=21272219170\n")

    @unittest.skipUnless(PROGRAM, NO_PROGRAM)
    def test_each_type_is_followed(self) -> None:
        status, made = run_program("make", data=example("second_of_paging.script"))
        self.assertEqual(status, 0)
        status, wanted = run_program("follow", data=made)
        self.assertEqual((status, wanted.count(b"\n")), (0, 49))
        samples = taken_apart(made)[2]
        for kind in ("ci16_le", "ci16_be", "ci8", "cu8", "cf32_le"):
            self.taken(turned_into(samples, kind), kind)
            with open(self.out, "rb") as file:
                status, wrote = run_program("follow", data=file.read())
            self.assertEqual(status, 0)
            self.assertEqual(wrote.split(b"\n")[1:], wanted.split(b"\n")[1:])

    @unittest.skipUnless(PROGRAM, NO_PROGRAM)
    def test_other_rates_are_followed(self) -> None:
        _, made = run_program("make", data=example("second_of_paging.script"))
        _, wanted = run_program("follow", data=made)
        parts = numpy.frombuffer(made[16:], dtype=">i2").reshape(-1, 2).astype(float)
        twice = numpy.repeat(parts, 2, axis=0).astype("<i2").tobytes()
        faster = numpy.stack([resample_poly(parts[:, k], 5, 3) for k in (0, 1)], axis=1).astype("<f4")
        for data, kind, words, rate in (
            (twice, "ci16_le", "--offset 1", 2 * CHIP_RATE),
            (twice, "ci16_le", "--sum", 2 * CHIP_RATE),
            (faster.tobytes(), "cf32_le", "", 2_048_000),
        ):
            self.taken(data, kind, *words.split(), rate=rate)
            with open(self.out, "rb") as file:
                status, wrote = run_program("follow", data=file.read())
            self.assertEqual(status, 0)
            self.assertEqual(wrote.split(b"\n")[1:], wanted.split(b"\n")[1:])


class OfTheHelpers(unittest.TestCase):
    def test_a_sample_file_is_taken_apart(self) -> None:
        for version, samples in ((1, SIXTEEN), (2, EIGHT)):
            self.assertEqual(taken_apart(sample_file(samples, version, 2)), (version, 2, samples))


if __name__ == "__main__":
    unittest.main()
