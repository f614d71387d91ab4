"""The model of cdma_model/, against values that were worked out elsewhere, and against enumeration where possible."""

import io
import itertools
import os
import random
import subprocess
import unittest
from typing import Any

from tools.tests.helping import EXAMPLES, PYTHON, ROOT, needs, sample_file

needs("numpy")

import numpy as np  # noqa: E402
from numpy.typing import NDArray  # noqa: E402

from cdma_model import codes, coding, frames, lists, messages, script, search, sets, slots  # noqa: E402
from cdma_model.air import draws  # noqa: E402
from cdma_model.bits import Bits, bits_of_text, number, spelled, text_of_bits  # noqa: E402
from cdma_model.run import Outcome, run  # noqa: E402

DIGITS = [bit for octet in b"123456789" for bit in spelled(8, octet)]
ENCODED = [int(digit) for digit in "111011110110001011"]


def asked(words: str, data: bytes = b"") -> Outcome:
    """Runs the model."""
    return run(words.split(), io.BytesIO(data).read)


class Codes(unittest.TestCase):
    def test_pilot_codes(self) -> None:
        for lags, first in ((codes.I_LAGS, "1010100100111010"), (codes.Q_LAGS, "1001111010111010")):
            chips = codes.pilot_chips(lags)
            self.assertEqual("".join(map(str, chips[:16])), first)
            self.assertEqual((len(chips), chips[-15:]), (32_768, [0] * 15))
            self.assertEqual(sum(chips), 16_384)

    def test_long_code(self) -> None:
        self.assertEqual(codes.state_after(1 << 41, 1), 0x00A8E6F04EF)
        self.assertEqual(codes.state_after(1, 41), 0x20000000000)
        self.assertEqual(codes.state_after(1, (1 << 42) - 1), 1)
        self.assertEqual(codes.state_after(codes.state_before(0x123456789AB, 1_536), 1_536), 0x123456789AB)
        state, mask = 0x3FFFFFFFFFF, codes.traffic_mask(0xABCD)
        chips = [number([parity(codes.state_after(state, 64 * place) & mask)]) for place in range(20)]
        self.assertEqual(list(codes.scrambling_bits(state, mask, 20)), chips)

    def test_masks(self) -> None:
        self.assertEqual(codes.paging_mask(1, 511), 0x319A02001FF)
        found = [codes.traffic_mask(serial) for serial in (0, 1, 0x80000000)]
        self.assertEqual(found, [0x31800000000, 0x31880000000, 0x31840000000])

    def test_walsh_rows(self) -> None:
        self.assertEqual(list(codes.WALSH[32]), [1] * 32 + [-1] * 32)
        self.assertEqual([int(sign < 0) for sign in codes.WALSH[63][:8]], [0, 1, 1, 0, 1, 0, 0, 1])
        self.assertTrue(np.array_equal(codes.WALSH @ codes.WALSH.T, 64 * np.eye(64, dtype=int)))


def parity(value: int) -> int:
    return bin(value).count("1") % 2


class Coding(unittest.TestCase):
    def test_encoder(self) -> None:
        self.assertEqual(list(coding.code_symbols(0, [1] + [0] * 8)), ENCODED)

    def test_sent_orders(self) -> None:
        data, sync = coding.sent_order(6, 6), coding.sent_order(7, 1)
        self.assertEqual([data[place] for place in (0, 1, 5, 6, 383)], [0, 64, 320, 32, 383])
        self.assertEqual([sync[place] for place in (1, 2, 127)], [64, 32, 127])
        self.assertEqual((sorted(data), sorted(sync)), (list(range(384)), list(range(128))))

    def test_checks(self) -> None:
        found = [number(coding.check_bits(check, DIGITS)) for check in
                 (coding.QUALITY_8, coding.QUALITY_12, coding.MESSAGE_16, coding.MESSAGE_30)]  # fmt: skip
        self.assertEqual(found, [0xDA, 0xD4D, 0x29B1, 0x3B3CB540])
        self.assertEqual(number(coding.check_bits(coding.QUALITY_8, [0])), 0x65)
        self.assertEqual(number(coding.check_bits(coding.QUALITY_12, [0])), 0x0ED)
        found = [number(messages.message_check(check, True, DIGITS)) for check in (coding.MESSAGE_16, coding.MESSAGE_30)]
        self.assertEqual(found, [0xD64E, 0x04C34ABF])

    def test_rates(self) -> None:
        for rate in coding.RATE_SET_1 + coding.RATE_SET_2:
            sent = np.bincount(rate.order, minlength=2 * rate.bits())
            self.assertEqual((sent.sum(), len(sent)), (384, 2 * rate.bits()))
        self.assertEqual([rate.bits() for rate in coding.RATE_SET_2], [288, 144, 72, 36])


def scored(softs: NDArray[Any], start: int, bits: Bits) -> int:
    """Returns the score of a word, as defined in docs/LINK.md."""
    return int(np.sum(softs * (1 - 2 * coding.code_symbols(start, bits))))


def in_order(words: list[tuple[int, int, Bits]]) -> list[tuple[int, int, Bits]]:
    """Returns words by score, then as binary numbers read from the last bit to the first start bit."""
    return sorted(words, key=lambda word: (-word[0], (spelled(8, word[1]) + word[2])[::-1]))


class Words(unittest.TestCase):
    """All words are tried: with few bits, and with many equal soft values, so that there are ties."""

    def test_a_worked_word(self) -> None:
        softs = np.array([[1 - 2 * symbol for symbol in ENCODED], [0] * 18])
        scores, starts, bits = coding.best_codewords(softs, zero_ends=False)
        self.assertEqual((list(scores), list(starts)), ([18, 0], [0, 0]))
        self.assertEqual(bits.tolist(), [[1] + [0] * 8, [0] * 9])

    def test_the_first_of_all_words_of_any_ends(self) -> None:
        rng = random.Random(5)
        for _ in range(4):
            softs = np.array([rng.choice([-1, 0, 1]) for _ in range(8)])
            every = [(scored(softs, start, list(bits)), start, list(bits))
                     for start in range(256) for bits in itertools.product((0, 1), repeat=4)]  # fmt: skip
            first = in_order(every)[:3]
            scores, starts, bits = coding.best_codewords(softs[None, :], zero_ends=False)
            self.assertEqual((scores[0], starts[0], bits[0].tolist()), first[0])
            found = lists.first_codewords(3, softs, zero_ends=False)
            self.assertEqual(found, [(score, bits) for score, _, bits in first])

    def test_the_first_of_all_words_between_zeros(self) -> None:
        rng = random.Random(6)
        for _ in range(4):
            softs = np.array([rng.choice([-2, -1, 0, 1, 2]) for _ in range(28)])
            every = [(scored(softs, 0, [*bits, *[0] * 8]), 0, [*bits, *[0] * 8])
                     for bits in itertools.product((0, 1), repeat=6)]  # fmt: skip
            first = in_order(every)[:5]
            self.assertEqual(lists.first_codewords(5, softs, zero_ends=True), [(score, bits) for score, _, bits in first])
            scores, _, bits = coding.best_codewords(softs[None, :], zero_ends=True)
            self.assertEqual((scores[0], bits[0].tolist()), (first[0][0], first[0][2]))


    def test_sent_words_are_the_first(self) -> None:
        """Soft values with the signs of a word's symbols, of any size: the word's score is the sum of their sizes."""
        rng = random.Random(8)
        for bits, zero_ends in ((576, False), (192, True)):
            start = 0 if zero_ends else 0o266
            sent = [rng.randrange(2) for _ in range(bits - 8)] + ([0] * 8 if zero_ends else [1, 0] * 4)
            sizes = np.array([rng.randrange(1, 2_048) for _ in range(2 * bits)])
            softs = sizes * (1 - 2 * coding.code_symbols(start, sent))
            scores, starts, words = coding.best_codewords(softs[None, :], zero_ends)
            self.assertEqual((scores[0], starts[0], words[0].tolist()), (sizes.sum(), start, sent))
            self.assertEqual(lists.first_codewords(2, softs, zero_ends)[0], (sizes.sum(), sent))

    def test_nothing_heard(self) -> None:
        """Of nine bits with eight zeros at the end there are two words, which both score 0: the lesser comes first."""
        softs = np.zeros(18, np.int64)
        scores, _, bits = coding.best_codewords(softs[None, :], zero_ends=True)
        self.assertEqual((scores[0], bits[0].tolist()), (0, [0] * 9))
        self.assertEqual(lists.first_codewords(2, softs, zero_ends=True), [(0, [0] * 9), (0, [1] + [0] * 8)])


class Messages(unittest.TestCase):
    def test_a_sync_capsule(self) -> None:
        message = {"prev": 3, "min": 1, "sid": 1, "nid": 2, "pn": 3, "lc": 1 << 41, "time": 5, "lp": 13, "ltm": 0,
                   "daylt": 0, "prat": 0, "rest": [0, 0, 0]}  # fmt: skip
        capsule = messages.capsule_of(messages.sync_body(message), False)
        octets = bytes(number(capsule[at : at + 8]) for at in range(0, len(capsule), 8))
        self.assertEqual(octets[:21].hex(" "), "19 01 03 01 00 02 00 04 03 80 00 00 00 00 00 00 00 00 14 34 00")
        self.assertEqual(len(octets), 25)
        self.assertEqual(messages.sync_message(messages.body_of(capsule, False) or []), message)
        self.assertIsNone(messages.body_of(capsule[:-1] + [1 - capsule[-1]], False))

    def test_half_frames(self) -> None:
        """A capsule of 94 octets leaves only the 8 bits of the next one's length; one of 11 leaves 7."""
        pages = [messages.capsule_of([1] * (8 * octets - 38), False) for octets in (94, 6, 11)]
        stream = pages[0] + pages[1] + [0] * (-len(pages[0] + pages[1]) % 95)
        halves = [[int(at == 0)] + stream[at : at + 95] for at in range(0, len(stream), 95)]
        halves.append([1] + pages[2] + [0] * 7)
        held, found = None, []
        for half in halves:
            held, ended = messages.take_half_frame(held, half)
            found += ended
        self.assertEqual(found, pages)
        self.assertIsNone(held)

    def test_directions(self) -> None:
        body = bits_of_text("56:11007101ff0a00") or []
        found = messages.traffic_message(body) or {}
        self.assertEqual((found["what"], found["use"], found["action"]), ("handoff", 1, 49))
        self.assertEqual((found["records"], found["extra"], text_of_bits(found["rest"])), ([(511, 20, 0)], [], "7:00"))
        self.assertIsNone(messages.traffic_message(body[:16]))
        hard = body[:27] + [1] + body[28:]
        self.assertEqual((messages.traffic_message(hard) or {})["what"], "other")


class Searches(unittest.TestCase):
    def test_worked_rows(self) -> None:
        zeros = sample_file([(0, 0)] * 2_048)
        self.assertEqual(asked("find", zeros).text(), b"pilot phase=0 energy=0\n")
        last = [(int(100 * point.real), int(100 * point.imag)) for point in codes.points(32_767, 2_048)]
        self.assertEqual(asked("find", sample_file(last)).text(), b"pilot phase=32767 energy=167772160000\n")
        two = sample_file([(1, 0), (1, 0)] + [(0, 0)] * 62)
        self.assertEqual(asked("find --span 64", two).text(), b"pilot phase=5 energy=8\n")

    def test_the_greatest_energies(self) -> None:
        lowest = sample_file([(-32_768, -32_768)] * 32_768)
        self.assertEqual(asked("find --span 32768", lowest).text(), b"pilot phase=0 energy=0\n")
        loud = sample_file([(int(32_767 * point.real), int(32_767 * point.imag)) for point in codes.POINTS])
        self.assertEqual(asked("find --span 32768", loud).text(), b"pilot phase=0 energy=4611404547745644544\n")

    def test_the_transform_is_the_sum(self) -> None:
        rng = np.random.default_rng(7)
        samples = (rng.integers(-32_768, 32_768, 300) + 1j * rng.integers(-32_768, 32_768, 300)).astype(np.complex64)
        found = search.energies(samples)
        for phase in (0, 1, 300, 32_500, 32_767):
            total = codes.despread(samples, phase).sum()
            self.assertEqual(found[phase], int(total.real) ** 2 + int(total.imag) ** 2)
        energy, delta = search.strength(np.resize(samples, 512), 32_760, 20)
        measured = search.energies(np.resize(samples, 512))[np.arange(32_750, 32_771) % 32_768]
        self.assertEqual((energy, delta), (measured.max(), measured.argmax() - 10))

    def test_noise(self) -> None:
        self.assertEqual(list(draws(95, 300, 6)), [-137, 238, 220, -190, 119, 93])
        self.assertEqual(list(draws(1_995, 200, 6)), [-197, -107, 125, 6, 194, -78])


class PilotSets(unittest.TestCase):
    def moved(self, energy: int, power: int, t_drop: int) -> int | None:
        kept = sets.Sets([sets.Active(5, 10, 0)])
        kept.thresholds["tdrop"] = t_drop
        sets.move(kept, {5: energy}, power, 1, [])
        return kept.active[0].timer

    def test_the_bound_of_strength(self) -> None:
        self.assertEqual([self.moved(energy, 1_024, 0) for energy in (1_048_576, 1_048_575)], [None, 1])
        self.assertEqual(self.moved(0, 0, 0), 1)

    def test_ratios(self) -> None:
        found = [sets.RATIOS[k] for k in (0, 1, 20, 28, 32, 63)]
        self.assertEqual(found, [1_000_000, 891_251, 100_000, 39_811, 25_119, 708])

    def test_directions(self) -> None:
        records: dict[str, Any] = {"use": 0, "action": 0, "search": {}}
        for refused in ([(pilot, 9, 0) for pilot in range(7)], [(5, 32, 0)], [(5, 9, 0), (5, 10, 0)], [(5, 64, 0)]):
            kept = sets.Sets([sets.Active(5, 10, 0)])
            sets.take_direction(kept, records | {"records": refused}, 8)
            self.assertIsNone(kept.waiting)
        kept = sets.Sets([sets.Active(5, 10, 0)])
        sets.take_direction(kept, records | {"use": 1, "action": 8, "records": [(6, 9, 0), (5, 10, 1)]}, 8)
        sets.hand_off(kept, 8)
        self.assertEqual(kept.shown(), ([(6, 9, 0), (5, 10, 0)], []))


class Runs(unittest.TestCase):
    def test_bad_words(self) -> None:
        for words in ("", "find --span 63", "find --span 64 --span 64", "find --", "follow --esn 0000abcd",
                      "follow --esn 0000abcd --row 32", "find --help", "list --esn 0000abcd --row 3", "make --bits 9",
                      "follow --esn 0000abcd --row 1", "follow --offset 3", "trial"):  # fmt: skip
            with self.subTest(words):
                self.assertEqual(asked(words)[::2], (2, "bad words"))
        self.assertEqual(asked("find --span=0064", sample_file([(0, 0)] * 64)).text(), b"pilot phase=0 energy=0\n")

    def test_bad_files(self) -> None:
        good = sample_file([(0, 0)] * 2_048)
        wanted = {
            good[:15]: "short at 15",
            good[:8_206]: "short at 8206",
            good + b"\0": "extra at 8208",
            b"IS96" + good[4:]: "magic at 0",
            good[:5] + b"\3" + good[6:]: "version at 4",
            good[:7] + b"\4" + good[8:]: "flags at 6",
            sample_file([(0, 0)] * 2_047): "too few at 8",
        }
        for data, fault in wanted.items():
            found = asked("find", data)
            self.assertEqual(found[::2], (3, f"bad file: {fault}"))
            self.assertEqual(found.text(), b"pilot phase=0 energy=0\n" if "extra" in fault else b"")

    def test_bad_scripts(self) -> None:
        with open(os.path.join(EXAMPLES, "second_of_paging.script"), encoding="ascii") as file:
            text = file.read()
        row = "traffic row=1 esn=0000abcd offset=0 gain=40\nframe 1200 16:0000 0000000000000000\n"
        wanted = {
            text.replace("re=0", "re=32767"): "too loud 6226300",
            text.replace("channel=1 gain=60", "channel=1 gain=0"): "gain 1",
            text + row: "walsh 1",
            text.replace("samples=1228800", "samples=33554433"): "too long 33554433",
            "": "line 1",
            text[:-1]: "line 6",
            text.replace("prat=0", "prat=2"): "line 5",
            text.replace("34:04ff8046c0", "50:05000000000000") + "page next 34:04ff8046c0\n": "line 7",
            " " * 1_048_577: "too big",
        }
        for data, fault in wanted.items():
            self.assertEqual(asked("make", data.encode())[::2], (8, f"bad script: {fault}"))

    def test_a_second_of_a_paging_channel(self) -> None:
        with open(os.path.join(EXAMPLES, "second_of_paging.script"), "rb") as file:
            made = asked("make", file.read()).text()
        found = asked("follow", made)
        lines = found.text().decode().splitlines()
        self.assertEqual((found.status, lines[0]), (0, "pilot phase=64 energy=1509949440000"))
        sync = [line for line in lines if line.startswith("sync")]
        self.assertEqual([line.split()[1] for line in sync], ["at=294848", "at=589760", "at=884672", "at=1179584"])
        self.assertEqual([line.split()[8] for line in sync], ["time=1007", "time=1010", "time=1013", "time=1016"])
        paging = [line for line in lines if line.startswith("paging")]
        places = [at for at in range(737_280, 1_228_800, 24_576) for _ in range(2)] + [1_228_800] * 4
        self.assertEqual(paging, [f"paging at={at} channels pn=511 seq=0 freqs=283 rest=0:" for at in places])

    def test_the_first_numbers_of_a_trial(self) -> None:
        self.assertIn("cell pn=382 ", script.trial_script(0)[0])

    def test_slots(self) -> None:
        """Each time has a key that monitors it, and a key monitors one slot of each cycle."""
        self.assertTrue(all(0 <= slots.slot_of(key) < 2_048 for key in range(0, 1 << 32, 99_999_989)))
        heard = [time for time in range(2_048) if slots.is_monitored(0x12345678, 7, time)]
        self.assertEqual(heard, [slots.slot_of(0x12345678)])
        self.assertEqual(sum(slots.is_monitored(0x12345678, 2, time) for time in range(128)), 2)

    def test_the_command_line(self) -> None:
        ran = subprocess.run([PYTHON, "-B", "-m", "model", "find"], cwd=ROOT, input=b"", capture_output=True)
        self.assertEqual((ran.returncode, ran.stdout, ran.stderr), (3, b"", b"bad file: short at 0\n"))

    def test_no_more_lines_than_can_be_read(self) -> None:
        folder = os.path.join(ROOT, "cdma_model")
        count = 0
        for name in os.listdir(folder):
            if name.endswith(".py"):
                with open(os.path.join(folder, name), encoding="utf-8") as file:
                    count += len(file.readlines())
        self.assertLessEqual(count, 2_600)


class Power(unittest.TestCase):
    def test_commands(self) -> None:
        softs = np.zeros(384, np.int64)
        places = np.arange(32)
        softs[:4] = [5, -4, -5, 4]
        self.assertEqual(frames.commands([softs], places), "01" + "1" * 14)
        self.assertEqual(frames.commands([softs, -softs], places), "1" * 16)
