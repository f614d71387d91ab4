"""Samples of cells that the built program makes, against values worked out elsewhere from the standard's description
of each channel."""

import unittest

from tools.tests.helping import NO_PROGRAM, PROGRAM, run_program, taken_apart

# A cell without an offset, and one with the greatest offset and the latest time.
NEAR = "cell pn=0 time=1000 lc=20000000000 checks=2"
FAR = "cell pn=511 time=34359738368 lc=00000000001 checks=1"
PILOT = "pilot gain=100"
# Sync channels: with a message of 25 octets; with one of 27 octets, with a frequency, which announces paging channels
# of 4800 bits a second; and one that is almost too weak.
SHORT = "sync gain=30 prev=3 min=1 sid=1 nid=2 lp=13 ltm=0 daylt=0 prat=0 rest=3:00"
LONG = "sync gain=30 prev=3 min=1 sid=16569 nid=65535 lp=13 ltm=40 daylt=1 prat=1 freq=283 rest=8:b2"
FAINT = "sync gain=1 prev=3 min=1 sid=1 nid=2 lp=13 ltm=0 daylt=0 prat=0 rest=3:00"
PAGING = ["paging channel=1 gain=60", "page half 34:04ff8046c0"]

SYNC_SYMBOL = 256
SYNC_FRAME = 32_768
SYMBOL = 64
FRAME = 24_576
OFFSET = 1_536

# Frames of the near cell's sync channel by their numbers: of the first two sendings, and of one far after them.
SYNC_FRAMES = {
    2: "9b9ad31a579680cf",
    3: "4250b88eacfce0e2",
    11: "8cc8911801c195cc",
    12: "25c8181a5784aec0",
    1002: "9c10fdb2232cd340",
}
# The frames of one sending of the far cell, of which each is sent twice over, and one at the latest start.
SENDING = """
    5e2b21055179fe1c 6a33be84873ff704 1011001111011001 e288620ad30ec6a8 d6c05f751feaf376 0808880008880000
    0000000000000000 9be3edd085c81acf b35dbb19d5b9d793 587e32500338fb0a 1ee5a4f8b5fd0330
""".split()
LATE_FRAME = "4311116144524523"

# Traffic channels by the state of the long code, their lines, and the 384 symbols of frames by their numbers.
TRAFFIC = [
    ("20000000000", "traffic row=40 esn=0000abcd offset=0 gain=60", [
        "frame 9600 172:6eb96f6d68690b65aa73026f6b41c7ad3f68aa220650 0101101000110001",
    ], {
        0: "d804315468fee41bdd18a90487fe8c7e10a83663c0071a6e14d8cb30101b90cb11cc3ee128d5fcd7b42be04fa94cecbb",
        7: "c3a23d1330b17d0bc1d9d8479db08b74865af7f65d2311259e022fc3453508ff14a3fd0d31707443b8d3dd4653d1c723",
    }),
    ("0123456789a", "traffic row=40 esn=0000abcd offset=5 gain=60", [
        "frame 4800 80:e17e1018de3b90584cd9 0000111111110011",
    ], {
        0: "d9fc8f150afe001be33200c9733588cbe192b6fe985d5c0fc2b52619e2eceec37687f08f56814561413795bdd51c93e7",
    }),
    ("00000000001", "traffic row=40 esn=00000001 offset=15 gain=60", [
        "frame 2400 40:2af7520981 1000000000000001",
    ], {
        0: "5fa1faa22eaa7c83b4a1466c28c224313c3b1a4397316070d029208880226b251e307236ab0c0b3452cc4d424478da3d",
        3: "1fef6b2d035b14bf02890ab50d6a4f89f9beae6501f58df588c8db15ea456888c3e0086fc841e50611fb1f930186610b",
    }),
    ("3ffffffffff", "traffic row=40 esn=0000abcd offset=1 gain=60", [
        "frame 1200 16:ffff 0101010101010101",
        "frame 9600 172:6eb96f6d68690b65aa73026f6b41c7ad3f68aa220650 0101101000110001",
    ], {
        0: "64370470af5e15d04903ad539a6114978fc21e5a655fe4286f82e4228f7b74444e22fcf30a14b8315f325ff26433bf7f",
        1: "0288429f8a43b1e081e2d347f1f07a077d9081c3717254b63667b661885b355393b3e53345061b966de203187186feb3",
        2: "ecd070ef59c85e849825c746f9a8c43bff8fb175e607f7003f81d4d83e84b68b72a83a0a3d506256db5ab164a6f8f943",
    }),
    ("20000000000", "traffic row=40 esn=0000abcd offset=0 gain=60", [
        "frame2 1800 22:5a5a58 0101010101010101",
    ], {
        0: "9208aba6ffa394b57ed9d1324ba79cc59dcc0a025ac1add90c57f3e9ec525e30d1d8ae1998741db77fea120574e7e5fc",
        7: "89a2a7e1b7ec0f8562d0a07150719bce6b3ecbf1c7eda6928785171a797cc605d4b76df581d1952373122f048e7ace64",
    }),
    ("0123456789a", "traffic row=40 esn=0000abcd offset=5 gain=60", [
        "frame2 14400 268:aff5a84a4399865a2f3b810770908da63172e5a7a31a3915a4f1a4749ee021ed6040 0000111111110011",
    ], {
        0: "f91a6a2750e704747fa1e82efe47db6fc7adc7d5d49db1f9843244156a512e05594fea82a607e7a6f7fb2cb7f9355bbd",
    }),
    ("3ffffffffff", "traffic row=40 esn=0000abcd offset=1 gain=60", [
        "frame2 7200 126:7b41f3ba74f6b323e2e6eab2cb9fcfb0 1000000000000001",
        "frame2 3600 56:59b5111069855d 0101101000110001",
    ], {
        0: "d1e68420418850d28e686a847003200f001ccb082501fd60da43647261ad304e89483b246a2761a3245a23a01638cebf",
        1: "52b801f7037293d13cd4f944278db303ee9868e5352a300834545726aa7eab334dd8e7fe853ce489f51624e572b364fd",
    }),
]  # fmt: skip

# Samples at places after two starts, with a paging channel: at the full rate next to only a pilot, and at the half rate
# next to a sync channel too.
FULL_RATE = {
    0: {0: (-480, 480), 1: (120, -120), 63: (120, -120), 64: (-480, 480), 777: (120, -120), 24_575: (480, 480),
        24_576: (-120, 120), 30_000: (480, 480)},
    4_000_000_001: {0: (480, 480), 1: (120, -120), 63: (-480, 480), 64: (120, 120), 777: (120, -120),
                    24_575: (-120, -120), 24_576: (-480, 480), 30_000: (-120, -120)},
}  # fmt: skip
HALF_RATE = {
    0: {0: (-800, 160), 1: (200, -40), 63: (40, 200), 64: (160, 800), 777: (-200, 40), 24_575: (-200, 40),
        24_576: (160, 800), 30_000: (200, -40)},
    4_000_000_001: {0: (190, 950), 1: (350, -70), 63: (350, -70), 64: (-950, 190), 777: (350, -70), 24_575: (190, 950),
                    24_576: (-350, 70), 30_000: (950, -190)},
}  # fmt: skip
# Samples from a start within a block of 64 chips, up to its end and from the next one's start.
WITHIN_A_BLOCK = {0: (-100, -500), 702: (500, -100), 703: (-350, 70), 704: (350, -70), 735: (650, -130),
                  2_999: (-650, 130)}  # fmt: skip


@unittest.skipUnless(PROGRAM, NO_PROGRAM)
class WorkedCells(unittest.TestCase):
    def samples(self, cell: str, link: str, start: int, count: int, lines: list[str]) -> list[tuple[int, int]]:
        """Returns the samples of a cell from a local chip on."""
        script = "\n".join([cell, f"link {link} start={start} samples={count}", PILOT, *lines, ""])
        status, made = run_program("make", data=script.encode())
        self.assertEqual(status, 0)
        return taken_apart(made)[2]

    def symbols(self, samples: list[tuple[int, int]], chips: int, loud: set[int]) -> str:
        """Returns the symbols of `chips` chips each, as hex digits: 0 if the first chip has the sum of the gains."""
        bits = "".join(str(int(abs(i) not in loud)) for i, _ in samples[::chips])
        return f"{int(bits, 2):0{len(bits) // 4}x}"

    def expect_samples(self, samples: list[tuple[int, int]], wanted: dict[int, tuple[int, int]], beside: int) -> None:
        """Asserts that each part is as far as this from what is expected."""
        for place, (i, q) in wanted.items():
            found = [abs(part - other) for part, other in zip(samples[place], (i, q))]
            self.assertEqual(found, [beside, beside], place)

    def test_frames_of_several_sendings(self) -> None:
        for frame, wanted in SYNC_FRAMES.items():
            samples = self.samples(NEAR, "re=0 im=-3", SYNC_FRAME * frame, SYNC_FRAME // 2, [SHORT])
            self.assertEqual(self.symbols(samples, SYNC_SYMBOL, {390}), wanted)

    def test_a_whole_sending(self) -> None:
        """The sum of the gains is 130; the parts of the link and of a code's point make one or five times that."""
        sending = "".join(2 * symbols for symbols in SENDING)
        samples = self.samples(FAR, "re=2 im=-3", 98_240, 11 * SYNC_FRAME, [LONG])
        self.assertEqual(self.symbols(samples, SYNC_SYMBOL, {130, 650}), sending)
        samples = self.samples(FAR, "re=2 im=-3", 4_292_313_024, SYNC_FRAME // 2, [LONG])
        self.assertEqual(self.symbols(samples, SYNC_SYMBOL, {130, 650}), LATE_FRAME)

    def test_paging_at_both_rates(self) -> None:
        for start, wanted in FULL_RATE.items():
            samples = self.samples(NEAR, "re=0 im=-3", start, 30_001, [FAINT, *PAGING])
            self.expect_samples(samples, wanted, 3)
        for start, wanted in HALF_RATE.items():
            samples = self.samples(FAR, "re=2 im=-3", start, 30_001, [LONG, *PAGING])
            self.expect_samples(samples, wanted, 0)

    def test_samples_within_a_block(self) -> None:
        samples = self.samples(FAR, "re=2 im=-3", 32_001, 3_000, [LONG])
        self.expect_samples(samples, WITHIN_A_BLOCK, 0)

    def test_traffic_frames(self) -> None:
        for state, line, frames, numbers in TRAFFIC:
            cell = f"cell pn=0 time=1000 lc={state} checks=0"
            first = OFFSET * int(line.split("offset=")[1].split()[0])
            for number, wanted in numbers.items():
                samples = self.samples(cell, "re=1 im=0", first + FRAME * number, FRAME, [FAINT, line, *frames])
                self.assertEqual(self.symbols(samples, SYMBOL, {159, 161}), wanted, line)

    def test_traffic_on_its_row(self) -> None:
        """Nothing is sent before the first frame, whose first symbol is a 0: its chips have the signs of row 40."""
        state, line, frames, _ = TRAFFIC[2]
        cell = f"cell pn=0 time=1000 lc={state} checks=0"
        samples = self.samples(cell, "re=1 im=0", 15 * OFFSET - 64, 128, [FAINT, line, *frames])
        self.assertTrue(all(abs(i) in {99, 101} for i, _ in samples[:64]))
        for chip, (i, _) in enumerate(samples[64:]):
            # Row 40 is 101000 binary, so that a chip's sign is that of its bits 3 and 5.
            self.assertEqual(abs(i) in {159, 161}, (chip >> 3 ^ chip >> 5) & 1 == 0)
