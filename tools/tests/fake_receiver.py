"""A stand-in for the program, for the tests of `tools/curve`.

It makes samples of one number, and "decodes" the frames of a script by the noise on them, so that only the noise
decides what is lost. `make` writes the script's samples, all (LEVEL, LEVEL). `follow` writes a sync line, and a frame
line for each frame of the script named by FAKE_SCRIPT that ends in the file; the sum of the frame's samples, less
LEVEL, decides how it is reported. FAKE_FAULT names a fault: `status 5`, `silent`, `garbage`, `slow`, `hang`.
"""

import array
import os
import struct
import sys
import time

LEVEL = 100
FRAME = 24_576
MARK = 2
KINDS = 8
SYNC = "prev=3 min=1 sid=1 nid=2 pn=100 lc=20000000000 time=1007 lp=13 ltm=0 daylt=0 prat=0 rest=3:00"
HEADER = struct.Struct(">4sHHQ")


def frames_of(path: str) -> list[tuple[str, str]]:
    """Returns the rate and the bits of each frame line of a script."""
    with open(path, encoding="ascii") as file:
        words = [line.split() for line in file]
    return [(line[1], line[2]) for line in words if line[0] == "frame"]


def make(text: str) -> None:
    """Writes the samples of a script."""
    count = int(text.split("samples=")[1].split()[0])
    parts = array.array("h", [LEVEL]) * (2 * count)
    parts.byteswap()
    sys.stdout.buffer.write(HEADER.pack(b"IS95", 1, 0, count) + parts.tobytes())


def told(total: int, rate: str, bits: str) -> str:
    """Returns a frame's line after its place. The sum of its noise modulo KINDS chooses one of five ways to decode it.
    """
    kind = total % KINDS
    wrong = bits[:4] + ("0" if bits[4] != "0" else "8") + bits[5:]
    rate, good, bits = {
        1: (rate, 0, wrong),
        2: (rate, 0, bits),
        3: ("1200" if rate != "1200" else "2400", 1, bits),
        4: (rate, 1, wrong),
    }.get(kind, (rate, 1, bits))
    return f"rate={rate} good={good} bits={bits} commands=0101010101010101"


def follow(data: bytes) -> None:
    """Writes the lines of a sample file."""
    count = HEADER.unpack(data[: HEADER.size])[3]
    parts = array.array("h", data[HEADER.size :])
    parts.byteswap()
    frames = frames_of(os.environ["FAKE_SCRIPT"])
    lines = ["pilot phase=0 energy=1", "sync at=1000 " + SYNC]
    for number in range(MARK, count // FRAME):
        total = sum(parts[2 * FRAME * number : 2 * FRAME * (number + 1)]) - 2 * FRAME * LEVEL
        if total == 0 or total % KINDS:
            lines.append(f"frame at={FRAME * (number + 1)} " + told(total, *frames[number % len(frames)]))
    sys.stdout.write("".join(line + "\n" for line in lines))


def main() -> int:
    """Does what the first word says, with the fault that is requested."""
    data = sys.stdin.buffer.read()
    fault = os.environ.get("FAKE_FAULT", "")
    if sys.argv[1] == "make":
        make(data.decode())
        return 0
    has_noise = len(set(data[HEADER.size : HEADER.size + 400 : 2])) > 1
    if has_noise and fault.startswith("status"):
        return int(fault.split()[1])
    if has_noise and fault == "silent":
        return 0
    if has_noise and fault == "garbage":
        print("frame at=x")
        return 0
    if has_noise and fault == "slow":
        time.sleep(0.3)
    if has_noise and fault == "hang":
        time.sleep(60)
    follow(data)
    return 0


if __name__ == "__main__":
    sys.exit(main())
