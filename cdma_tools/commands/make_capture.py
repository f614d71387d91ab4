"""Makes a sample file with one pilot in noise, as a receiver would capture it.

The samples are one per chip: the pilot of one base station (TIA/EIA-95-B, 7.1.3.1.9) at a chosen code phase and
amplitude, and Gaussian noise on both branches. The noise comes from a seed, so the same arguments always make the same
file. The line that is printed is the one that a search over the first 2,048 samples gives if the pilot's phase is the
best one: the energy is computed here by the definition, independently of the program.

    tools/make_capture examples/pilot_in_noise.is95

Exit status: 0 made, 1 the file can't be written, 2 wrong arguments.
"""

import random
import struct
import sys
from argparse import Namespace
from collections.abc import Iterator, Sequence

from cdma_tools.arguments import Parser, count_of, number_within, whole_within
from cdma_tools.sample_header import header
from cdma_tools.overwriting import STANDARD, OutputFile
from cdma_tools.writing import write_out

PERIOD = 32_768
SPAN = 2_048
MOST = 32_767
MOST_SAMPLES = 33_554_432
I_LAGS = (15, 10, 8, 7, 6, 2)
Q_LAGS = (15, 12, 11, 10, 9, 5, 4, 3)

Sample = tuple[int, int]
"""The in-phase and the quadrature part of a sample."""


def code(lags: Sequence[int]) -> list[int]:
    """The 32,768 chips of one branch: a maximal sequence with a zero inserted at its end."""
    chips = [1]
    for n in range(1, PERIOD - 1):
        chips.append(sum(chips[n - lag] for lag in lags if lag <= n) % 2)
    return chips + [0]


def signs(lags: Sequence[int]) -> list[int]:
    """The chips of one branch as signs, 1 for a chip of 0."""
    return [1 - 2 * chip for chip in code(lags)]


def clip(value: float) -> int:
    """A part as a sample file holds it: the nearest whole number in its range."""
    return max(-MOST - 1, min(MOST, round(value)))


def samples(options: Namespace, i_signs: Sequence[int], q_signs: Sequence[int]) -> Iterator[Sample]:
    """The samples of the pilot in noise."""
    noise = random.Random(options.seed)
    for t in range(options.count):
        n = (options.phase + t) % PERIOD
        yield (
            clip(options.amplitude * i_signs[n] + noise.gauss(0, options.noise)),
            clip(options.amplitude * q_signs[n] + noise.gauss(0, options.noise)),
        )


def energy(taken: Sequence[Sample], phase: int, i_signs: Sequence[int], q_signs: Sequence[int]) -> int:
    """The energy of the correlation with the code from a phase on."""
    re = im = 0
    for t, (i, q) in enumerate(taken):
        c, d = i_signs[(phase + t) % PERIOD], q_signs[(phase + t) % PERIOD]
        re += i * c + q * d
        im += q * c - i * d
    return re * re + im * im


def parser() -> Parser:
    """The command line."""
    arguments = Parser("make_capture", __doc__)
    arguments.add_argument("file", type=OutputFile, metavar="FILE", help="sample file to write, - for standard output")
    arguments.add_argument(
        "--count",
        type=whole_within(1, MOST_SAMPLES),
        default=4_096,
        metavar="N",
        help="number of samples (default 4096)",
    )
    arguments.add_argument(
        "--phase", type=whole_within(0, PERIOD - 1), default=12_345, metavar="N",
        help="code phase of the pilot at sample 0 (default 12345)",
    )  # fmt: skip
    arguments.add_argument(
        "--amplitude", type=whole_within(0, MOST), default=40, metavar="N",
        help="amplitude of the pilot on each branch (default 40)",
    )  # fmt: skip
    arguments.add_argument(
        "--noise", type=number_within(0, MOST), default=200.0, metavar="X",
        help="standard deviation of the noise on each branch (default 200)",
    )  # fmt: skip
    arguments.add_argument("--seed", type=count_of, default=1995, metavar="N", help="seed of the noise (default 1995)")
    return arguments


def main(arguments: list[str] | None = None) -> int:
    """Runs the tool, and returns its exit status."""
    options = parser().parse_args(arguments)
    i_signs, q_signs = signs(I_LAGS), signs(Q_LAGS)
    taken = list(samples(options, i_signs, q_signs))
    with write_out(options.file) as out:
        out.write(header(1, 0, len(taken)))
        for i, q in taken:
            out.write(struct.pack(">hh", i, q))
    best = energy(taken[:SPAN], options.phase, i_signs, q_signs)
    print(f"pilot phase={options.phase} energy={best}", file=sys.stderr if options.file == STANDARD else sys.stdout)
    return 0
