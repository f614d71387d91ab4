"""Locking: from a recording to a sample file of the strongest pilot in it, and what was found on the way."""

import contextlib
import math
from fractions import Fraction
from typing import IO, Callable, NamedTuple

from cdma_tools.errors import Refused
from cdma_tools.radio.acquisition import ONE_IN
from cdma_tools.radio.air import CHIP_RATE, PERIOD
from cdma_tools.radio.confirmation import LEAST, MOST_CLOCK, Pilot, first_pilot
from cdma_tools.radio.fitting import EQUALISED, Fit, equaliser_gain
from cdma_tools.radio.front import Front
from cdma_tools.radio.gaps import Gap, find_again, part_ways
from cdma_tools.radio.paths import Way, mean_energies, peaks
from cdma_tools.radio.search_policy import SearchPolicy
from cdma_tools.radio.second_pass import ROOT_MEAN_SQUARE, Piece, Written, write_chips
from cdma_tools.radio.tracking import EVERY, SEGMENT, Track, clock_error, track
from cdma_tools.recordings import Recording
from cdma_tools.sample_file import MOST_CHIPS, header

# Chips at both ends of the recording that the filter needs.
EDGE = 8
# A strong start is searched in this number of seconds, and in this part of the recording, so that a short one doesn't
# lose a message.
START_SECONDS, START_PART = 1.0, 0.02
# Segments in which a pilot must be received, if the recording has that many.
LEAST_POINTS = 4
# The part of the work that each step is, as it is shown: acquisition, the first pass, the second.
STEPS = (0.05, 0.4, 1.0)


class Options(NamedTuple):
    """Options of a lock."""

    kind: str
    rate: Fraction  # samples a second
    skip: int = 0  # samples
    shift: float = 0.0  # Hz around which the carrier is searched
    search: float | None = None  # Hz to each side; None for those of the policy
    conjugate: str = "try"  # yes, no, try
    equaliser: str = "try"
    fingers: int = 1
    count: int | None = None  # type: ignore[assignment]  # chips at most; tuple has a method of this name
    scale: float | None = None
    version: int = 1
    flags: int = 0

    @property
    def policy(self) -> SearchPolicy:
        """Returns the search for the pilot."""
        return SearchPolicy(self.search, self.conjugate)


class Locked(NamedTuple):
    """Result of a lock: the figures of the line that is written, and further remarks."""

    carrier_hz: float
    drift: float  # Hz a second
    clock_ppm: float
    phase: int
    ec_io_db: float
    paths: list[Way]
    equaliser: bool
    conjugate: bool
    lost: int
    chips: int
    scale: float
    gaps: list[Gap]
    cut: int
    begin: float  # in seconds; the pilot is received from here up to `end`
    end: float
    seconds: float
    is_part: bool  # whether the pilot is lost before the beginning or after the end
    said: tuple[str, ...] = ()  # further remarks on the way
    pilot_power: float = 0.0  # of a chip, in the units of the samples

    def line(self) -> str:
        """The figures as name=value."""
        paths = ",".join(f"{path.delay:.2f}:{path.level:.1f}" for path in self.paths)
        yes = {True: "yes", False: "no"}
        return (
            f"carrier_hz={self.carrier_hz:.1f} drift={self.drift:.2f} clock_ppm={self.clock_ppm:.3f} phase={self.phase}"
            f" ec_io_db={self.ec_io_db:.2f} paths={paths} equaliser={yes[self.equaliser]}"
            f" conjugate={yes[self.conjugate]} lost={self.lost} chips={self.chips} scale={self.scale:.6g}"
        )

    def remarks(self) -> list[str]:
        """Returns what else a user should know, a line each."""
        said = [*self.said]
        said += [
            f"samples were lost at {gap.seconds:.4f} s: {gap.chips} chips were replaced by zeros; a loss of {PERIOD}"
            " more, or of a multiple, would look the same, and then every later time would be wrong"
            for gap in self.gaps
        ]
        if self.is_part:
            said.append(
                f"the pilot is received from {self.begin:.3f} s to {self.end:.3f} s of {self.seconds:.3f} s;"
                " the rest is skipped"
            )
        if self.cut:
            said.append(f"{self.cut} I and Q values were clipped: by a burst, or because --scale is too great")
        return said


def find(path: str, options: Options) -> Pilot:
    """Returns the pilot that stands out of a recording, or of its conjugate; refuses a recording without one."""
    recording = Recording(path, options.kind, float(options.rate), options.skip)
    try:
        if recording.rate < CHIP_RATE:
            raise Refused(f"{recording.rate:.0f} samples a second are fewer than the chip rate, {CHIP_RATE}")
        front = Front(recording)
        check_length(front, options)
        front.set_carrier(options.shift)
        pilot = searched_pilot(front, options.policy)
        check_pilot(pilot, options.policy, options.shift)
    except BaseException:
        recording.close()
        raise
    return pilot


def searched_pilot(front: Front, policy: SearchPolicy) -> Pilot:
    """The first pilot that a step of the policy finds; if none does, the place that comes nearest to one."""
    best: Pilot | None = None
    for step in policy.steps():
        pilot = first_pilot(front, step.span, step.spectra, step.places, step.beyond)
        if pilot.confirmation.is_pilot:
            return pilot
        if best is None or pilot.found.excess > best.found.excess:
            best = pilot
    assert best is not None  # a policy has a step
    return best


def check_pilot(pilot: Pilot, policy: SearchPolicy, shift: float) -> None:
    """Refuses a place at which no pilot is, or one whose clock isn't followed."""
    sure, excess = pilot.confirmation, pilot.found.excess
    where = policy.searched(shift)
    if excess <= 1:
        raise Refused(
            f"no pilot stands out {where}: the best energy is {excess:.2f} of the threshold, which noise"
            f" by itself reaches in one recording of {ONE_IN:,.0f}{policy.advice}"
        )
    if not sure.is_pilot:
        raise Refused(
            f"a pilot seemed to stand out {where}, but nothing confirms it: {sure.sigma:.1f} standard deviations of"
            f" noise, and a pilot has at least {LEAST:.0f}, unless its clock is off by much more than"
            f" {1e6 * MOST_CLOCK:.0f} millionths{policy.advice}"
        )
    if not sure.is_followed:
        raise Refused(
            f"the clock is more than {1e6 * MOST_CLOCK:.0f} millionths off, which is more than the lock follows"
        )


def check_length(front: Front, options: Options) -> None:
    """Refuses a recording of more chips than a sample file can have, if no count is given."""
    most = MOST_CHIPS[options.version]
    if options.count is None and front.length - 2 * EDGE > most:
        raise Refused(
            f"{front.length:.0f} chips, but a file of version {options.version} holds at most {most}: give"
            f" --count {most}, and --skip for the rest"
        )


def follow(pilot: Pilot, tell: Callable[[float], None]) -> Track:
    """Returns the complete first pass around a pilot that was found."""
    front, found = pilot.front, pilot.found
    clock, late = clock_error(front, found, pilot.confirmation.slope)
    tracked = track(front, found._replace(time=found.time + late), clock, tell)
    heard = sum(1 for point in tracked.points if point.snr)
    if heard < min(LEAST_POINTS, front.length // SEGMENT - 1) or not heard:
        raise Refused("a pilot seemed to stand out, but couldn't be tracked")
    return tracked


class Stretches(NamedTuple):
    """The fits of stretches between losses, and whether the pilot was lost before the first and after the last."""

    fits: list[Fit]
    lost_before: bool
    lost_behind: bool
    has_equaliser: bool


def fit_all(front: Front, tracked: Track, options: Options, tell: Callable[[float], None]) -> Stretches:
    """Returns the fit of what was tracked, and of what is received again after losses."""
    has_equaliser = options.equaliser == "yes"
    if options.equaliser == "try":
        has_equaliser = equaliser_gain(tracked.points) > EQUALISED

    def fit_of(part: Track) -> Fit:
        return Fit(front.carrier, part.points, has_equaliser, options.fingers)

    fits, is_lost = [fit_of(tracked)], tracked.lost_behind
    begin = float(fits[0].times(fits[0].chip[-1])) + EVERY * SEGMENT
    while is_lost and (again := find_again(front, fits[-1], begin)):
        clock = float(fits[-1].offset.derivative(fits[-1].chip[-1]))
        part = track(front, again, clock, tell, has_before=False)
        begin = again.time + EVERY * SEGMENT
        if sum(1 for point in part.points if point.snr) >= LEAST_POINTS:
            fits.append(fit_of(part))
            begin = float(fits[-1].times(fits[-1].chip[-1])) + EVERY * SEGMENT
            is_lost = part.lost_behind
    return Stretches(fits, tracked.lost_before, is_lost, has_equaliser)


def first_chip(front: Front, stretches: Stretches) -> int:
    """Returns the first chip to write: near the beginning, and where no path is faded."""
    fit = stretches.fits[0]
    start = fit.strong_start(min(START_SECONDS, START_PART * front.length / CHIP_RATE))
    is_first = start <= fit.chip[0] - SEGMENT / 2
    return math.ceil(fit.chip_at(EDGE)) if is_first and not stretches.lost_before else start


def pieces_of(front: Front, stretches: Stretches) -> tuple[list[Piece], list[Gap]]:
    """Returns the pieces to write, each by its fit, and the losses between."""
    fits, pieces, gaps = stretches.fits, [], []
    first = first_chip(front, stretches)
    for fit, after in zip(fits, fits[1:]):
        behind, begin = part_ways(front, fit, after)
        pieces.append(Piece(fit, first, max(first, behind)))
        gaps.append(Gap(float(fit.times(behind)) / CHIP_RATE, begin - behind))
        first = begin
    last = fits[-1]
    if stretches.lost_behind:
        behind = int(last.chip[-1] + SEGMENT / 2)
    else:
        behind = math.floor(last.chip_at(front.length - EDGE)) + 1
    return pieces + [Piece(last, first, behind)], [gap for gap in gaps if gap.chips]


class Held(NamedTuple):
    """A pilot that is held through a recording: its front, its fits, its paths, and what is written by which fit."""

    front: Front
    stretches: Stretches
    ways: list[Way]
    pieces: list[Piece]
    gaps: list[Gap]
    is_conjugate: bool
    power: float  # the mean power of a chip


def hold(path: str, options: Options, tell: Callable[[float, str], None] = lambda part, text: None) -> Held:
    """Follows the strongest pilot of a recording, whose samples stay open; `tell` is as of lock."""
    tell(0.0, "looking for a pilot")
    pilot = find(path, options)
    front = pilot.front

    def reached(time: float) -> None:
        tell(STEPS[0] + (STEPS[1] - STEPS[0]) * min(1.0, max(0.0, time / front.length)), "clock and carrier")

    try:
        stretches = fit_all(front, follow(pilot, reached), options, reached)
        front.set_filter(stretches.has_equaliser)
        ways = peaks(mean_energies(front, stretches.fits[0]))
        pieces, gaps = pieces_of(front, stretches)
    except BaseException:
        front.recording.close()
        raise
    return Held(front, stretches, ways, pieces, gaps, pilot.found.is_conjugate, stretches.fits[0].power)


def lock(
    path: str,
    options: Options,
    file: IO[bytes],
    tell: Callable[[float, str], None] = lambda part, text: None,
    look: Callable[[Held, Locked], None] = lambda held, locked: None,
) -> Locked:
    """Writes a sample file of the strongest pilot of a recording, and returns the result.

    `tell` gets the part of the work that is done, and its name; `look` gets the lock while its samples are still open.
    Refuses a recording without a pilot.
    """
    held = hold(path, options, tell)
    with contextlib.closing(held.front.recording):
        locked = write_held(held, options, file, lambda part: tell(STEPS[1] + (STEPS[2] - STEPS[1]) * part, "chips"))
        look(held, locked)
    return locked


def write_held(
    held: Held, options: Options, file: IO[bytes], tell: Callable[[float], None] = lambda part: None
) -> Locked:
    """Writes a sample file of a pilot that is held, by the options, and returns the result."""
    first, behind = held.pieces[0].first, held.pieces[-1].behind
    count = min(behind - first, options.count or behind - first, MOST_CHIPS[options.version])
    scale = options.scale or ROOT_MEAN_SQUARE[options.version] / math.sqrt(held.power)
    file.write(header(options.version, options.flags, count))
    written = write_chips(held.front, held.pieces, file, count, scale, options.version, tell)
    return summary(held, count, scale, written)


def summary(held: Held, count: int, scale: float, written: Written) -> Locked:
    """Returns the result in figures."""
    front, stretches, pieces = held.front, held.stretches, held.pieces
    fit, last = stretches.fits[0], stretches.fits[-1]
    low, high = fit.chip[0], fit.chip[-1]
    span = max(high - low, SEGMENT) / CHIP_RATE
    middle = (low + high) / 2
    first = pieces[0].first
    return Locked(
        carrier_hz=float(fit.hertz(middle)),
        drift=float(fit.hertz(high) - fit.hertz(low)) / span,
        clock_ppm=-1e6 * float(fit.offset.derivative(middle)),
        phase=first % PERIOD,
        ec_io_db=written.ec_io,
        paths=held.ways,
        equaliser=stretches.has_equaliser,
        conjugate=held.is_conjugate,
        lost=written.lost,
        chips=count,
        scale=scale,
        gaps=held.gaps,
        cut=written.cut,
        begin=float(fit.times(first)) / CHIP_RATE,
        end=float(last.times(min(pieces[-1].behind, first + count))) / CHIP_RATE,
        seconds=front.length / CHIP_RATE,
        is_part=stretches.lost_before or stretches.lost_behind,
        pilot_power=written.pilot_power,
    )
