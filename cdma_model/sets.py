"""The pilot sets of a handset on a traffic channel, and soft handoff (6.6.6.2; own as a whole, after the standard)."""

from dataclasses import dataclass, field
from typing import Iterable

from cdma_model.messages import Message

DROP_MILLISECONDS = (100, 1_000, 2_000, 4_000, 6_000, 9_000, 13_000, 19_000, 27_000, 39_000, 55_000, 79_000, 112_000,
                     159_000, 225_000, 319_000)  # fmt: skip
"""How long a timer runs until it has expired, by T_TDROP."""

WINDOW_CHIPS = (4, 6, 8, 10, 14, 20, 28, 40, 60, 80, 100, 130, 160, 226, 320, 452)
"""Chips of a search window, by SRCH_WIN_A or SRCH_WIN_N."""

MILLION = 1_000_000
RATIOS = [round(MILLION * 10 ** (-k / 20)) for k in range(64)]
"""Millionths of a power so many half decibels below 1."""

SLOT_MILLISECONDS = 80
WHOLE_ENERGY = 1_024
"""The energy of a pilot that is all that 512 samples hold, as a multiple of their power: 512 chips of points of 2."""

MOST_CANDIDATES, MOST_NEIGHBORS, MOST_ACTIVE = 10, 20, 6
FIRST_THRESHOLDS = {"wina": 5, "winn": 7, "tadd": 28, "tdrop": 32, "tcomp": 5, "ttdrop": 3}


@dataclass
class Active:
    """An active pilot, the row and the power control subchannel of its traffic channel, and when its timer began."""

    pilot: int
    row: int
    subchannel: int
    timer: int | None = None


@dataclass
class Direction:
    """A handoff direction that waits for its time."""

    time: int
    search: dict[str, int]
    records: list[tuple[int, int, int]]


@dataclass
class Sets:
    """The three sets, candidates with when their timer began, the thresholds, and the direction that waits."""

    active: list[Active]
    candidates: dict[int, int | None] = field(default_factory=dict)
    neighbors: list[int] = field(default_factory=list)
    thresholds: dict[str, int] = field(default_factory=lambda: dict(FIRST_THRESHOLDS))
    waiting: Direction | None = None

    def pilots(self) -> list[int]:
        """All pilots, in the order in which they are measured."""
        return [active.pilot for active in self.active] + list(self.candidates) + self.neighbors

    def window(self, pilot: int) -> int:
        """The chips of a pilot's search window."""
        return WINDOW_CHIPS[self.thresholds["winn" if pilot in self.neighbors else "wina"]]

    def shown(self) -> tuple[list[tuple[int, int, int]], list[int]]:
        """Returns the lists in an event's line."""
        return [(one.pilot, one.row, one.subchannel) for one in self.active], list(self.candidates)

    def has_expired(self, timer: int | None, time: int) -> bool:
        """Whether a timer has run for T_TDROP's time."""
        wait = DROP_MILLISECONDS[self.thresholds["ttdrop"]]
        return timer is not None and SLOT_MILLISECONDS * (time - timer) >= wait


def hear(sets: Sets, message: Message, first: int) -> None:
    """Changes the sets by a message; `first` is the time of the first moment that isn't before its end."""
    if message["what"] == "system":
        take_thresholds(sets, message)
    elif message["what"] == "neighbors":
        take_neighbors(sets, message["pilots"])
    elif message["what"] == "handoff":
        take_direction(sets, message, first)


def take_thresholds(sets: Sets, message: dict[str, int]) -> None:
    """Takes those of the six thresholds that a message has."""
    sets.thresholds |= {name: message[name] for name in sets.thresholds if name in message}


def take_neighbors(sets: Sets, pilots: Iterable[int]) -> None:
    """A new neighbor list: the first of equal ones, without those of the other two sets."""
    others = [active.pilot for active in sets.active] + list(sets.candidates)
    sets.neighbors = [pilot for pilot in dict.fromkeys(pilots) if pilot not in others][:MOST_NEIGHBORS]


def take_direction(sets: Sets, message: Message, first: int) -> None:
    """A direction waits for its time, unless it is refused."""
    records = message["records"]
    pilots = [pilot for pilot, _, _ in records]
    refused = len(records) > MOST_ACTIVE or len(set(pilots)) < len(pilots)
    if refused or any(row in (0, 32) or row > 63 for _, row, _ in records):
        return
    time = first + (message["action"] - first) % 64 if message["use"] else first + 1
    sets.waiting = Direction(time, message["search"], records)


def hand_off(sets: Sets, time: int) -> None:
    """The first thing of a moment: the direction whose time this is takes effect."""
    direction = sets.waiting
    if direction is None or direction.time != time:
        return
    sets.waiting = None
    take_thresholds(sets, direction.search)
    named = [pilot for pilot, _, _ in direction.records]
    sets.candidates = {pilot: timer for pilot, timer in sets.candidates.items() if pilot not in named}
    sets.neighbors = [pilot for pilot in sets.neighbors if pilot not in named]
    for active in sets.active:
        if active.pilot in named:
            continue
        if len(sets.candidates) < MOST_CANDIDATES and not sets.has_expired(active.timer, time):
            sets.candidates[active.pilot] = None
        elif len(sets.neighbors) < MOST_NEIGHBORS:
            sets.neighbors.append(active.pilot)
    timers = {active.pilot: active.timer for active in sets.active}
    sets.active, subchannel = [], 0
    for place, (pilot, row, combined) in enumerate(direction.records):
        subchannel += place > 0 and not combined
        sets.active.append(Active(pilot, row, int(subchannel), timers.get(pilot)))


def move(sets: Sets, energies: dict[int, int], power: int, time: int, neighbors: list[int]) -> bool:
    """The third and the fourth thing of a moment, by the energies of all pilots: timers run, pilots move, and whether
    a report is due. `neighbors` are those that were neighbors when the moment began."""

    def is_strong(pilot: int, threshold: str) -> bool:
        least = WHOLE_ENERGY * RATIOS[sets.thresholds[threshold]] * power
        return energies[pilot] > 0 and MILLION * energies[pilot] >= least

    def timed(pilot: int, timer: int | None) -> int | None:
        return None if is_strong(pilot, "tdrop") else time if timer is None else timer

    for active in sets.active:
        active.timer = timed(active.pilot, active.timer)
    sets.candidates = {pilot: timed(pilot, timer) for pilot, timer in sets.candidates.items()}
    gone = [pilot for pilot, timer in sets.candidates.items() if sets.has_expired(timer, time)]
    for pilot in gone:
        del sets.candidates[pilot]
    sets.neighbors = (sets.neighbors + gone)[:MOST_NEIGHBORS]
    strong = [pilot for pilot in sets.neighbors if pilot in neighbors and is_strong(pilot, "tadd")]
    risen = strong[: MOST_CANDIDATES - len(sets.candidates)]
    sets.candidates |= dict.fromkeys(risen)
    sets.neighbors = [pilot for pilot in sets.neighbors if pilot not in risen]
    ratio = RATIOS[sets.thresholds["tcomp"]]
    beaten = any(
        ratio * energies[candidate] > MILLION * energies[active.pilot]
        for candidate in sets.candidates
        for active in sets.active
    )
    return bool(risen) or beaten or any(sets.has_expired(active.timer, time) for active in sets.active)
