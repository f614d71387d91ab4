"""What the fields of messages mean, in words and units, by their names in TIA/EIA-95-B.

A value is explained by itself or, as local time, with other fields of its message. A reserved value is called so, and
one that the standard leaves to the system's owner has no words.
"""

import datetime
from typing import Any, Callable, Iterator, NamedTuple

from cdma_tools.heard_run import CHIP_RATE
from cdma_tools.lines import Field, Group, Shape

EPOCH = datetime.datetime(1980, 1, 6, tzinfo=datetime.timezone.utc)  # system time 0 (1.2)
TICK = 0.08  # seconds of a unit of SYS_TIME (7.7.1.3)
HALF_HOUR = datetime.timedelta(minutes=30)  # a unit of LTM_OFF (7.7.1.3)
ARC = 4 * 3_600  # units of BASE_LAT and BASE_LONG in a degree: a quarter of a second each (7.7.2.3.2.1)
METRES_OF_ARC = 1_852 / 60  # of a second of arc on a great circle: a minute is a nautical mile
OFFSET_CHIPS = 64  # a step of a pilot's offset (7.1.3.1.9)
REVISIONS = {  # of the air interface (7.7.1.3)
    1: "IS-95, or J-STD-008 at 1.9 GHz",
    2: "IS-95-A",
    3: "IS-95-A with TSB-74",
    4: "IS-95-B, its first part",
    5: "TIA/EIA-95-B",
    6: "IS-2000",
    7: "IS-2000-A",
    8: "IS-2000-B",
    9: "IS-2000-C",
    10: "IS-2000-D",
    11: "IS-2000-E",
}
PAGING_RATES = (9_600, 4_800)  # of PRAT (7.7.1.3)
ZONE_MINUTES = (1, 2, 5, 10, 20, 30, 45, 60)  # of ZONE_TIMER (7.7.2.3.2.1)
WINDOW_CHIPS = (4, 6, 8, 10, 14, 20, 28, 40, 60, 80, 100, 130, 160, 226, 320, 452)  # of a search window (6.6.6.2.1)
DROP_SECONDS = (0.1, 1, 2, 4, 6, 9, 13, 19, 27, 39, 55, 79, 112, 159, 225, 319)  # of T_TDROP (6.6.6.2.3)
CONFIGURATIONS = {  # of a neighbor (7.7.2.3.2.3)
    0: "as this base station",
    1: "as many frequencies, other paging channels",
    2: "perhaps other frequencies",
    3: "unknown",
}


class Row(NamedTuple):
    """A row of a table: the field's name in the standard, its value in the line, and what that means."""

    name: str
    value: str
    meaning: str


def signed(value: int, width: int) -> int:
    """Returns the number that `width` bits spell in two's complement."""
    return value - (1 << width) if value >> (width - 1) else value


def system_time(ticks: int) -> datetime.datetime:
    """Returns the system time of `ticks` units of 80 ms: it has no leap seconds (1.2)."""
    return EPOCH + datetime.timedelta(milliseconds=80 * ticks)


def dated(moment: datetime.datetime) -> str:
    """A date and time, to the hundredth of a second."""
    return f"{moment:%Y-%m-%d %H:%M:%S}.{moment.microsecond // 10_000:02}"


def utc_of(ticks: int, leaps: int) -> datetime.datetime:
    """Returns UTC at a system time that is `leaps` leap seconds ahead of it (7.7.1.3)."""
    return system_time(ticks) - datetime.timedelta(seconds=leaps)


def hours_of(offset: datetime.timedelta) -> str:
    """An offset of local time, as +05:30."""
    minutes = round(offset.total_seconds() / 60)
    return f"{'-' if minutes < 0 else '+'}{abs(minutes) // 60:02}:{abs(minutes) % 60:02}"


def times_of(fields: dict[str, Any]) -> tuple[str, str, str]:
    """Returns the time in a sync message: in UTC, local, and the difference of local time from UTC (7.7.1.3)."""
    utc, offset = utc_of(fields["time"], fields["lp"]), HALF_HOUR * signed(fields["ltm"], 6)
    return dated(utc), dated(utc + offset), hours_of(offset)


def time_told(_: int, fields: dict[str, Any]) -> str:
    """SYS_TIME as date and time."""
    utc, local, offset = times_of(fields)
    return f"{utc} UTC, {local} local time (UTC{offset})"


def degrees(value: int, width: int, ends: str) -> str:
    """An angle in degrees, minutes and seconds, and as a decimal number; `ends` names its two directions."""
    quarters = signed(value, width)
    whole, rest = divmod(abs(quarters), ARC)
    minutes, seconds = divmod(rest / 4, 60)
    side = ends[quarters < 0]
    return f"{quarters / ARC:.6f}°, {whole}° {int(minutes)}′ {seconds:.2f}″ {side}"


def megahertz(channel: int) -> str:
    """The frequency on which a base station sends a CDMA channel, in both bands (7.1.1.1)."""
    told = []
    if 1 <= channel <= 799:
        told.append(f"{870 + 0.03 * channel:.2f} MHz at 800 MHz")
    elif 991 <= channel <= 1_023:
        told.append(f"{870 + 0.03 * (channel - 1_023):.2f} MHz at 800 MHz")
    if channel < 1_200:
        told.append(f"{1_930 + 0.05 * channel:.2f} MHz at 1.9 GHz")
    return ", or ".join(told) or "not a channel of the 800 MHz or the 1.9 GHz band"


def seconds_told(seconds: float) -> str:
    """A length of time in the unit that suits it."""
    for size, name in ((86_400, "days"), (3_600, "hours"), (60, "minutes")):
        if seconds >= 2 * size:
            return f"{seconds / size:.3g} {name}"
    return f"{seconds:.4g} s"


def registration_period(value: int) -> str:
    """Returns REG_PRD in seconds: 2^(REG_PRD / 4) times 80 ms, if it isn't 0 (7.7.2.3.2.1)."""
    return f"at least every {seconds_told(TICK * 2 ** (value / 4))}" if value else "not by a timer"


def distance(value: int) -> str:
    """REG_DIST: the distance of 6.6.5.1.4 is 1/16 of quarter seconds of arc, so a step is 4 seconds."""
    return f"{4 * value * METRES_OF_ARC / 1_000:.1f} km from where it registered last" if value else "not by distance"


def offset_of(value: int) -> str:
    """PILOT_PN: how late its code comes (7.1.3.1.9)."""
    return f"its code comes {OFFSET_CHIPS * value:,} chips late, {1e6 * OFFSET_CHIPS * value / CHIP_RATE:,.1f} µs"


def network(value: int) -> str:
    """NID, of which two values are kept (7.7.1.3)."""
    return {0: "no network of its own", 65_535: "reserved"}.get(value, "network")


Meaning = Callable[[int, dict[str, Any]], str]


def alone(told: Callable[[int], str]) -> Meaning:
    """The meaning of a value that no other field changes."""
    return lambda value, _: told(value)


def whether(there: str, otherwise: str) -> Meaning:
    """The meaning of a bit."""
    return lambda value, _: there if value else otherwise


def window(value: int) -> str:
    """The chips of a search window (6.6.6.2.1)."""
    return f"{WINDOW_CHIPS[value]} chips"


SYNC_MEANINGS: dict[str, Meaning] = {  # 7.7.1.3
    "P_REV": alone(lambda value: REVISIONS.get(value, "not a revision of IS-95")),
    "MIN_P_REV": alone(lambda value: f"a handset needs {REVISIONS.get(value, 'an unknown revision')}, or a later one"),
    "SID": alone(lambda value: "system"),
    "NID": alone(network),
    "PILOT_PN": alone(offset_of),
    "LC_STATE": alone(lambda value: "the long code's state at that time"),
    "SYS_TIME": time_told,
    "LP_SEC": alone(lambda value: f"system time is {value} s ahead of UTC"),
    "LTM_OFF": alone(lambda value: f"local time is UTC{hours_of(HALF_HOUR * signed(value, 6))}"),
    "DAYLT": whether("daylight saving time holds", "no daylight saving time"),
    "PRAT": alone(
        lambda value: f"{PAGING_RATES[value]:,} bits a second on paging channels" if value < 2 else "reserved"
    ),
    "CDMA_FREQ": alone(megahertz),
}
SYSTEM_MEANINGS: dict[str, Meaning] = {  # 7.7.2.3.2.1
    "CONFIG_MSG_SEQ": alone(lambda value: "increases with each change of the pages' contents"),
    "REG_ZONE": alone(lambda value: "registration zone"),
    "TOTAL_ZONES": alone(lambda value: f"a handset keeps {value} zones" if value else "no registration by zones"),
    "ZONE_TIMER": alone(lambda value: f"{ZONE_MINUTES[value]} min until a zone is forgotten"),
    "MULT_SIDS": whether("a handset keeps zones of several systems", "a handset keeps zones of one system"),
    "MULT_NIDS": whether("a handset keeps zones of several networks", "a handset keeps zones of one network"),
    "BASE_ID": alone(lambda value: "base station"),
    "BASE_CLASS": alone(
        lambda value: {0: "public macrocellular system", 1: "public PCS system"}.get(value, "reserved")
    ),
    "PAGE_CHAN": alone(lambda value: "paging channels on this CDMA channel"),
    "MAX_SLOT_CYCLE_INDEX": alone(lambda value: f"a handset sleeps for {1.28 * 2**value:g} s at most"),
    "HOME_REG": whether("handsets at home register by themselves", "handsets at home don't register by themselves"),
    "FOR_SID_REG": whether("handsets of other systems register", "handsets of other systems don't register"),
    "FOR_NID_REG": whether("handsets of other networks register", "handsets of other networks don't register"),
    "POWER_UP_REG": whether("registers when it is switched on", "doesn't register when it is switched on"),
    "POWER_DOWN_REG": whether("registers when it is switched off", "doesn't register when it is switched off"),
    "PARAMETER_REG": whether("registers when its parameters change", "doesn't register when its parameters change"),
    "REG_PRD": alone(lambda value: "registers " + registration_period(value)),
    "BASE_LAT": alone(lambda value: degrees(value, 22, "NS")),
    "BASE_LONG": alone(lambda value: degrees(value, 23, "EW")),
    "REG_DIST": alone(lambda value: "registers " + distance(value)),
    "SRCH_WIN_A": alone(lambda value: f"{window(value)} for active pilots and candidates"),
    "SRCH_WIN_N": alone(lambda value: f"{window(value)} for neighbors"),
    "SRCH_WIN_R": alone(lambda value: f"{window(value)} for all others"),
    "NGHBR_MAX_AGE": alone(lambda value: "neighbor lists for which a neighbor is kept"),
    "PWR_REP_THRESH": alone(lambda value: "bad frames that make a power report"),
    "PWR_REP_FRAMES": alone(lambda value: f"counted over {int(5 * 2 ** (value / 2))} frames"),
    "PWR_THRESH_ENABLE": whether("power reports by threshold", "no power reports by threshold"),
    "PWR_PERIOD_ENABLE": whether("power reports by period", "no power reports by period"),
    "PWR_REP_DELAY": alone(lambda value: f"{4 * value} frames from a report until frames count again"),
    "RESCAN": whether("handsets have to look for the system again", "nothing to look for again"),
    "T_ADD": alone(lambda value: f"a neighbor becomes a candidate from {-value / 2:g} dB of all power on"),
    "T_DROP": alone(lambda value: f"a pilot's drop timer runs below {-value / 2:g} dB of all power"),
    "T_COMP": alone(lambda value: f"a candidate is reported when it is {value / 2:g} dB above an active pilot"),
    "T_TDROP": alone(lambda value: f"the drop timer runs for {DROP_SECONDS[value]:g} s"),
    "PILOT_INC": alone(
        lambda value: f"offsets of the system's pilots are multiples of {value}" if value else "reserved"
    ),
}
MEANINGS = SYNC_MEANINGS | SYSTEM_MEANINGS


def fields_there(shape: Shape, read: dict[str, Any]) -> Iterator[Field]:
    """The fields of a line's kind that the line has."""
    for part in (*shape.head, *shape.body):
        if isinstance(part, Group):
            yield from (field for field in part.fields if field.name in read)
        else:
            yield part


def rows_of(shape: Shape, read: dict[str, Any]) -> list[Row]:
    """The rows of a message's fields that the standard names, in its order; a list's records aren't among them."""
    return [
        Row(field.meaning, field.form.spell(read[field.name]), MEANINGS[field.meaning](read[field.name], read))
        for field in fields_there(shape, read)
        if field.meaning in MEANINGS and not isinstance(read[field.name], list)
    ]
