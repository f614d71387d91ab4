"""The system time at chips, by the messages of the sync channel (TIA/EIA-95-B, 7.7.1.3 and 1.3)."""

from dataclasses import dataclass
from datetime import datetime, timedelta, timezone
from typing import Any

from cdma_tools.lines import NoLine, read_line
from cdma_tools.listening.events import Event
from cdma_tools.radio.air import CHIP_RATE, PERIOD

# Chips of a superframe of the sync channel, 80 ms, in which the system time counts; and the frames and body bits of
# one.
SUPERFRAME, SUPERFRAME_BITS, FRAME_BITS = 98_304, 93, 31
# Superframes from the end of a message to the time that it gives.
AHEAD = 4
# Bits of a message without its reserved ones: length, fields and check; and those of CDMA_FREQ.
MESSAGE_BITS, FREQUENCY_BITS = 197, 11
# The system time's beginning, in UTC, and in seconds since 1970.
EPOCH = datetime(1980, 1, 6, tzinfo=timezone.utc)
EPOCH_SECONDS = int(EPOCH.timestamp())
SECOND = 1_000_000_000  # nanoseconds


def fields_of(event: Event) -> dict[str, Any] | None:
    """Returns the fields of a line, None if it is not a line."""
    try:
        return read_line(event.line)
    except NoLine:
        return None


@dataclass(frozen=True)
class SystemTime:
    """Chips in system time: the chip at which it was 0, and the leap seconds by which UTC lags."""

    base: int
    leap_seconds: int
    offset: int  # PILOT_PN of the base station that sent it
    told: int  # SYS_TIME of the message

    def utc(self, chip: int) -> str:
        """The time at a chip in UTC, to a microsecond, in the form of ISO 8601."""
        microseconds = (chip - self.base) * 1_000_000 // CHIP_RATE
        time = EPOCH + timedelta(microseconds=microseconds, seconds=-self.leap_seconds)
        return time.isoformat(timespec="microseconds").replace("+00:00", "Z")

    def nanoseconds(self, chip: int) -> int:
        """The time at a chip in UTC, in nanoseconds since 1970."""
        return (chip - self.base) * SECOND // CHIP_RATE + (EPOCH_SECONDS - self.leap_seconds) * SECOND


def bits_of(fields: dict[str, Any]) -> int:
    """The bits of a sync message with these fields: its whole capsule."""
    return MESSAGE_BITS + (FREQUENCY_BITS if "freq" in fields else 0) + int(fields["rest"].split(":")[0])


def frames_of(fields: dict[str, Any]) -> int:
    """The frames that a sync message with these fields takes."""
    return -(-bits_of(fields) // FRAME_BITS)


def time_told(event: Event) -> SystemTime | None:
    """Returns the system time in a line of the sync channel, None for any other line."""
    if event.kind != "sync" or (fields := fields_of(event)) is None:
        return None
    frames, superframes = frames_of(fields), -(-bits_of(fields) // SUPERFRAME_BITS)
    # A message is known a frame after its last one, and some chips later still where fingers lie apart.
    begin = PERIOD * round((event.chip - PERIOD * (frames + 1)) / PERIOD)
    at_time = begin + SUPERFRAME * (superframes + AHEAD) - 64 * int(fields["pn"])
    base = at_time - SUPERFRAME * int(fields["time"])
    return SystemTime(base, int(fields["lp"]), int(fields["pn"]), int(fields["time"]))
