"""The frame error rates that are allowed, and which receivers keep to them."""

import csv
import dataclasses
from collections.abc import Collection, Iterable, Sequence
from decimal import Decimal, InvalidOperation

from cdma_tools.curves.plan import is_frames
from cdma_tools.curves.report import Row
from cdma_tools.errors import Refused
from cdma_tools.results import Result

FORMS = (["point_db", "share"], ["point_db", "channel", "share"])
MOST_LIMITS = 10_000


@dataclasses.dataclass(frozen=True)
class Limit:
    """The greatest share of frames in error at a point, in thousandths of a decibel; without a channel, of each one."""

    point: int
    channel: str
    share: float

    def is_of(self, row: Row) -> bool:
        """Whether a row is judged by it."""
        return round(1_000 * row.point_db) == self.point and (
            row.channel == self.channel if self.channel else is_frames(row.channel)
        )


def limit_of(fields: dict[str, str]) -> Limit:
    """Returns the limit in a line's fields; raises ValueError if they have another form."""
    if None in fields or None in fields.values():
        raise ValueError("it has another number of fields than the first line")
    try:
        point, share = Decimal(fields["point_db"]) * 1_000, float(fields["share"])
        thousandths = int(point)
    except (InvalidOperation, OverflowError, ValueError):
        raise ValueError("its point or its share is not a number") from None
    if thousandths != point:
        raise ValueError("its point has more than three decimal places")
    if not 0 < share <= 1:
        raise ValueError("its share isn't above 0 and at most 1")
    return Limit(thousandths, fields.get("channel", "").strip(), share)


def read_limits(path: str, points: Collection[int]) -> list[Limit]:
    """The limits of a file, each of which is at one of these points."""
    limits: list[Limit] = []
    try:
        with open(path, newline="", encoding="ascii") as file:
            table = csv.DictReader(file)
            if table.fieldnames not in FORMS:
                forms = " nor ".join(map(",".join, FORMS))
                raise Refused(f"{path}: not a table of limits: the first line is neither {forms}")
            for fields in table:
                limit = limit_of(fields)
                check_limit(limit, len(limits), points)
                limits.append(limit)
    except OSError as why:
        raise Refused(f"{path}: {why.strerror}") from None
    except UnicodeDecodeError:
        raise Refused(f"{path}: not a table of limits: it isn't ASCII text") from None
    except (ValueError, csv.Error) as why:
        raise Refused(f"{path}: limit {len(limits) + 1}: {why}") from None
    if not limits:
        raise Refused(f"{path}: it has no limits")
    return limits


def check_limit(limit: Limit, before: int, points: Collection[int]) -> None:
    """Refuses a limit at a point that isn't measured, and too many limits; `before` come before it."""
    if before >= MOST_LIMITS:
        raise ValueError(f"there may be at most {MOST_LIMITS:,}")
    if limit.point not in points:
        raise ValueError(f"{limit.point / 1_000:g} dB is not a point of --from, --to and --step")


def check_channels(limits: Iterable[Limit], channels: Collection[str], path: str) -> None:
    """Refuses a limit of a channel that isn't counted."""
    for limit in limits:
        if limit.channel and limit.channel not in channels:
            raise Refused(f"{path}: channel {limit.channel!r} is not counted, only {', '.join(channels)}")


def failure_of(row: Row, limit: Limit) -> str:
    """Returns how a row fails a limit, in words, empty if it passes."""
    if row.high <= limit.share:
        return ""
    found = f"{row.errors} of {row.sent} in error, from {row.low:g} to {row.high:g}"
    if row.low > limit.share:
        return f"above the limit of {limit.share:g}: {found}"
    return f"too few frames to tell it from the limit of {limit.share:g}: {found}"


def result_of(row: Row, limit: Limit | None) -> Result:
    """Returns the result of a row; without a limit it passes once it is counted."""
    name = f"{row.receiver}, {row.channel} at {row.point_db:g} dB"
    figures = {key: value for key, value in dataclasses.asdict(row).items() if value is not None}
    if limit is None:
        return Result(name, "counted", figures=figures)
    failure = failure_of(row, limit)
    purpose = f"at most {limit.share:g} of what was sent in error"
    return Result(name, purpose, said=(failure,) if failure else (), figures=figures | {"limit": limit.share})


def results_of(rows: Sequence[Row], limits: Sequence[Limit] | None) -> list[Result]:
    """Returns the results of rows: one for each limit of each receiver, or for each row if there is no limit."""
    if limits is None:
        return [result_of(row, None) for row in rows]
    return [result_of(row, limit) for limit in limits for row in rows if limit.is_of(row)]
