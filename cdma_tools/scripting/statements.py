"""The statements of a script: their keys in order, which may follow which, and how pages are laid out."""

from cdma_tools.scripting.values import BitText, HexDigits, Number, Reader, bits_of

GAIN = bits_of(16)
CELL: dict[str, Reader] = {
    "pn": bits_of(9),
    "time": Number(0, 34_359_738_368),
    "lc": HexDigits(11, 1, (1 << 42) - 1),
    "checks": bits_of(2),
}
PART = Number(-32_768, 32_767)
LINK: dict[str, Reader] = {"re": PART, "im": PART, "start": bits_of(32), "samples": Number(1, (1 << 64) - 1)}
PILOT: dict[str, Reader] = {"gain": GAIN}
SYNC_WIDTHS = {"prev": 8, "min": 8, "sid": 15, "nid": 16, "lp": 8, "ltm": 6, "daylt": 1, "prat": 2}
MOST_REST = 976


def why_no_rest(count: int) -> str | None:
    """Says why a sync message without a frequency doesn't end in this number of bits."""
    return None if count == 3 else f"without freq= the message ends in 3 bits, as 3:00, not {count}"


def why_no_rest_after_frequency(count: int) -> str | None:
    """Says why a sync message with a frequency doesn't end in this number of bits."""
    if count % 8 or count > MOST_REST:
        return f"after freq= the message ends in 0 to {MOST_REST} bits in steps of 8, as 0:, not {count}"
    return None


SYNC_HEAD: dict[str, Reader] = {"gain": GAIN} | {name: bits_of(width) for name, width in SYNC_WIDTHS.items()}
SYNC: dict[str, Reader] = SYNC_HEAD | {"rest": BitText(why_no_rest)}
SYNC_WITH_FREQUENCY: dict[str, Reader] = SYNC_HEAD | {"freq": bits_of(11), "rest": BitText(why_no_rest_after_frequency)}
PAGING: dict[str, Reader] = {"channel": Number(1, 7), "gain": GAIN}
TRAFFIC: dict[str, Reader] = {
    "row": bits_of(6),
    "esn": HexDigits(8, 0, (1 << 32) - 1),
    "offset": bits_of(4),
    "gain": GAIN,
}
FRAME_BITS = {
    "frame": {9600: 172, 4800: 80, 2400: 40, 1200: 16},
    "frame2": {14400: 268, 7200: 126, 3600: 56, 1800: 22},
}
"""The information bits of a frame by its rate, of rate set 1 and of rate set 2."""

FOLLOWING: dict[str, tuple[str, ...]] = {
    "": ("cell",),
    "cell": ("link",),
    "link": ("pilot",),
    "pilot": ("sync",),
    "sync": ("paging", "traffic"),
    "paging": ("page",),
    "page": ("page", "paging", "traffic"),
    "traffic": ("frame", "frame2"),
    "frame": ("frame", "traffic"),
    "frame2": ("frame2", "traffic"),
}
"""Which statements may follow a statement; the empty name stands for the beginning."""

LAST = ("pilot", "sync", "page", "frame", "frame2")
"""The statements with which a script may end."""

FORMS = {
    "cell": "cell pn=P time=T lc=H checks=C",
    "link": "link re=A im=B start=S samples=N",
    "pilot": "pilot gain=G",
    "sync": "sync gain=G prev=.. min=.. sid=.. nid=.. lp=.. ltm=.. daylt=.. prat=.. [freq=..] rest=BITS",
    "paging": "paging channel=C gain=G",
    "page": "page half BITS, or page next BITS",
    "traffic": "traffic row=R esn=H offset=O gain=G",
    "frame": "frame RATE BITS COMMANDS",
    "frame2": "frame2 RATE BITS COMMANDS",
}
"""How each statement is written, in the order of a script."""
ONCE = ("cell", "link", "pilot", "sync")
"""The statements that a script has once, before all others."""


def is_late(name: str, before: str) -> bool:
    """Whether a statement that a script has once comes after one that has to follow it."""
    order = list(FORMS)
    return name in ONCE and before in FORMS and order.index(name) < order.index(before)


# ---- pages

LEAST_OCTETS, MOST_OCTETS = 6, 148
OUTSIDE_BODY = 38  # bits of a capsule that aren't its body: the length and the check
LENGTH_BITS = 8
MOST_CYCLE = 8_192
HALF_FRAME = {0: 95, 1: 47}
"""Body bits of a half-frame of a paging channel by PRAT: 9,600 and 4,800 bits a second."""


def why_no_body(count: int) -> str | None:
    """Says why no page has a body of this number of bits."""
    octets, over = divmod(count + OUTSIDE_BODY, 8)
    if not over and LEAST_OCTETS <= octets <= MOST_OCTETS:
        return None
    near = max(LEAST_OCTETS, min(MOST_OCTETS, octets))
    return (
        f"no page has a body of {count} bits: it has 8 L - {OUTSIDE_BODY} for L from {LEAST_OCTETS} to {MOST_OCTETS}"
        f" octets, as {8 * near - OUTSIDE_BODY}"
    )


def why_no_message(body: str) -> str | None:
    """Says why a body of lawful length isn't a message of the paging channel."""
    kind, left = int(body[:8], 2), len(body) - 8
    if kind == 1 and left < 214:
        return f"a System Parameters Message (type 1) has 222 bits or more, not {len(body)}"
    if kind == 3 and (left < 19 or (left - 19) % 12 > 7):
        return "a Neighbor List Message (type 3) has 27 bits, 12 a neighbor, and at most 7 more"
    if kind == 4 and (left < 15 or (left - 15) % 11 > 7):
        return "a CDMA Channel List Message (type 4) has 23 bits, 11 a channel, and at most 7 more"
    return None


class Cycle:
    """The cycle of pages of one paging channel, as it is laid into half-frames."""

    def __init__(self, size: int) -> None:
        """`size` is the number of body bits of a half-frame."""
        self.size, self.laid, self.is_begun = size, 0, False

    def room(self) -> int:
        """Returns the number of bits that are left in the half-frame in which the last capsule ends."""
        return -self.laid % self.size

    def why_not_next(self) -> str | None:
        """Says why no page may begin right after the last one."""
        if not self.is_begun:
            return "the first page of a channel begins with a half-frame: write page half"
        if self.room() < LENGTH_BITS:
            return (
                f"only {self.room()} bits are left in the half-frame in which the page before ends, and a page that"
                f" follows at once needs {LENGTH_BITS}: write page half"
            )
        return None

    def lay(self, follows: bool, body: int) -> str | None:
        """Lays a page with a body of this number of bits; says by how much the cycle is then too long."""
        self.laid += (0 if follows and self.is_begun else self.room()) + body + OUTSIDE_BODY
        self.is_begun = True
        filled = self.laid + -(-self.laid // self.size)
        if filled <= MOST_CYCLE:
            return None
        return (
            f"with this page the channel's cycle has {filled:,} bits, {filled - MOST_CYCLE:,} more than {MOST_CYCLE:,}"
        )
