"""The values that a script states: how each is read, and why a text is refused."""

import dataclasses
import re
from collections.abc import Callable
from typing import Protocol

LONGEST_SHOWN = 40  # characters of a value that a reason quotes


class Wrong(Exception):
    """A value is refused: the reason in words, and the offset of the first wrong character."""

    def __init__(self, reason: str, place: int = 0) -> None:
        super().__init__(reason)
        self.place = place


class Reader(Protocol):
    """Reads one value of a script."""

    def read(self, text: str) -> object:
        """Returns the value of a text; raises Wrong if it has none."""

    def wanted(self) -> str:
        """Describes the values that are accepted."""


def quoted(text: str) -> str:
    """Returns a text in quotes, cut short if it is long."""
    return repr(text if len(text) <= LONGEST_SHOWN else text[:LONGEST_SHOWN] + "..")


def leading(pattern: str, text: str) -> int:
    """Returns how many characters at the beginning of a text match a pattern that also matches none."""
    found = re.match(pattern, text)
    return found.end() if found else 0


@dataclasses.dataclass(frozen=True)
class Number:
    """Reads a decimal number from `least` to `most`; only a reader with a negative `least` accepts a minus sign."""

    least: int
    most: int

    def wanted(self) -> str:
        """Describes the range."""
        return f"{self.least:,} to {self.most:,}"

    def read(self, text: str) -> int:
        """Returns the number of a text."""
        sign = "-" if self.least < 0 and text.startswith("-") else ""
        figures = text[len(sign) :]
        if not figures:
            raise Wrong(f"a number is missing ({self.wanted()})")
        if not re.fullmatch("[0-9]+", figures):
            raise Wrong(self.why_no_number(text), len(sign) + leading("[0-9]*", figures))
        if figures[0] == "0" and (len(figures) > 1 or sign):
            raise Wrong(f"write {figures.lstrip('0') or '0'} without a leading {'sign' if figures == '0' else 'zero'}")
        if len(figures) > 20 or not self.least <= int(text) <= self.most:
            raise Wrong(f"{quoted(text)[1:-1]} is out of range ({self.wanted()})")
        return int(text)

    def why_no_number(self, text: str) -> str:
        """Returns why a text that isn't digits is not a number."""
        if re.fullmatch(r"-[0-9]+", text):
            return f"the number can't be negative ({self.wanted()})"
        if re.fullmatch(r"-?[0-9]*\.[0-9]*", text):
            return f"a whole number is needed ({self.wanted()}), without a decimal point"
        if re.fullmatch(r"0[xX][0-9a-fA-F]+", text):
            return f"write the number in decimal: {int(text, 16)}" if len(text) < 19 else "write the number in decimal"
        return f"a whole number is needed ({self.wanted()}), not {quoted(text)}"


@dataclasses.dataclass(frozen=True)
class HexDigits:
    """Reads exactly `count` hex digits of either case, of a number from `least` to `most`."""

    count: int
    least: int
    most: int

    def wanted(self) -> str:
        """Describes the digits."""
        least = "" if not self.least else ", not all 0"
        most = "" if self.most == 16**self.count - 1 else f", at most {self.most:0{self.count}x}"
        return f"{self.count} hex digits{least}{most}"

    def read(self, text: str) -> int:
        """Returns the number of a text."""
        if text[:2].lower() == "0x":
            raise Wrong(f"write {self.wanted()} without 0x")
        good = leading("[0-9a-fA-F]*", text)
        if good < len(text):
            raise Wrong(f"{text[good]!r} isn't a hex digit ({self.wanted()})", good)
        if len(text) != self.count:
            raise Wrong(f"{self.count} digits are needed ({self.wanted()}), not {len(text)}")
        if not self.least <= int(text, 16) <= self.most:
            raise Wrong(f"{text} is out of range ({self.wanted()})")
        return int(text, 16)


@dataclasses.dataclass(frozen=True)
class BitText:
    """Reads bits as N:HEX; `why_not` says why a number of bits is refused, and what is right."""

    why_not: Callable[[int], str | None]

    def wanted(self) -> str:
        """Describes the form."""
        return "bits as N:HEX"

    def read(self, text: str) -> str:
        """Returns the bits of a text, each a digit 0 or 1."""
        count, colon, digits = text.partition(":")
        if not colon:
            raise Wrong("bits are written N:HEX, the number of bits and then their octets, as 10:ffc0")
        if not re.fullmatch("0|[1-9][0-9]{0,8}", count):
            raise Wrong(f"{quoted(count)} isn't a number of bits (decimal, without leading zeros)")
        return self.octets(int(count), digits, len(count) + 1)

    def octets(self, count: int, digits: str, place: int) -> str:
        """Returns the first `count` bits of hex digits, which begin at a place of the text."""
        good = leading("[0-9a-fA-F]*", digits)
        if good < len(digits):
            raise Wrong(f"{digits[good]!r} isn't a hex digit", place + good)
        needed = -(-count // 8) * 2
        if len(digits) != needed:
            raise Wrong(f"{count} bits are written in {needed} hex digits, not {len(digits)}", place)
        bits = f"{int(digits, 16):0{4 * needed}b}" if digits else ""
        if "1" in bits[count:]:
            over = len(bits) - count
            pads = "bit pads" if over == 1 else f"{over} bits pad"
            raise Wrong(f"the last {pads} the last octet and must be 0", place + needed - 2)
        why = self.why_not(count)
        if why:
            raise Wrong(why)
        return bits[:count]


@dataclasses.dataclass(frozen=True)
class Commands:
    """Reads the sixteen power control bits of a frame."""

    def wanted(self) -> str:
        """Describes the form."""
        return "sixteen digits 0 or 1"

    def read(self, text: str) -> str:
        """Returns the digits."""
        good = leading("[01]*", text)
        if good < len(text):
            raise Wrong(f"a power control bit is needed ({self.wanted()}), not {text[good]!r}", good)
        if len(text) != 16:
            raise Wrong(f"{len(text)} power control bits, but a frame has sixteen")
        return text


def bits_of(width: int) -> Number:
    """Returns the reader of an unsigned number of `width` bits."""
    return Number(0, (1 << width) - 1)
