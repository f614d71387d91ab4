"""Bits, the numbers that they spell, and their text (docs/FORMATS.md, "Lines")."""

import re

Bits = list[int]
BIT_TEXT = re.compile(r"(0|[1-9][0-9]{0,4}):((?:[0-9a-fA-F]{2})*)")


def spelled(width: int, value: int) -> Bits:
    """The bits of a number below 2^width, the highest first."""
    return [value >> place & 1 for place in reversed(range(width))]


def number(bits: Bits) -> int:
    """The number that bits spell, the highest first; 0 of none."""
    return int("".join(map(str, bits)), 2) if bits else 0


def parity(value: int) -> int:
    """The sum modulo 2 of a number's bits."""
    return value.bit_count() & 1


def text_of_bits(bits: Bits) -> str:
    """`N:HEX`, zeros padding the last octet."""
    padded = bits + [0] * (-len(bits) % 8)
    octets = bytes(number(padded[at : at + 8]) for at in range(0, len(padded), 8))
    return f"{len(bits)}:{octets.hex()}"


def bits_of_text(text: str) -> Bits | None:
    """Returns the bits of `N:HEX`, with digits of either case; None if it is another text, or the padding isn't zero.
    """
    found = BIT_TEXT.fullmatch(text)
    if not found:
        return None
    count = int(found[1])
    bits = [bit for octet in bytes.fromhex(found[2]) for bit in spelled(8, octet)]
    whole = len(bits) == count + -count % 8
    return bits[:count] if whole and not any(bits[count:]) else None
