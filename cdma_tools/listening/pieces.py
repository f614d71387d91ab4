"""The pieces that a lock that streams gives."""

from dataclasses import dataclass


@dataclass(frozen=True)
class Chips:
    """Chips in a row: the number of the first, whose code phase is that number modulo 32,768, and parts of 16 bits."""

    first: int
    parts: bytes

    @property
    def end(self) -> int:
        """The number of the chip after the last one."""
        return self.first + len(self.parts) // 4


@dataclass(frozen=True)
class Lost:
    """Chips that were lost, from number `first` on, at a second of the stream."""

    first: int
    chips: int
    seconds: float


@dataclass(frozen=True)
class Break:
    """The pilot was away too long: what comes from a chip on has nothing to do with what came before."""

    chip: int
    seconds: float  # of the stream, at which it was found again


@dataclass(frozen=True)
class Unheard:
    """A time from one second of the stream to another in which no pilot stands out."""

    begin: float
    end: float


Piece = Chips | Lost | Break | Unheard
