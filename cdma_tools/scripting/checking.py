"""Checks a script and reports all its faults: the place of each, why it is one, and what would be right.

The verdict is the program's (docs/FORMATS.md, "Faults of a script"): the kinds of faults are tried in a fixed order,
each over the whole script, and the first decides.
"""

import codecs
import dataclasses
import difflib
import enum
import re

from cdma_tools.errors import printable
from cdma_tools.scripting import statements
from cdma_tools.scripting.statements import Cycle
from cdma_tools.scripting.values import LONGEST_SHOWN, BitText, Commands, Reader, Wrong, quoted

MOST_BYTES = 1_048_576
MOST_SAMPLES = {16: 33_554_432, 8: 67_108_864}
LOUDEST = {16: 32_767, 8: 127}
PILOT_ROW, SYNC_ROW = 0, 32
COMMENTS = ("#", ";", "//")  # as comments of other languages begin; no word of a script begins so
UTF_8_MARK, UTF_16_MARKS = codecs.BOM_UTF8, (codecs.BOM_UTF16_LE, codecs.BOM_UTF16_BE)


class Kind(enum.Enum):
    """The kinds of faults, in the order in which the program tries them."""

    TOO_BIG = "too big"
    LINE = "line"
    WALSH = "walsh"
    GAIN = "gain"
    TOO_LOUD = "too loud"
    TOO_LONG = "too long"


@dataclasses.dataclass(frozen=True)
class Fault:
    """A fault: line and column, counted from 1, the text there, the reason, and the verdict that it would give."""

    kind: Kind
    line: int
    column: int
    value: str
    reason: str
    verdict: str


@dataclasses.dataclass(frozen=True)
class Word:
    """A word of a line, and the column of its first character, counted from 1."""

    text: str
    column: int


@dataclasses.dataclass
class Channel:
    """A channel with a gain: its Walsh row, where the row and the gain stand, and the gain if it could be read."""

    row: int | None
    line: int
    row_column: int
    gain: int | None
    gain_column: int


@dataclasses.dataclass
class Named:
    """The values `name=value` of a line: what could be read, and the column of each value."""

    values: dict[str, object]
    columns: dict[str, int]

    def number(self, name: str) -> int | None:
        """Returns a number; None if it couldn't be read."""
        value = self.values.get(name)
        return value if isinstance(value, int) else None


def check(script: bytes, width: int = 16) -> list[Fault]:
    """Returns the faults of a script for samples of `width` bits, in the order of their lines."""
    if len(script) > MOST_BYTES:
        reason = f"the script has more than {MOST_BYTES:,} bytes"
        return [Fault(Kind.TOO_BIG, 1, 1, "", reason, "too big")]
    checker = Checker(width)
    if script.startswith(UTF_16_MARKS):
        return [Fault(Kind.LINE, 1, 1, "", "the file is UTF-16: save it as plain ASCII", "line 1")]
    if script.startswith(UTF_8_MARK):
        reason = "the file begins with a byte order mark: save it as plain ASCII, without the mark"
        checker.faults.append(Fault(Kind.LINE, 1, 1, "", reason, "line 1"))
    checker.take_script(script.removeprefix(UTF_8_MARK).decode("latin-1"))
    return sorted(checker.faults, key=lambda fault: (fault.line, fault.column))


def verdict(faults: list[Fault]) -> str | None:
    """Returns what the program says after `bad script: ` of a script with these faults; None if there are none."""
    for kind in Kind:
        first = min((fault for fault in faults if fault.kind is kind), key=lambda one: one.line, default=None)
        if first:
            return first.verdict
    return None


def fault_text(fault: Fault, name: str) -> str:
    """Returns the line, without its line feed, that reports a fault of the script with a name."""
    value = f"{fault.value[:LONGEST_SHOWN]}: " if fault.value.strip() else ""
    return printable(f"{name}:{fault.line}:{fault.column}: {value}{fault.reason}")


def words_of(line: str) -> list[Word]:
    """Splits a line at blanks, tabs and carriage returns."""
    return [Word(found[0], found.start() + 1) for found in re.finditer(r"[^ \t\r]+", line)]


def as_typed(text: str) -> str:
    """Returns bytes of a script, given as Latin-1, as an editor shows them that writes UTF-8."""
    try:
        return text.encode("latin-1").decode()
    except UnicodeDecodeError:
        return text


class Checker:
    """Goes over a script line by line and collects its faults."""

    def __init__(self, width: int) -> None:
        self.width = width
        self.faults: list[Fault] = []
        self.line = 0
        self.before = ""
        self.prat: int | None = None
        self.link: dict[str, int | None] = {}
        self.link_place = (0, 0)
        self.channels: list[Channel] = []
        self.cycle: Cycle | None = None
        self.rates = "frame"

    # ---- faults

    def add(self, column: int, value: str, reason: str) -> None:
        """Adds a fault of the present line."""
        self.faults.append(Fault(Kind.LINE, self.line, column, value, reason, f"line {self.line}"))

    def add_other(self, kind: Kind, place: tuple[int, int], number: int, reason: str) -> None:
        """Adds a fault of another kind, whose verdict names a number."""
        self.faults.append(Fault(kind, *place, str(number), reason, f"{kind.value} {number}"))

    # ---- lines

    def take_script(self, text: str) -> None:
        """Takes all lines of a script, and then what the script says as a whole."""
        lines = text.split("\n")
        for line in lines[:-1]:
            self.line += 1
            self.take_line(line)
        self.line += 1
        if lines[-1]:
            self.add(len(lines[-1]) + 1, "", "the last line has no line feed at its end")
            self.take_line(lines[-1])
        elif self.before not in statements.LAST:
            self.add(1, "", self.why_too_early())
        self.judge()

    def why_too_early(self) -> str:
        """Says what has to follow the last statement."""
        needed = " or ".join(statements.FORMS[name] for name in statements.FOLLOWING[self.before])
        if not self.before:
            return f"the script is empty; it begins with: {needed}"
        return f"the script ends too early; after {self.before} comes: {needed}"

    def take_line(self, line: str) -> None:
        """Takes one line, without its line feed."""
        words = words_of(line)
        if not words:
            self.add(1, line, "empty lines aren't allowed: delete it")
            return
        comment = next((word for word in words if word.text.startswith(COMMENTS)), None)
        if comment is not None:
            what = "the line" if comment is words[0] else "from here to the end of the line"
            self.add(comment.column, comment.text, f"a script has no comments: delete {what}")
            line, words = line[: comment.column - 1].rstrip(" \t"), words[: words.index(comment)]
        if not words:
            return
        self.check_form(line)
        name = words[0].text
        if name not in statements.FORMS:
            meant = meant_by(name)
            self.add(words[0].column, name, why_no_statement(name, meant))
            self.before, self.cycle = meant or self.before, None
            return
        self.check_order(words[0])
        getattr(self, f"take_{name}")(words[1:])
        # What follows a statement that comes too late need not follow it.
        if not statements.is_late(name, self.before):
            self.before = name

    def check_form(self, line: str) -> None:
        """Checks what stands between the words of a line, and that it is ASCII."""
        if line.endswith("\r"):
            self.add(len(line), "\r", "the line ends with a carriage return: end lines with a line feed only")
            line = line[:-1]
        if line.startswith((" ", "\t")):
            self.add(1, "", "a line begins with its statement: delete the blanks before it")
        if line.endswith((" ", "\t")):
            self.add(len(line), "", "delete the blanks at the end of the line")
        inner = re.search(r"(?<=[^ \t])(?:[ \t]{2,}|\t)(?=[^ \t])", line)
        if inner:
            self.add(inner.start() + 1, "", "put exactly one space between two words")
        odd = re.search(r"[^ -~\t]+", line)
        if odd:
            self.add(odd.start() + 1, as_typed(odd[0])[0], "only printable ASCII characters are allowed")

    def check_order(self, word: Word) -> None:
        """Checks that a statement may follow the one before."""
        allowed = statements.FOLLOWING[self.before]
        if word.text not in allowed:
            needed = " or ".join(allowed)
            after = f"after {self.before}" if self.before else "at the beginning"
            self.add(word.column, word.text, f"{word.text} can't come here: {after} comes {needed}")

    # ---- statements

    def take_cell(self, words: list[Word]) -> None:
        """Takes `cell`."""
        self.named(words, statements.CELL)

    def take_link(self, words: list[Word]) -> None:
        """Takes `link`: its parts aren't both 0."""
        found = self.named(words, statements.LINK)
        self.link = {name: found.number(name) for name in statements.LINK}
        self.link_place = (self.line, found.columns.get("samples", 1))
        if self.link["re"] == 0 == self.link["im"]:
            self.add(found.columns["re"], "0", "re and im can't both be 0: the link would send nothing")

    def take_pilot(self, words: list[Word]) -> None:
        """Takes `pilot`."""
        self.add_channel(PILOT_ROW, self.named(words, statements.PILOT))

    def take_sync(self, words: list[Word]) -> None:
        """Takes `sync`, with a frequency or without."""
        has_frequency = any(word.text.startswith("freq=") for word in words)
        readers: dict[str, Reader] = statements.SYNC_WITH_FREQUENCY if has_frequency else statements.SYNC
        found = self.named(words, readers)
        self.prat = found.number("prat")
        self.add_channel(SYNC_ROW, found)

    def take_paging(self, words: list[Word]) -> None:
        """Takes `paging`, which needs the data rate of a paging channel."""
        found = self.named(words, statements.PAGING)
        if self.prat is not None and self.prat not in statements.HALF_FRAME:
            reason = f"a paging channel needs prat=0 (9,600 bits a second) or prat=1 (4,800) in sync, not {self.prat}"
            self.add(1, "paging", reason)
        self.add_channel(found.number("channel"), found, "channel")
        size = statements.HALF_FRAME.get(-1 if self.prat is None else self.prat)
        self.cycle = Cycle(size) if size else None

    def take_page(self, words: list[Word]) -> None:
        """Takes `page half BITS` or `page next BITS`.

        After a page whose bits can't be read it isn't known what is left of its half-frame, so no later page of the
        channel is refused for that.
        """
        cycle, self.cycle = self.cycle, None
        if not self.has_words(words, "page", 2):
            return
        start, bits = words
        if start.text not in ("half", "next"):
            reason = "half begins the page with the next half-frame, next right after the page before"
            self.add(start.column, start.text, reason)
        why = cycle.why_not_next() if cycle and start.text == "next" else None
        if why:
            self.add(start.column, start.text, why)
        body = self.value(bits.text, bits.column, BitText(statements.why_no_body))
        if not isinstance(body, str):
            return
        why = statements.why_no_message(body)
        if why:
            self.add(bits.column, bits.text, why)
        why = cycle.lay(start.text == "next", len(body)) if cycle else None
        if why:
            self.add(bits.column, bits.text, why)
        self.cycle = cycle

    def take_traffic(self, words: list[Word]) -> None:
        """Takes `traffic`."""
        found = self.named(words, statements.TRAFFIC)
        self.add_channel(found.number("row"), found, "row")

    def take_frame(self, words: list[Word]) -> None:
        """Takes `frame`, of rate set 1."""
        self.frame(words, "frame")

    def take_frame2(self, words: list[Word]) -> None:
        """Takes `frame2`, of rate set 2."""
        self.frame(words, "frame2")

    def frame(self, words: list[Word], name: str) -> None:
        """Takes the rate, the information bits and the power control bits of a frame."""
        if not self.has_words(words, name, 3):
            return
        rate, bits, commands = words
        sizes = {str(rate): size for rate, size in statements.FRAME_BITS[name].items()}
        if rate.text not in sizes:
            self.add(rate.column, rate.text, f"{name} has one of the rates {', '.join(sizes)}, not {quoted(rate.text)}")
        size = sizes.get(rate.text)

        def why_not(count: int) -> str | None:
            return f"a frame of {rate.text} has {size} bits, not {count}" if size and count != size else None

        self.value(bits.text, bits.column, BitText(why_not))
        self.value(commands.text, commands.column, Commands())

    # ---- words

    def has_words(self, words: list[Word], name: str, count: int) -> bool:
        """Checks that a statement has exactly this number of words after its name."""
        if len(words) == count:
            return True
        column = words[count].column if len(words) > count else 1
        self.add(
            column, "", f"{name} has {count} words after its name, not {len(words)}: {statements.FORMS[name]}"
        )
        return False

    def value(self, text: str, column: int, reader: Reader, name: str = "") -> object | None:
        """Reads a value; None with a fault if it is refused."""
        try:
            return reader.read(text)
        except Wrong as why:
            self.add(column + why.place, f"{name}={text}" if name else text, f"{name + ': ' if name else ''}{why}")
            return None

    def named(self, words: list[Word], readers: dict[str, Reader]) -> Named:
        """Reads the values `name=value` of a line by a table, whatever their order, and checks the order."""
        found = Named({}, {})
        for word in words:
            name, equals, text = word.text.partition("=")
            if not equals or name not in readers:
                self.add(word.column, word.text, why_no_key(word.text, name, equals, readers))
            elif name in found.columns:
                self.add(word.column, word.text, f"{name} appears twice")
            else:
                found.columns[name] = word.column + len(name) + 1
                found.values[name] = self.value(text, found.columns[name], readers[name], name)
        missing = [name for name in readers if name not in found.columns]
        if missing:
            self.add(words[-1].column if words else 1, "", "missing: " + ", ".join(
                f"{name}= ({readers[name].wanted()})" for name in missing))  # fmt: skip
        elif list(found.columns) != list(readers):
            self.add(words[0].column, "", f"the order is {' '.join(name + '=' for name in readers)}")
        return found

    def add_channel(self, row: int | None, found: Named, key: str = "") -> None:
        """Keeps the row and the gain of a channel."""
        gain = found.number("gain")
        columns = found.columns.get(key, 1), found.columns.get("gain", 1)
        self.channels.append(Channel(row, self.line, columns[0], gain, columns[1]))

    # ---- the script as a whole

    def judge(self) -> None:
        """Checks rows, gains, loudness and length, as far as their lines could be read."""
        self.judge_rows()
        for one in self.channels:
            if one.gain == 0 and one.row is not None:
                reason = "gain=0: the channel would send nothing; leave the channel out, or give it a gain from 1 on"
                self.add_other(Kind.GAIN, (one.line, one.gain_column), one.row, reason)
        self.judge_loudness()
        samples, most = self.link.get("samples"), MOST_SAMPLES[self.width]
        if samples is not None and samples > most:
            reason = f"{samples:,} samples are {samples - most:,} more than a file of {self.width} bits has ({most:,})"
            self.add_other(Kind.TOO_LONG, self.link_place, samples, reason)

    def judge_rows(self) -> None:
        """Checks that no two channels share a Walsh row."""
        users = {PILOT_ROW: "the pilot", SYNC_ROW: "the sync channel"}
        for one in self.channels:
            if one.row is None or one.row in (PILOT_ROW, SYNC_ROW) and one.row_column == 1:
                continue
            if one.row in users:
                reason = f"Walsh row {one.row} is taken by {users[one.row]}"
                self.add_other(Kind.WALSH, (one.line, one.row_column), one.row, reason)
            users.setdefault(one.row, f"the channel in line {one.line}")

    def judge_loudness(self) -> None:
        """Checks that the greatest sample fits the width."""
        parts = [self.link.get(name) for name in ("re", "im")]
        gains = [one.gain for one in self.channels]
        if not self.channels or None in parts or None in gains:
            return
        factor, total = sum(abs(part or 0) for part in parts), sum(gain or 0 for gain in gains)
        loudness, most = factor * total, LOUDEST[self.width]
        if loudness > most:
            reason = (
                f"(|re| + |im|) times the sum of the gains is {factor:,} x {total:,} = {loudness:,},"
                f" {loudness - most:,} more than {most:,}: bring the sum of the gains down to {most // factor:,},"
                " or make the link weaker"
            )
            self.add_other(Kind.TOO_LOUD, (self.link_place[0], 1), loudness, reason)


def meant_by(name: str) -> str:
    """Returns the statement whose name is like a word, empty if there is none."""
    return next(iter(difflib.get_close_matches(name.lower()[:LONGEST_NAME], statements.FORMS, 1)), "")


def why_no_statement(name: str, near: str) -> str:
    """Says that a word isn't a statement, and which one may be meant."""
    meant = f"; did you mean {near}?" if near else ""
    return f"{quoted(name)} is not a statement of a script{meant} ({', '.join(statements.FORMS)})"


LONGEST_NAME = 32


def why_no_key(word: str, name: str, equals: str, readers: dict[str, Reader]) -> str:
    """Says why a word isn't one of a statement's values."""
    if not equals:
        return f"{quoted(word)} isn't of the form name=value ({', '.join(readers)})"
    near = difflib.get_close_matches(name.lower()[:LONGEST_NAME], readers, 1)
    meant = f"; did you mean {near[0]}=?" if near else ""
    return f"{quoted(name)} isn't a value of this statement{meant} ({', '.join(readers)})"
