"""The lines that the program writes: their fields in one table, by which a line is read and written.

`SHAPES` has a row for each kind of line. `read_line` makes a dictionary of a line, and `spell_line` the line again:

    read_line("pilot phase=64 energy=1509949440000")
    {"line": "pilot", "phase": 64, "energy": 1509949440000}

"line" is the line's first word, "message" the word for the kind of a paging or traffic message, and "channel" the
channel of a raw message. The fields follow by their names in the line. A number is a number, and so is LC_STATE, which
is in hex digits in a line. Bits are the text N:HEX of the line. A list of numbers is a list, one of records a list of
lists, and sixteen power control bits are a list of sixteen numbers: a text of only digits would be taken for a number
by a program that reads JSON into a table. A field that may be left out is absent.

`read_line` accepts exactly what `spell_line` writes, byte by byte, and refuses any other text.
"""

import itertools
import re
from datetime import datetime
from typing import Any, Callable, Iterator, NamedTuple

TIME_NAME = "time_utc"  # under which the objects of a listening have the time of their `at`, besides the line's fields
# The names that they have besides if several channels are followed at once.
PLACE_NAMES = ("cell", "carrier", "channel")
MOST_COUNT = 2**64 - 1  # what the program counts in is 64 bits wide
MOST_EXACT = 2**53  # below it a floating-point number represents each whole number
MOST_BITS = 8 * 148  # a capsule has at most 148 octets (7.7.1, 7.7.2, 7.7.3)
RATES = (9_600, 4_800, 2_400, 1_200)  # of rate set 1, in bits a second (7.1.3.5)
RATES2 = (14_400, 7_200, 3_600, 1_800)  # of rate set 2
GROUPS = 16  # power control groups of a frame (7.1.3.1.7)
UTC_TEXT = re.compile(r"\d{4}-\d\d-\d\dT\d\d:\d\d:\d\d\.\d{6}Z", re.ASCII)
BITS = re.compile(r"(0|[1-9][0-9]{0,3}):((?:[0-9a-f]{2})*)")


class NoLine(ValueError):
    """Reason why a text is not a line of the program, or an object not that of a line."""


class Form(NamedTuple):
    """How a field's value is written in a line, and what it is in JSON.

    `width` is the number of bits of a number that a message has, `parts` are the forms of the numbers of a list.
    """

    read: Callable[[str], Any]
    spell: Callable[[Any], str]
    text: str
    width: int = 0
    parts: tuple["Form", ...] = ()


class Field(NamedTuple):
    """A field: its name in the line, its form, and its name in TIA/EIA-95-B or, if it has none, its meaning."""

    name: str
    form: Form
    meaning: str


class Group(NamedTuple):
    """Fields that a line has all or not at all."""

    fields: tuple[Field, ...]


class Shape(NamedTuple):
    """A kind of line: its first word, the fields after that, and the second word, with the fields after it."""

    line: str
    head: tuple[Field, ...]
    word: str | None = None
    body: tuple[Field | Group, ...] = ()

    @property
    def key(self) -> str:
        """Returns the name of the second word in JSON."""
        return "channel" if self.line == "raw" else "message"

    def fields(self) -> Iterator[Field]:
        """All fields in their order, those that may be left out among them."""
        for part in (*self.head, *self.body):
            yield from part.fields if isinstance(part, Group) else (part,)


def whole(value: Any) -> int:
    """Returns a whole number of JSON, including 7.0: tables with empty cells have no others.

    From 2^53 on such a number may be a rounded one, so it is refused.
    """
    if isinstance(value, float) and value.is_integer() and abs(value) < MOST_EXACT:
        value = int(value)
    if isinstance(value, bool) or not isinstance(value, int):
        raise NoLine(f"{value!r} is not a whole number")
    return value


def within(value: int, least: int, most: int) -> int:
    """Returns the number, if it is within its bounds."""
    if not least <= value <= most:
        raise NoLine(f"{value} is out of range ({least} to {most})")
    return value


def read_number(text: str) -> int:
    """A decimal number without leading zeros."""
    try:
        value = int(text) if len(text) <= 20 else None
    except ValueError:
        value = None
    if value is None or str(value) != text:
        raise NoLine(f"{text[:30]!r} is not a number")
    return value


def number(most: int, least: int = 0, text: str = "") -> Form:
    """A decimal number in bounds."""

    def read(given: str) -> int:
        return within(read_number(given), least, most)

    return Form(read, lambda value: str(within(whole(value), least, most)), text or f"{least:,} to {most:,}")


def field_of(width: int) -> Form:
    """Returns the form of a number of `width` bits."""
    return number(2**width - 1, text=f"{width} bits" if width > 1 else "1 bit")._replace(width=width)


def one_of(numbers: tuple[int, ...]) -> Form:
    """A number among a few."""

    def among(value: int) -> int:
        if value not in numbers:
            raise NoLine(f"{value} is not one of {', '.join(map(str, numbers))}")
        return value

    text = f"{', '.join(map(str, numbers[:-1]))} or {numbers[-1]}"
    return Form(lambda given: among(read_number(given)), lambda value: str(among(whole(value))), text)


def hexadecimal(digits: int, width: int) -> Form:
    """Returns the form of a number of `width` bits, in the line as `digits` lower-case hex digits."""
    shape = re.compile(f"[0-9a-f]{{{digits}}}")

    def read(given: str) -> int:
        if not shape.fullmatch(given):
            raise NoLine(f"{given[:30]!r} isn't {digits} lower-case hex digits")
        return within(int(given, 16), 0, 2**width - 1)

    def spell(value: Any) -> str:
        return f"{within(whole(value), 0, 2**width - 1):0{digits}x}"

    return Form(read, spell, f"{width} bits, {digits} hex digits in the line", width)


def check_bits(given: Any) -> str:
    """Bits as N:HEX: two digits for each octet of them, and zeros that pad the last one."""
    match = BITS.fullmatch(given) if isinstance(given, str) else None
    if not match:
        raise NoLine(f"{str(given)[:30]!r} isn't of the form N:HEX")
    count, digits = int(match[1]), match[2]
    padding = 4 * len(digits) - count
    if count > MOST_BITS or not 0 <= padding < 8 or int(digits or "0", 16) & ((1 << padding) - 1):
        raise NoLine(f"{given[:30]!r} must have two hex digits per octet, and zeros after its last bit")
    return given


def check_utc(given: Any) -> str:
    """A time in UTC to a microsecond, in the form of ISO 8601."""
    try:
        if isinstance(given, str) and UTC_TEXT.fullmatch(given) and datetime.fromisoformat(given):
            return given
    except ValueError:
        pass
    raise NoLine(f"{str(given)[:30]!r} is not a time in UTC, such as 2026-11-30T21:30:00.000000Z")


def commands() -> Form:
    """Power control bits, one digit each."""

    def read(given: str) -> list[int]:
        if len(given) != GROUPS or given.strip("01"):
            raise NoLine(f"{given[:30]!r} isn't {GROUPS} digits 0 or 1")
        return [int(digit) for digit in given]

    def spell(value: Any) -> str:
        if not isinstance(value, list) or len(value) != GROUPS:
            raise NoLine(f"{str(value)[:60]!r} is not a list of {GROUPS}")
        return "".join(str(within(whole(bit), 0, 1)) for bit in value)

    return Form(read, spell, f"{GROUPS} numbers of 1 bit")


def spelled_list(value: Any, spell: Callable[[Any], str]) -> str:
    """The things of a list, joined by commas."""
    if not isinstance(value, list):
        raise NoLine(f"{str(value)[:60]!r} is not a list")
    return ",".join(spell(thing) for thing in value)


def numbers(form: Form) -> Form:
    """A list of numbers, which may be empty."""

    def read(given: str) -> list[int]:
        return [form.read(part) for part in given.split(",")] if given else []

    return Form(read, lambda value: spelled_list(value, form.spell), f"numbers of {form.text}", parts=(form,))


def records(*forms: Form) -> Form:
    """Returns the form of a list of records, which may be empty; each has a number per form, separated by / in the
    line."""

    def read_record(given: str) -> list[int]:
        parts = given.split("/")
        if len(parts) != len(forms):
            raise NoLine(f"{given[:30]!r} doesn't have {len(forms)} numbers")
        return [form.read(part) for form, part in zip(forms, parts)]

    def spell_record(value: Any) -> str:
        if not isinstance(value, list) or len(value) != len(forms):
            raise NoLine(f"{str(value)[:60]!r} is not a list of {len(forms)}")
        return "/".join(form.spell(part) for form, part in zip(forms, value))

    def read(given: str) -> list[list[int]]:
        return [read_record(part) for part in given.split(",")] if given else []

    text = f"records of {', '.join(form.text for form in forms)}"
    return Form(read, lambda value: spelled_list(value, spell_record), text, parts=forms)


COUNT = number(MOST_COUNT, text="whole number")
OFFSET, ROW = field_of(9), field_of(8)
UTC = Form(check_utc, check_utc, "time in UTC to a microsecond, ISO 8601")
BIT_TEXT = Form(check_bits, check_bits, "text N:HEX")
AT = Field("at", COUNT, "sample count when it was known")
REST = Field("rest", BIT_TEXT, "bits after the fields")
BARE = Field("bits", BIT_TEXT, "whole capsule")  # the one field that has no name in its line
PN, SEQ = Field("pn", OFFSET, "PILOT_PN"), Field("seq", field_of(6), "CONFIG_MSG_SEQ")
SID, NID = Field("sid", field_of(15), "SID"), Field("nid", field_of(16), "NID")
WINDOWS = {name: Field(f"win{name}", field_of(4), f"SRCH_WIN_{name.upper()}") for name in "anr"}
T_ADD, T_DROP = Field("tadd", field_of(6), "T_ADD"), Field("tdrop", field_of(6), "T_DROP")
T_COMP, T_TDROP = Field("tcomp", field_of(4), "T_COMP"), Field("ttdrop", field_of(4), "T_TDROP")
MAX_AGE = Field("age", field_of(4), "NGHBR_MAX_AGE")
INCREMENT = Field("inc", field_of(4), "PILOT_INC")
TYPE = Field("type", field_of(8), "MSG_TYPE")
SYNC_FIELDS = (  # 7.7.1.3
    Field("prev", field_of(8), "P_REV"),
    Field("min", field_of(8), "MIN_P_REV"),
    SID,
    NID,
    PN,
    Field("lc", hexadecimal(11, 42), "LC_STATE"),
    Field("time", field_of(36), "SYS_TIME"),
    Field("lp", field_of(8), "LP_SEC"),
    Field("ltm", field_of(6), "LTM_OFF"),
    Field("daylt", field_of(1), "DAYLT"),
    Field("prat", field_of(2), "PRAT"),
)
SYSTEM_FIELDS = (  # 7.7.2.3.2.1
    PN,
    SEQ,
    SID,
    NID,
    Field("zone", field_of(12), "REG_ZONE"),
    Field("zones", field_of(3), "TOTAL_ZONES"),
    Field("ztimer", field_of(3), "ZONE_TIMER"),
    Field("msids", field_of(1), "MULT_SIDS"),
    Field("mnids", field_of(1), "MULT_NIDS"),
    Field("base", field_of(16), "BASE_ID"),
    Field("bclass", field_of(4), "BASE_CLASS"),
    Field("pages", field_of(3), "PAGE_CHAN"),
    Field("cycle", field_of(3), "MAX_SLOT_CYCLE_INDEX"),
    Field("home", field_of(1), "HOME_REG"),
    Field("fsid", field_of(1), "FOR_SID_REG"),
    Field("fnid", field_of(1), "FOR_NID_REG"),
    Field("up", field_of(1), "POWER_UP_REG"),
    Field("down", field_of(1), "POWER_DOWN_REG"),
    Field("param", field_of(1), "PARAMETER_REG"),
    Field("prd", field_of(7), "REG_PRD"),
    Field("lat", field_of(22), "BASE_LAT"),
    Field("long", field_of(23), "BASE_LONG"),
    Field("dist", field_of(11), "REG_DIST"),
    WINDOWS["a"],
    WINDOWS["n"],
    WINDOWS["r"],
    MAX_AGE,
    Field("pthresh", field_of(5), "PWR_REP_THRESH"),
    Field("pframes", field_of(4), "PWR_REP_FRAMES"),
    Field("pthen", field_of(1), "PWR_THRESH_ENABLE"),
    Field("pperen", field_of(1), "PWR_PERIOD_ENABLE"),
    Field("pdelay", field_of(5), "PWR_REP_DELAY"),
    Field("rescan", field_of(1), "RESCAN"),
    T_ADD,
    T_DROP,
    T_COMP,
    T_TDROP,
)
HEAD_FIELDS = (  # 7.7.3.2.1
    Field("ack", field_of(3), "ACK_SEQ"),
    Field("seq", field_of(3), "MSG_SEQ"),
    Field("req", field_of(1), "ACK_REQ"),
    Field("enc", field_of(2), "ENCRYPTION"),
)
IN_TRAFFIC_FIELDS = (SID, NID, *WINDOWS.values(), T_ADD, T_DROP, T_COMP, T_TDROP, MAX_AGE)  # 7.7.3.3.2.7
TIME_FIELDS = (  # 7.7.3.3.2.17
    Field("use", field_of(1), "USE_TIME"),
    Field("action", field_of(6), "ACTION_TIME"),
    Field("hdm", field_of(2), "HDM_SEQ"),
)
SEARCH_FIELDS = (WINDOWS["a"], T_ADD, T_DROP, T_COMP, T_TDROP)
MOMENT = Field("time", COUNT, "time in units of 80 ms")


def frame(line: str, rates: tuple[int, ...]) -> Shape:
    """The line of a frame of a traffic channel."""
    told = (
        Field("rate", one_of(rates), "rate in bits per second"),
        Field("good", field_of(1), "1 if it is good"),
        Field("bits", BIT_TEXT, "information bits"),
        Field("commands", commands(), "power control bits"),
    )
    return Shape(line, (Field("at", COUNT, "sample count when it ended"), *told))


def counts(*named: tuple[str, str]) -> tuple[Field, ...]:
    """Fields that are whole numbers."""
    return tuple(Field(name, COUNT, meaning) for name, meaning in named)


SHAPES = (
    Shape("pilot", (Field("phase", field_of(15), "best phase"), Field("energy", COUNT, "energy at that phase"))),
    Shape(
        "survey",
        (
            Field("pn", OFFSET, "pilot offset"),
            Field("delta", number(31, -31), "chips above the pilot's own phase"),
            Field("energy", COUNT, "energy there"),
        ),
    ),
    Shape("sync", (AT, *SYNC_FIELDS), None, (Group((Field("freq", field_of(11), "CDMA_FREQ"),)), REST)),
    Shape("paging", (AT,), "system", (*SYSTEM_FIELDS, REST)),
    Shape(
        "paging",
        (AT,),
        "neighbors",
        (PN, SEQ, INCREMENT, Field("pilots", records(field_of(3), OFFSET), "NGHBR_CONFIG and NGHBR_PN"), REST),
    ),
    Shape("paging", (AT,), "channels", (PN, SEQ, Field("freqs", numbers(field_of(11)), "CDMA_FREQ"), REST)),
    Shape("paging", (AT,), "other", (TYPE, Field("bits", BIT_TEXT, "bits after the type"))),
    Shape(
        "slot",
        (
            Field("at", COUNT, "sample count when it ended"),
            MOMENT,
            Field("messages", field_of(16), "number of messages in it"),
        ),
    ),
    frame("frame", RATES),
    frame("frame2", RATES2),
    Shape("traffic", (AT, *HEAD_FIELDS), "system", (*IN_TRAFFIC_FIELDS, REST)),
    Shape(
        "traffic",
        (AT, *HEAD_FIELDS),
        "neighbors",
        (INCREMENT, Field("pilots", numbers(OFFSET), "NGHBR_PN"), REST),
    ),
    Shape(
        "traffic",
        (AT, *HEAD_FIELDS),
        "handoff",
        (
            *TIME_FIELDS,
            Group(SEARCH_FIELDS),
            Field("extra", BIT_TEXT, "octets counted by ADD_LENGTH"),
            Field("records", records(OFFSET, ROW, field_of(1)), "PILOT_PN, CODE_CHAN and PWR_COMB_IND"),
            REST,
        ),
    ),
    Shape("traffic", (AT, *HEAD_FIELDS), "other", (TYPE, Field("bits", BIT_TEXT, "bits after the head"))),
    Shape(
        "sets",
        (
            Field("at", COUNT, "sample count at the moment"),
            MOMENT,
            Field(
                "active",
                records(OFFSET, ROW, field_of(3)),
                "active set: offset, Walsh row and power control subchannel of each pilot",
            ),
            Field("candidate", numbers(OFFSET), "offsets of the candidate set"),
            Field("report", field_of(1), "1 if a report is due"),
        ),
    ),
    *(Shape("raw", (AT,), channel, (BARE,)) for channel in ("sync", "paging", "traffic")),
    Shape(
        "trial",
        counts(("number", "number of the link"), ("samples", "number of samples"))
        + (Field("phase", field_of(15), "best phase of the first 2,048 samples"),)
        + counts(("syncs", "sync channel messages"), ("pagings", "paging channel messages"))
        + counts(("frames", "traffic channel frames"), ("good", "good ones of these frames")),
    ),
)
# A line that no run of the program writes, but `listen` when it appends to another run's file: after it `at` counts
# from 0 again.
ORIGIN = "origin"
ORIGIN_SHAPE = Shape(ORIGIN, (Field("utc", UTC, "the time in UTC from which the lines after it count"),))
BY_WORDS = {(shape.line, shape.word): shape for shape in (*SHAPES, ORIGIN_SHAPE)}
FIRST = {shape.line: shape for shape in reversed((*SHAPES, ORIGIN_SHAPE))}
SECOND_PLACES = {shape.line: 1 + len(shape.head) for shape in SHAPES if shape.word}  # the second word's, in a line


class Columns(NamedTuple):
    """A pattern of a kind of line, with a name and a reader for each of its groups."""

    pattern: re.Pattern[str]
    names: tuple[str, ...]
    readers: tuple[Callable[[str], Any], ...]


def columns_of(shape: Shape) -> Columns:
    """Returns the columns of a kind of line: its first word, its fields, and its second word in its place."""

    def pattern(part: Field | Group) -> str:
        if isinstance(part, Group):
            return f"(?:{''.join(map(pattern, part.fields))})?"
        return " ([^ ]*)" if part is BARE else f" {part.name}=([^ ]*)"

    second = [f" ({shape.word})"] if shape.word else []
    patterns = [f"({shape.line})", *map(pattern, shape.head), *second, *map(pattern, shape.body)]
    fields, heads = list(shape.fields()), len(shape.head)
    names, readers = [field.name for field in fields], [field.form.read for field in fields]
    if shape.word:
        names.insert(heads, shape.key)
        readers.insert(heads, str)
    return Columns(re.compile("".join(patterns)), ("line", *names), (str, *readers))


COLUMNS = {words: columns_of(shape) for words, shape in BY_WORDS.items()}


class Tokens:
    """The words of a line after its first one, taken from left to right."""

    def __init__(self, words: list[str]) -> None:
        self.words, self.place = words, 0

    def peek(self) -> str:
        """Returns the next word, empty if there is none."""
        return self.words[self.place] if self.place < len(self.words) else ""

    def take(self) -> str:
        """The next word, which is taken by that."""
        word = self.peek()
        self.place += 1
        return word

    def take_field(self, field: Field, into: dict[str, Any]) -> None:
        """Reads a field's value."""
        word = self.take()
        if field is BARE:
            into[field.name] = field.form.read(word)
            return
        name, separator, value = word.partition("=")
        if name != field.name or not separator:
            raise NoLine(f"{field.name}= is expected, not {word[:30]!r}")
        try:
            into[field.name] = field.form.read(value)
        except NoLine as why:
            raise NoLine(f"{field.name}: {why}") from None

    def take_part(self, part: Field | Group, into: dict[str, Any]) -> None:
        """Reads a field, or the fields of a group if the first of them is there."""
        if isinstance(part, Field):
            self.take_field(part, into)
        elif self.peek().startswith(part.fields[0].name + "="):
            for field in part.fields:
                self.take_field(field, into)

    def take_shape(self, first: str) -> Shape:
        """Returns the shape of a line with this first word, by the word that gives its kind."""
        word = self.take()
        if (first, word) not in BY_WORDS:
            raise NoLine(f"{word[:30]!r} is not a kind of {first}")
        return BY_WORDS[first, word]


class BrokenOff(Exception):
    """That a line ends within a word that may stand there."""


class BrokenTokens(Tokens):
    """The words of a line whose last word may be a part of one; they raise `BrokenOff` if it may stand where it is."""

    def end_at(self, *beginnings: str) -> None:
        """Raises `BrokenOff` where the last word begins so, or is a part of such a beginning."""
        word = self.peek()
        if self.place == len(self.words) - 1 and any(
            beginning.startswith(word) or word.startswith(beginning) for beginning in beginnings
        ):
            raise BrokenOff

    def take_field(self, field: Field, into: dict[str, Any]) -> None:
        """Reads a field's value."""
        self.end_at("" if field is BARE else f"{field.name}=")
        super().take_field(field, into)

    def take_part(self, part: Field | Group, into: dict[str, Any]) -> None:
        """Reads a field, or the fields of a group where the first of them is there."""
        if isinstance(part, Group):
            self.end_at(f"{part.fields[0].name}=")
        super().take_part(part, into)

    def take_shape(self, first: str) -> Shape:
        """Returns the shape of a line with this first word, by the word that gives its kind."""
        self.end_at(*(word for line, word in BY_WORDS if line == first and word is not None))
        return super().take_shape(first)


def kind_words(text: str) -> tuple[str, str | None]:
    """Returns the first word of a line, and the word that gives its kind, None if there is none."""
    first = text.partition(" ")[0]
    place = SECOND_PLACES.get(first)
    words = text.split(" ", place + 1) if place else []
    return first, words[place] if place and place < len(words) else None


def read_line(text: str) -> dict[str, Any]:
    """Returns the object of a line, which has no line feed; raises `NoLine` if it is not a line of the program.

    The object's keys are in the order of the line.
    """
    columns = COLUMNS.get(kind_words(text))
    match = columns.pattern.fullmatch(text) if columns else None
    if columns and match:
        fields = zip(columns.names, columns.readers, match.groups())
        try:
            return {name: read(value) for name, read, value in fields if value is not None}
        except NoLine:
            pass  # the field is named below
    first, *words = text.split(" ")
    return read_tokens(first, Tokens(words))


def read_tokens(first: str, tokens: Tokens) -> dict[str, Any]:
    """The object of a line, by its first word and the others."""
    if first not in FIRST:
        raise NoLine(f"{first[:30]!r} is not a kind of line")
    shape = FIRST[first]
    read: dict[str, Any] = {"line": first}
    for field in shape.head:
        tokens.take_field(field, read)
    if shape.word is not None:
        shape = tokens.take_shape(first)
        read[shape.key] = shape.word
    for part in shape.body:
        tokens.take_part(part, read)
    if tokens.place != len(tokens.words):
        raise NoLine(f"{tokens.peek()[:30]!r} follows the last field" if tokens.peek() else "an extra space at the end")
    return read


def begins_line(text: str) -> bool:
    """Whether a text is a line, or the beginning of one, as a writer leaves it that is ended amid a line."""
    first, *words = text.split(" ")
    if not words:
        return any(line.startswith(first) for line in FIRST)
    try:
        read_tokens(first, BrokenTokens(words))
    except BrokenOff:
        return True
    except NoLine:
        return False
    return True


def shape_of(given: dict[str, Any]) -> Shape:
    """The kind of line of which this is the object."""
    line = given.get("line")
    if not isinstance(line, str) or line not in FIRST:
        raise NoLine(f"line: {line!r} is not a kind of line")
    shape = FIRST[line]
    if shape.word is None:
        return shape
    word = given.get(shape.key)
    if not isinstance(word, str) or (line, word) not in BY_WORDS:
        raise NoLine(f"{shape.key}: {word!r} is not a kind of {line}")
    return BY_WORDS[line, word]


def spell_field(field: Field, given: dict[str, Any]) -> str:
    """Returns a field as it is written in the line, with a space before it."""
    if field.name not in given:
        raise NoLine(f"{field.name} is missing")
    try:
        value = field.form.spell(given[field.name])
    except NoLine as why:
        raise NoLine(f"{field.name}: {why}") from None
    return f" {value}" if field is BARE else f" {field.name}={value}"


def spell_part(part: Field | Group, given: dict[str, Any]) -> str:
    """Returns a field, or the fields of a group if one of them is there."""
    if isinstance(part, Field):
        return spell_field(part, given)
    if not any(field.name in given for field in part.fields):
        return ""
    return "".join(spell_field(field, given) for field in part.fields)


def spell_line(given: dict[str, Any]) -> str:
    """Returns the line of an object, without a line feed; raises `NoLine` if it is the object of none.

    Its keys may be in any order. One whose value is None counts as absent, as tables write it; so do the time and the
    place that a listening adds.
    """
    given = {name: value for name, value in given.items() if value is not None and name != TIME_NAME}
    shape = shape_of(given)
    given = {name: value for name, value in given.items() if name not in PLACE_NAMES or name == shape.key and shape.word}
    known = {"line"} | {field.name for field in shape.fields()} | ({shape.key} if shape.word else set())
    if unknown := [name for name in given if name not in known]:
        raise NoLine(f"a line of {shape.line} has no field {unknown[0][:30]!r}")
    text = shape.line + "".join(spell_field(field, given) for field in shape.head)
    if shape.word is not None:
        text += f" {shape.word}"
    return text + "".join(spell_part(part, given) for part in shape.body)


def table_rows() -> Iterator[str]:
    """Yields the list of all fields in docs/FORMATS.md: each kind of line, and below it a row for each field.

    The fields that all kinds of a line share come once, below the line's first word.
    """
    names = max(len(field.name) for shape in SHAPES for field in shape.fields())
    forms = max(len(field.form.text) for shape in SHAPES for field in shape.fields())

    def row(field: Field) -> str:
        return f"  {field.name:{names}}  {field.form.text:{forms}}  {field.meaning}"

    for line, shapes in itertools.groupby(SHAPES, key=lambda shape: shape.line):
        kinds = list(shapes)
        yield line
        yield from map(row, kinds[0].head)
        for kind in kinds:
            if kind.word is not None:
                yield f"{line} {kind.word}"
            yield from map(row, list(kind.fields())[len(kind.head) :])
