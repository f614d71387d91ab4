"""The lines that the commands write (docs/FORMATS.md, "Lines")."""

from typing import Any, Iterable

from cdma_model.bits import Bits, text_of_bits
from cdma_model.frames import Decoded
from cdma_model.messages import HANDOFF_FIELDS, HEAD_FIELDS, IN_TRAFFIC_FIELDS, SYNC_FIELDS, SYSTEM_FIELDS, Message


def fields(message: dict[str, Any], names: Iterable[str]) -> str:
    """Fields as ` name=value`."""
    return "".join(f" {name}={message[name]}" for name in names)


def joined(records: Iterable[Any]) -> str:
    """Records separated by commas, the numbers of each by slashes."""
    return ",".join("/".join(map(str, record)) if isinstance(record, tuple) else str(record) for record in records)


def pilot_line(phase: int, energy: int) -> str:
    """The best phase of a search."""
    return f"pilot phase={phase} energy={energy}"


def survey_line(pilot: int, delta: int, energy: int) -> str:
    """A pilot's rank."""
    return f"survey pn={pilot} delta={delta} energy={energy}"


def sync_line(at: int, message: Message) -> str:
    """A sync message."""
    told = message | {"lc": f"{message['lc']:011x}"}
    names = [*SYNC_FIELDS, *(["freq"] if "freq" in message else [])]
    return f"sync at={at}{fields(told, names)} rest={text_of_bits(message['rest'])}"


def other_text(message: Message) -> str:
    """A message that isn't read field by field."""
    return f"other type={message['type']} bits={text_of_bits(message['rest'])}"


def paging_line(at: int, message: Message) -> str:
    """A paging message."""
    what = message["what"]
    if what == "other":
        return f"paging at={at} {other_text(message)}"
    if what == "system":
        told = fields(message, SYSTEM_FIELDS)
    elif what == "neighbors":
        pilots = joined(zip(message["configs"], message["pilots"]))
        told = f"{fields(message, ('pn', 'seq', 'inc'))} pilots={pilots}"
    else:
        told = f"{fields(message, ('pn', 'seq'))} freqs={joined(message['freqs'])}"
    return f"paging at={at} {what}{told} rest={text_of_bits(message['rest'])}"


def traffic_line(at: int, message: Message) -> str:
    """A message of the traffic channel."""
    what, head = message["what"], f"traffic at={at}{fields(message, HEAD_FIELDS)} "
    if what == "other":
        return head + other_text(message)
    if what == "system":
        told = fields(message, IN_TRAFFIC_FIELDS)
    elif what == "neighbors":
        told = f" inc={message['inc']} pilots={joined(message['pilots'])}"
    else:
        search = fields(message["search"], message["search"])
        extra = text_of_bits(message["extra"])
        told = f"{fields(message, HANDOFF_FIELDS)}{search} extra={extra} records={joined(message['records'])}"
    return f"{head}{what}{told} rest={text_of_bits(message['rest'])}"


def frame_line(name: str, at: int, frame: Decoded, commands: str) -> str:
    """A frame of a traffic channel: `frame`, or `frame2` for rate set 2."""
    bits = text_of_bits(frame.bits)
    return f"{name} at={at} rate={frame.speed} good={int(frame.good)} bits={bits} commands={commands}"


def sets_line(at: int, time: int, shown: tuple[list[tuple[int, int, int]], list[int]], report: bool) -> str:
    """The pilot sets after a moment."""
    active, candidates = joined(shown[0]), joined(shown[1])
    return f"sets at={at} time={time} active={active} candidate={candidates} report={int(report)}"


def slot_line(at: int, time: int, messages: int) -> str:
    """Returns the line of a slot that a sleeping handset monitors."""
    return f"slot at={at} time={time} messages={messages}"


def raw_line(at: int, channel: str, capsule: Bits) -> str:
    """A message as it came."""
    return f"raw at={at} {channel} {text_of_bits(capsule)}"


def trial_line(number: int, samples: int, phase: int, counts: dict[str, int]) -> str:
    """Returns the line of a trial."""
    return f"trial number={number} samples={samples} phase={phase}{fields(counts, counts)}"
