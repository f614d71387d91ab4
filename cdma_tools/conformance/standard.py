"""What the standard fixes of a case: which cases are asked, and which parts of their lines are compared."""

from __future__ import annotations

import functools
import re
from collections.abc import Sequence

from cdma_tools.conformance.cases import MOST_COMPARED, MOST_LETTERS, Answer, Case, lines_in, not_text
from cdma_tools.receiver_run import ended_text

KINDS = ("sync", "paging", "frame")
PLACE = re.compile(r" at=\d+")
FRAME = re.compile(r"frame rate=(\d+) good=1 bits=(\d+:[0-9a-f]*) ")
ANY_FRAME = ""  # of a frame that the standard doesn't fix
# Symbols of a frame that are lost to power control bits.
REPLACED = 32


def reason(case: Case) -> str:
    """Returns why the standard doesn't fix the results of a case, empty if it fixes some of them."""
    if case.status > 1 or case.input != "samples" or not case.scripts or case.text is None:
        return "what it expects is set by this project's formats"
    if any(words[:1] != ["follow"] for words in case.runs):
        return "its command is this project's own"
    if changed(case) or case.near is None and (case.places or case.noise or case.against or case.divide > 1):
        return "the standard doesn't say what is received of samples that aren't one cell's only"
    if not any("checks=0" in line for line in case.scripts[0]):
        return "its messages' checks are complemented, by a flag that is this project's own"
    if any(re.match(r"traffic at=\d+ .*handoff ", line) for line in case.text):
        return "it rests on this project's layouts of traffic messages and on its rules of handoff"
    if not any(part for kind in KINDS for part in fixed(case.text, kind, sent_by(case))):
        return "no line of it is fixed by the standard"
    return ""


def changed(case: Case) -> bool:
    """Whether the bytes of a case's samples are changed, cut or added to."""
    return bool(case.change[1]) or case.cut is not None or bool(case.add)


def sent_by(case: Case) -> set[tuple[str, str]]:
    """The rates and the bits of the frames that a case's first cell sends."""
    words = [line.split() for line in case.scripts[0] if line.startswith("frame ")]
    return {(line[1], line[2]) for line in words if len(line) > 2}


def fixed(lines: Sequence[str], kind: str, sent: set[tuple[str, str]]) -> list[str]:
    """Returns the part of each line of a kind that the standard fixes: all but its place, and of a frame its rate and
    bits."""
    parts = [PLACE.sub("", line, count=1) for line in lines if line.startswith(kind + " at=")]
    return [frame_part(part, sent) for part in parts] if kind == "frame" else parts


def frame_part(part: str, sent: set[tuple[str, str]]) -> str:
    """The rate and the bits of a frame; nothing of one that isn't good, wasn't sent, or could be of another rate."""
    found = FRAME.match(part)
    if not found or (found[1], found[2]) not in sent or not is_distinct(int(found[1]), found[2]):
        return ANY_FRAME
    return f"frame rate={found[1]} bits={found[2]}"


@functools.lru_cache(maxsize=4_096)
def is_distinct(speed: int, text: str) -> bool:
    """Whether each codeword of another rate differs from a frame's in more symbols than power control bits replace."""
    from cdma_model.bits import bits_of_text
    from cdma_model.coding import RATE_SET_1, code_symbols, frame_bits
    from cdma_model.frames import best_at

    rates = {rate.speed: rate for rate in RATE_SET_1}
    bits = bits_of_text(text)
    if speed not in rates or bits is None or len(bits) != rates[speed].information:
        return False
    sent = 1 - 2 * code_symbols(0, frame_bits(rates[speed], bits))[rates[speed].order]
    scores = [best_at(rate, sent)[0] for rate in RATE_SET_1 if rate.speed != speed]
    return all((len(sent) - score) // 2 > REPLACED for score in scores)


def matches(wanted: Sequence[str], written: Sequence[str], kind: str) -> bool:
    """Whether the expected lines occur in the output one after the other; any frame matches if none is fixed."""
    is_free = kind == "frame"
    for begin in range(len(written) - len(wanted) + 1):
        pairs = zip(wanted, written[begin:])
        if all(one == other or is_free and one == ANY_FRAME for one, other in pairs):
            return True
    return False


def longest(wanted: Sequence[str], written: Sequence[str]) -> int:
    """Returns the greatest number of first expected lines that occur in the output one after the other."""
    most = 0
    for begin in range(len(written)):
        here = 0
        for one, other in zip(wanted, written[begin:]):
            if one not in (other, ANY_FRAME):
                break
            here += 1
        most = max(most, here)
    return most


def differences(case: Case, answer: Answer) -> list[str]:
    """Returns the differences in the parts that the standard fixes, in lines, empty if there is none.

    The expected lines of each kind must occur in order, with nothing between. More may come before and after them: how
    soon and how late a receiver decodes is its own matter.
    """
    wrote = answer.wrote or b""
    written, _ = lines_in(wrote, len(case.text or []) + MOST_COMPARED)
    said = not_text(wrote)
    if answer.status not in (0, case.status):
        said.append(f"{ended_text(answer.status)}, wanted {case.status}")
    sent = sent_by(case)
    for kind in KINDS:
        wanted, heard = fixed(case.text or [], kind, sent), fixed(written, kind, sent)
        if not matches(wanted, heard, kind):
            place = longest(wanted, heard)
            missing = next((part for part in wanted[place:] if part), "a frame")[:MOST_LETTERS]
            said.append(f"{kind} line {place + 1} of {len(wanted)} wanted, and not written in this order: {missing}")
    return said
