"""Each command from its arguments and its input to its text and its status (docs/FORMATS.md)."""

from typing import Callable, Iterable, Iterator, NamedTuple

import numpy as np

from cdma_model.cell import samples
from cdma_model.coding import RATE_SET_2
from cdma_model.files import BadFile, Capture, header_bytes, read_capture, sample_bytes
from cdma_model.frames import traffic_frame
from cdma_model.handset import Assigned, follow, hear_sync, reference_frames, told
from cdma_model.lines import pilot_line, survey_line, trial_line
from cdma_model.lists import listed_frame
from cdma_model.script import TRIAL_ROW, BadScript, read_script, trial_script
from cdma_model.search import search, survey
from cdma_model.slots import slot_lines
from cdma_model.words import DEFAULTS, BadWords, Options, read_words

DONE, NO_SYNC, BAD_WORDS, BAD_FILE, BAD_SCRIPT = 0, 1, 2, 3, 8
SPAN = DEFAULTS["span"]


class Outcome(NamedTuple):
    """The end of a command: its status, its output, and the line on standard error."""

    status: int
    written: Iterable[bytes]
    said: str

    def text(self) -> bytes:
        """All that is written."""
        return b"".join(self.written)


READ_FAULT = Outcome(4, [], "read fault")
WRITE_FAULT = Outcome(5, [], "write fault")


def run(words: list[str], read: Callable[[], bytes]) -> Outcome:
    """Runs a command with such arguments on its input, which is read only if they are right."""
    try:
        command, options = read_words(words)
        if command == "trial":
            return Outcome(DONE, [as_bytes([trial(options["number"])])], "")
        if command == "make":
            return Outcome(DONE, make(read(), options["bits"]), "")
        return listen(command, options, read())
    except BadWords:
        return Outcome(BAD_WORDS, [], "bad words")
    except BadScript as why:
        return Outcome(BAD_SCRIPT, [], f"bad script: {why}")
    except BadFile as why:
        return Outcome(BAD_FILE, [], f"bad file: {why}")
    except OSError:
        return READ_FAULT


def as_bytes(lines: Iterable[str]) -> bytes:
    """Lines, each with its line feed."""
    return "".join(line + "\n" for line in lines).encode("ascii")


def make(script: bytes, bits: int) -> Iterable[bytes]:
    """The sample file of a script's cell, in pieces; raises `BadScript`."""
    cell = read_script(script, bits)

    def pieces() -> Iterator[bytes]:
        yield header_bytes(bits, cell.checks, cell.samples)
        for piece in samples(cell):
            yield sample_bytes(bits, piece)

    return pieces()


def listen(command: str, options: Options, data: bytes) -> Outcome:
    """Runs a command that reads a sample file; raises `BadFile` if the file has too few samples."""
    span = options["span"]
    capture = read_capture(data, span)
    if command == "survey":
        ranks = survey(capture.samples[:span], options["base"], options["width"])[: options["top"]]
        lines, synced = [survey_line(*rank) for rank in ranks], True
    else:
        lines, synced = heard_lines(command, options, capture)
    written = [as_bytes(lines)]
    if capture.end:
        return Outcome(BAD_FILE, written, f"bad file: {capture.end}")
    return Outcome(DONE, written, "") if synced else Outcome(NO_SYNC, written, "no sync message")


def assigned_of(options: Options) -> Assigned:
    """Returns the traffic channel of the options."""
    return Assigned(options["esn"], options["row"], options["offset"])


def heard_lines(command: str, options: Options, capture: Capture) -> tuple[list[str], bool]:
    """Returns the lines of a command that finds the pilot first, and whether it learned the time, if it needs that."""
    span = options["span"]
    found = search(capture.samples[:span], options.get("fingers", 1))
    taken = capture.taken(span)
    if command == "find":
        return [pilot_line(found.phase, found.energy)], True
    if command == "follow":
        assigned = assigned_of(options) if "esn" in options else None
        events, mark = follow(capture, found, options["paging"], assigned, taken)
        pilot = [pilot_line(found.phase, found.energy)] if options["pilots"] else []
        limits = {name: options[name] for name in ("pilots", "messages", "frames", "raw")}
        limits["pilots"] -= len(pilot)
        return pilot + list(told(events, limits)), mark is not None
    _, mark = hear_sync(capture, found, taken)
    if mark is None:
        return [], False
    if command == "idle":
        slots = slot_lines(capture, found, mark, options["paging"], options["key"], options["cycle"], taken)
        return list(slots), True
    if command == "rate2":
        frames = reference_frames(capture, found, mark, assigned_of(options), taken,
                                  lambda softs, places: traffic_frame(RATE_SET_2, softs, places), "frame2")  # fmt: skip
    else:
        frames = reference_frames(capture, found, mark, assigned_of(options), taken,
                                  lambda softs, places: listed_frame(options["k"], softs, places), "frame")  # fmt: skip
    return list(frames), True


def trial(number: int) -> str:
    """Returns the line of a trial: the link of a number, made and followed."""
    script, serial = trial_script(number)
    cell = read_script(script.encode("ascii"))
    link = np.concatenate([piece.astype(np.complex64) for piece in samples(cell)])
    capture = Capture(bool(cell.checks & 1), bool(cell.checks & 2), len(link), link, None)
    found = search(link[:SPAN])
    events, _ = follow(capture, found, 1, Assigned(serial, TRIAL_ROW, 0), len(link))
    counts = {"syncs": 0, "pagings": 0, "frames": 0, "good": 0}
    for event in events:
        kind = event.line.split(" ")[0] + "s"
        if kind in counts:
            counts[kind] += 1
        counts["good"] += bool(event.message.get("good"))
    return trial_line(number, len(link), found.phase, counts)
