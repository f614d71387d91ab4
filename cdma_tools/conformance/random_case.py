"""Random cases for `agree`: cells, paths, noise, cuts, arguments of every command, and scripts and files with faults.

A case is a text in the form of conformance/README.md without the expected results, and is the same for the same seed.
Files have no more samples than a handset needs to decode what the case is about.
"""

from __future__ import annotations

import random
import re
import shlex
from dataclasses import dataclass, field

from cdma_model.bits import Bits, spelled, text_of_bits
from cdma_model.cell import AHEAD, FRAME, SLOT
from cdma_model.coding import MESSAGE_16, RATE_SET_1, RATE_SET_2, Rate
from cdma_model.messages import IN_TRAFFIC_FIELDS, PRIMARY_BITS, SEARCH_FIELDS, SYSTEM_FIELDS, capsule_of
from cdma_model.slots import slot_of

SENDING = 3
"""Superframes of a sending of the shortest sync message; longer ones aren't sent here where more is heard."""

SMALL = 2_100
"""Samples of a file that is only searched."""


@dataclass
class Scene:
    """A random base station: its numbers, its gains, and what a handset may know of it."""

    rng: random.Random
    bits: int = 16
    pn: int = 0
    time: int = 0
    lc: int = 1
    checks: int = 0
    prat: int = 0
    start: int = 0
    serial: int = 0
    rows: list[int] = field(default_factory=list)
    channels: list[int] = field(default_factory=list)
    offset: int = 0
    second: int = 0
    sync: str = ""
    rate_set_2: bool = False
    handoff: bool = False
    weak: bool = False

    def gain(self) -> int:
        """A gain of which seven stay in the range of the samples, in three cells and with noise."""
        return self.rng.randint(3, 5) if self.bits == 8 else self.rng.randint(25, 150)

    def mark_slots(self) -> int:
        """Returns the time from the cell's time to the mark of the first whole transmission, in units of the system
        time."""
        sendings = -(-(self.start - 64 * self.pn) // (SLOT * SENDING))
        return SENDING * sendings + SENDING + AHEAD


def drawn_bits(rng: random.Random, count: int) -> Bits:
    """Returns `count` random bits."""
    return spelled(count, rng.getrandbits(count)) if count else []


def drawn_fields(rng: random.Random, table: dict[str, int], given: dict[str, int]) -> Bits:
    """The bits of a table's fields: those that are given, the others at random."""
    return [bit for name, width in table.items() for bit in spelled(width, given.get(name, rng.getrandbits(width)))]


def drawn_scene(rng: random.Random) -> Scene:
    """The numbers of a base station."""
    scene = Scene(rng, bits=rng.choice([16, 16, 16, 8]))
    scene.pn, scene.second = rng.sample(range(512), 2)
    scene.time, scene.lc = rng.choice([0, 1_000, 34_359_738_368, rng.getrandbits(35)]), rng.getrandbits(42) or 1
    scene.time = min(scene.time, 34_359_738_368)
    scene.checks, scene.serial = rng.randrange(4), rng.getrandbits(32)
    scene.offset = rng.choice([0, 15, rng.randrange(16)])
    scene.prat = rng.choice([0, 0, 0, 1, 1, 2, 3])
    scene.channels = rng.sample(range(1, 8), rng.randint(1, 2)) if scene.prat < 2 else []
    free = [row for row in range(1, 64) if row != 32 and row not in scene.channels]
    scene.rows = rng.sample(free, rng.randint(1, 2))
    sending = SLOT * SENDING * rng.randrange(3)
    scene.start = max(0, 64 * scene.pn + sending - rng.choice([0, rng.randrange(300), rng.randrange(30_000)]))
    frequency = (
        f"freq={rng.getrandbits(11)} rest=0:" if rng.random() < 0.3 else f"rest={text_of_bits(drawn_bits(rng, 3))}"
    )
    fields = {"prev": 8, "min": 8, "sid": 15, "nid": 16, "lp": 8, "ltm": 6, "daylt": 1}
    told = " ".join(f"{name}={rng.getrandbits(width)}" for name, width in fields.items())
    scene.sync = f"{told} prat={scene.prat} {frequency}"
    return scene


# ---- pages


def padded(rng: random.Random, body: Bits, check: int) -> Bits:
    """A body, and random bits up to a whole octet with MSG_LENGTH and the check."""
    return body + drawn_bits(rng, (-len(body) - check) % 8)


def drawn_page(scene: Scene) -> Bits:
    """A lawful body of a paging message."""
    rng = scene.rng
    pn = rng.choice([scene.pn, scene.pn, rng.randrange(512)])
    kind = rng.choice(["system", "neighbors", "channels", "other", "other"])
    if kind == "system":
        body = spelled(8, 1) + drawn_fields(rng, SYSTEM_FIELDS, {"pn": pn})
    elif kind == "neighbors":
        pilots = [rng.choice([scene.second, rng.randrange(512)]) for _ in range(rng.randrange(24))]
        body = spelled(8, 3) + drawn_fields(rng, {"pn": 9, "seq": 6, "inc": 4}, {"pn": pn})
        body += [bit for pilot in pilots for bit in spelled(3, rng.randrange(8)) + spelled(9, pilot)]
    elif kind == "channels":
        body = spelled(8, 4) + drawn_fields(rng, {"pn": 9, "seq": 6}, {"pn": pn})
        body += drawn_bits(rng, 11 * rng.randrange(9))
    else:
        number_of_type = rng.choice([kind for kind in range(256) if kind not in (1, 3, 4)])
        body = spelled(8, number_of_type) + drawn_bits(rng, 8 * rng.randrange(20))
    return padded(rng, body, 38)


def paging_lines(scene: Scene, channel: int) -> list[str]:
    """A paging channel with some pages, of which those follow at once that may."""
    lines, laid = [f"paging channel={channel} gain={scene.gain()}"], 0
    size = 95 if scene.prat == 0 else 47
    for place in range(scene.rng.randint(1, 4)):
        page = drawn_page(scene)
        follows = place > 0 and -laid % size >= 8 and scene.rng.random() < 0.7
        laid += (0 if follows else -laid % size) + len(page) + 38
        lines.append(f"page {'next' if follows else 'half'} {text_of_bits(page)}")
    return lines


# ---- traffic channels


def drawn_direction(scene: Scene) -> Bits:
    """Returns the bits after the head of a handoff direction, which may be one that is refused."""
    rng = scene.rng
    search = rng.random() < 0.4
    soon = (scene.time + scene.mark_slots() + rng.randint(1, 2)) % 64
    use = rng.choice([{"use": 0}, {"use": 1}, {"use": 1, "action": soon}])
    if scene.handoff:
        return [1] + spelled(6, soon) + spelled(3, 0) + spelled(4, 0) + both_pilots(scene)
    body = drawn_fields(rng, {"use": 1, "action": 6, "hdm": 2}, use) + [int(search)]
    if search:
        body += drawn_fields(rng, SEARCH_FIELDS, {})
    extra = rng.choice([0, 0, rng.randrange(8)])
    body += [int(rng.random() < 0.05)] + spelled(3, extra) + drawn_bits(rng, 8 * extra)
    pilots = [scene.pn, scene.second, *(rng.randrange(512) for _ in range(5))]
    for _ in range(rng.choice([1, 1, 2, 2, 3, 6, 7])):
        row = rng.choice([*scene.rows, rng.randrange(1, 64), rng.randrange(256)])
        body += spelled(9, rng.choice(pilots[:2] + pilots)) + [rng.getrandbits(1)] + spelled(8, row)
    return body


def both_pilots(scene: Scene) -> Bits:
    """The records of a direction to the two cells, or to one of them, in either order."""
    rng = scene.rng
    records = [(scene.pn, rng.choice(scene.rows)), (scene.second, rng.choice(scene.rows))]
    rng.shuffle(records)
    records = records[: rng.choice([1, 2, 2, 2])]
    return [bit for pilot, row in records for bit in spelled(9, pilot) + [rng.getrandbits(1)] + spelled(8, row)]


def drawn_message(scene: Scene) -> Bits:
    """The body of a traffic message, which may be invalid for its type."""
    rng = scene.rng
    kind = rng.choice([8, 17, 17] if scene.handoff else [7, 8, 17, 17, rng.randrange(256)])
    clear = scene.handoff or rng.random() < 0.8
    head = spelled(8, kind) + drawn_bits(rng, 7) + ([0, 0] if clear else drawn_bits(rng, 2))
    if kind == 7:
        body = head + drawn_fields(rng, IN_TRAFFIC_FIELDS, {}) + drawn_bits(rng, 8 * rng.randrange(3))
    elif kind == 8:
        pilots = [rng.choice([scene.second, rng.randrange(512)]) for _ in range(rng.randrange(23))]
        body = head + drawn_bits(rng, 4) + [bit for pilot in pilots for bit in spelled(9, pilot)]
    elif kind == 17:
        body = head + drawn_direction(scene)
    else:
        body = head + drawn_bits(rng, rng.randrange(60))
    return padded(rng, body, 24)


def signalling(scene: Scene) -> list[Bits]:
    """The information of the frames of 9,600 bits a second that carry a message."""
    rng = scene.rng
    mode = rng.randrange(4)
    primary, size = PRIMARY_BITS[mode], 167 - PRIMARY_BITS[mode]
    capsule = capsule_of(drawn_message(scene), bool(scene.checks & 2), MESSAGE_16)
    found = []
    for at in range(0, len(capsule), size):
        part = capsule[at : at + size]
        front = [1, 0] + spelled(2, mode) + drawn_bits(rng, primary) + [int(at == 0)]
        found.append(front + part + [0] * (size - len(part)))
    return found


def frame_line(scene: Scene, rate: Rate, information: Bits) -> str:
    """A frame with random power control bits."""
    name = "frame2" if scene.rate_set_2 else "frame"
    return f"{name} {rate.speed} {text_of_bits(information)} {''.join(map(str, drawn_bits(scene.rng, 16)))}"


def traffic_lines(scene: Scene, row: int, signals: bool) -> list[str]:
    """A traffic channel with a short cycle of frames, some of which may carry messages."""
    rng = scene.rng
    lines = [f"traffic row={row} esn={scene.serial:08x} offset={scene.offset} gain={scene.gain()}"]
    for _ in range(rng.randint(1, 4)):
        if signals and (scene.handoff or rng.random() < 0.6):
            lines += [frame_line(scene, RATE_SET_1[0], information) for information in signalling(scene)]
        else:
            rate = rng.choice(RATE_SET_2 if scene.rate_set_2 else RATE_SET_1)
            lines.append(
                frame_line(scene, rate, rng.choice([drawn_bits(rng, rate.information), [0] * rate.information]))
            )
    return lines


# ---- scripts


def link_line(scene: Scene, start: int, samples: int) -> str:
    """A link of any direction, which amplifies little."""
    links = [(1, 0), (0, 1), (-1, 0), (0, -1)]
    if scene.bits == 16 and not scene.weak:
        links = [(2, 1), (1, -2), (-1, 1), (0, -3), (3, 0)]
    real, imaginary = scene.rng.choice(links)
    return f"link re={real} im={imaginary} start={start} samples={samples}"


def script_of(scene: Scene, samples: int, what: str) -> list[str]:
    """Returns the lines of a cell: only its `pilot`, its `sync` channel too, or `all` its channels."""
    lines = [f"cell pn={scene.pn} time={scene.time} lc={scene.lc:011x} checks={scene.checks}",
             link_line(scene, scene.start, samples), f"pilot gain={scene.gain() * 2}"]  # fmt: skip
    if what != "pilot":
        lines.append(f"sync gain={scene.gain()} {scene.sync}")
    if what == "all":
        lines += [line for channel in scene.channels for line in paging_lines(scene, channel)]
        signals = scene.handoff or not scene.rate_set_2 and scene.rng.random() < 0.7
        lines += [line for row in scene.rows for line in traffic_lines(scene, row, signals)]
    return lines


def other_path(scene: Scene, script: list[str], samples: int) -> list[str]:
    """The same cell over a path of another length."""
    start = max(0, scene.start + scene.rng.randint(-40, 40))
    return [link_line(scene, start, samples) if line.startswith("link") else line for line in script]


def other_cell(scene: Scene, samples: int) -> list[str]:
    """The second cell, which sends a traffic channel to the same handset on some row."""
    other = drawn_scene(scene.rng)
    other.bits, other.pn, other.time, other.lc, other.serial = (
        scene.bits,
        scene.second,
        scene.time,
        scene.lc,
        scene.serial,
    )
    other.offset, other.start, other.rows = scene.offset, max(0, scene.start + scene.rng.randint(-30, 30)), scene.rows
    other.checks, other.weak, other.handoff = scene.checks, scene.handoff or scene.rng.random() < 0.5, scene.handoff
    other.channels = [channel for channel in other.channels if channel not in other.rows]
    return script_of(other, samples, "all")


def air(scene: Scene, samples: int, what: str) -> list[str]:
    """The lines of a case that make its samples: one cell, other paths, a second cell, noise."""
    rng = scene.rng
    scripts = [script_of(scene, samples, what)]
    if rng.random() < 0.3:
        scripts.append(other_path(scene, scripts[0], samples))
    if what == "all" and (scene.handoff or rng.random() < 0.3):
        scripts.append(other_cell(scene, samples))
    lines = [f"bits: {scene.bits}"]
    if len(scripts) > 1:
        lines.append("places: " + " ".join("0" for _ in scripts[1:]))
    if rng.random() < 0.4:
        bound = rng.choice([0, 3, 8, 20]) if scene.bits == 8 else rng.choice([0, 100, 1_000, 4_000, 8_000])
        lines.append(f"noise: {rng.getrandbits(32)} {bound}")
    return lines + [line for script in scripts for line in ["script:", *("  " + line for line in script)]]


# ---- arguments


def words_of(rng: random.Random, command: str, options: dict[str, str]) -> str:
    """A line of arguments, its options in any order and of either spelling."""
    given = list(options.items())
    rng.shuffle(given)
    words = [command]
    for name, value in given:
        words += [f"--{name}={value}"] if rng.random() < 0.3 else [f"--{name}", value]
    return "words: " + shlex.join(words)


def search_options(rng: random.Random, samples: int) -> dict[str, str]:
    """Options of the search, which may be missing."""
    options = {"workers": str(rng.randint(1, 64))} if rng.random() < 0.3 else {}
    if rng.random() < 0.3 or samples < 2_048:
        options["span"] = str(rng.choice([64, rng.randint(64, min(samples, 32_768)), min(samples, 32_768)]))
    return options


def heard_options(scene: Scene, command: str, samples: int) -> dict[str, str]:
    """Returns options of a command that decodes frames, mostly those of what the scene sends."""
    rng = scene.rng
    options = search_options(rng, samples)
    if rng.random() < 0.6:
        options["fingers"] = str(rng.randint(1, 3))
    if command in ("follow", "idle") and scene.channels and rng.random() < 0.9:
        options["paging"] = str(rng.choice(scene.channels))
    if command in ("rate2", "list") or scene.handoff or command == "follow" and rng.random() < 0.8:
        options["esn"] = f"{scene.serial if rng.random() < 0.95 else rng.getrandbits(32):08x}"
        options["row"] = str(scene.rows[0] if rng.random() < 0.95 else rng.randrange(1, 64))
        options["offset"] = str(scene.offset if rng.random() < 0.95 else rng.randrange(16))
    if command == "list":
        options["k"] = str(rng.choice([1, 2, 3, 4, 16]))
    if command == "follow":
        for name in ("pilots", "messages", "frames", "raw"):
            if rng.random() < 0.15:
                options[name] = str(rng.choice([0, 1, 2, 4_294_967_295]))
    return options


# ---- the kinds of case


def searched(rng: random.Random) -> list[str]:
    """`find` or `survey` over a short file."""
    scene = drawn_scene(rng)
    samples = rng.choice([SMALL, rng.randint(64, 5_000), rng.choice([64, 2_048, 32_768])])
    command = rng.choice(["find", "survey"])
    options = search_options(rng, samples)
    if command == "survey":
        table = {"base": 32_767, "width": 31, "top": 512}
        options |= {name: str(rng.randint(name == "top", most)) for name, most in table.items() if rng.random() < 0.5}
    return [words_of(rng, command, options), *air(scene, samples, rng.choice(["pilot", "sync", "all"]))]


def synced(rng: random.Random) -> list[str]:
    """`follow` over a file that ends before the mark, or has none."""
    scene = drawn_scene(rng)
    samples = rng.choice([SLOT * SENDING + rng.randint(-40_000, 40_000), rng.randint(2_048, 420_000)])
    return [words_of(rng, "follow", heard_options(scene, "follow", samples)), *air(scene, samples, "sync")]


def followed(rng: random.Random) -> list[str]:
    """`follow`, `rate2`, `list` or `idle` over a file that ends some frames after the mark."""
    return heard(drawn_scene(rng), rng.choice(["follow", "follow", "follow", "rate2", "list", "idle"]))


def handed(rng: random.Random) -> list[str]:
    """`follow` over two cells, with directions to both of them."""
    scene = drawn_scene(rng)
    scene.handoff, scene.prat = True, 3
    scene.channels = []
    scene.sync = re.sub(r"prat=\d", "prat=3", scene.sync)
    return heard(scene, "follow")


def heard(scene: Scene, command: str) -> list[str]:
    """Returns a case of a command that decodes frames, over a file that ends some frames after the mark."""
    rng = scene.rng
    scene.rate_set_2 = command == "rate2" and rng.random() < 0.9 or command == "follow" and rng.random() < 0.1
    if scene.handoff:
        scene.rate_set_2 = False
    counts = [rng.randint(1, 5), rng.randint(6, 9), rng.randint(10, 14)] if command == "follow" else [2, 3]
    behind = rng.randint(9, 14) if scene.handoff else rng.choice(counts)
    mark = SLOT * scene.mark_slots() - scene.start
    samples = mark + FRAME * behind + rng.choice([0, rng.randrange(-50, 50), rng.randrange(FRAME)])
    options = heard_options(scene, command, samples)
    if command == "idle":
        samples, options = slot_heard(scene, options, mark)
    return [words_of(rng, command, options), *air(scene, samples, "all")]


def slot_heard(scene: Scene, options: dict[str, str], mark: int) -> tuple[int, dict[str, str]]:
    """A file of one to three slots after the mark, and a key that mostly has one of them."""
    rng = scene.rng
    count = rng.randint(1, 3)
    cycle = rng.choice([0, 0, 1, 7])
    wanted = (scene.time + scene.mark_slots() + rng.randrange(count)) % (16 << cycle)
    keys = (rng.getrandbits(32) for _ in range(200 if rng.random() < 0.9 else 1))
    key = next((key for key in keys if slot_of(key) % (16 << cycle) == wanted), rng.getrandbits(32))
    return mark + SLOT * count + rng.randrange(100), options | {"key": f"{key:08x}", "cycle": str(cycle)}


def damaged_file(rng: random.Random) -> list[str]:
    """A command over a sample file that is cut, too long, or has another header."""
    scene = drawn_scene(rng)
    command = rng.choice(["find", "survey", "follow"])
    samples = rng.choice([64, SMALL, rng.randint(2_048, 20_000), 230_000 if command == "follow" else 64])
    options = search_options(rng, samples)
    width = 4 if scene.bits == 16 else 2
    fault = rng.choice(["cut", "cut", "add", "change", "change"])
    if fault == "cut":
        line = f"cut: {rng.choice([0, 8, 15, 16, 17, rng.randrange(16 + width * samples)])}"
    elif fault == "add":
        line = f"add: {rng.getrandbits(16):04x}"
    else:
        piece = rng.choice(["00 00", "01 00000002", "05 00", "05 02", "06 01", "07 04", "08 01", "12 08", "15 01"])
        line = "change: {} {}".format(*piece.split())
    return [words_of(rng, command, options), line, *air(scene, samples, "sync")]


def made(rng: random.Random) -> list[str]:
    """`make` of a lawful script, or of one with a fault."""
    scene = drawn_scene(rng)
    scene.rate_set_2 = rng.random() < 0.3
    scene.start = rng.choice([scene.start, rng.randrange(1 << 22), (1 << 32) - 1])
    script = script_of(scene, rng.choice([1, 63, 65, rng.randrange(1, 60_000)]), rng.choice(["pilot", "sync", "all"]))
    if rng.random() < 0.7:
        script = spoiled(rng, script)
    options = {"bits": str(rng.choice([8, 16]))} if rng.random() < 0.5 or scene.bits == 8 else {}
    lines = [words_of(rng, "make", options), "input: script"]
    if rng.random() < 0.1:
        lines.append(
            rng.choice(["cut: -1", f"change: {rng.randrange(200)} {rng.choice(['0d', '00', '20', 'ff', '0a'])}"])
        )
    return [*lines, "script:", *("  " + line for line in script)]


def spoiled(rng: random.Random, script: list[str]) -> list[str]:
    """A script with a line too many, too few, or in which a word is another."""
    script = list(script)
    at = rng.randrange(len(script))
    how = rng.choice(["drop", "double", "swap", "word", "word", "letter", "gain", "row", "long"])
    if how in ("gain", "row", "long"):
        return [unfit(rng, how, line, script) for line in script]
    if how == "drop":
        del script[at]
    elif how == "double":
        script.insert(at, rng.choice(script))
    elif how == "swap":
        other = rng.randrange(len(script))
        script[at], script[other] = script[other], script[at]
    elif how == "word":
        words = script[at].split(" ")
        place = rng.randrange(1, len(words))
        name, equals, _ = words[place].partition("=")
        values = ["0", "1", "-1", "-0", "00", "32", "64", "511", "512", "32768", "65536", "4294967296", "x", ""]
        values += ["18446744073709551615", "18446744073709551616", "67108865", "3:a0", "3:A0", "3:a1", "0:", "16:ffff"]
        words[place] = name + equals + rng.choice(values) if equals else rng.choice(values)
        script[at] = " ".join(words)
    elif script[at]:
        place = rng.randrange(len(script[at]))
        script[at] = script[at][:place] + rng.choice(" =0fF:-\t") + script[at][place + rng.randrange(2) :]
    return script if not any(is_too_long(line) for line in script) else script[:1]


def unfit(rng: random.Random, how: str, line: str, script: list[str]) -> str:
    """A lawful line that a rule of the whole script may refuse: a gain of 0, a row that is taken, too many samples."""
    words = line.split(" ")
    if how == "gain" and rng.random() < 0.4:
        words = ["gain=0" if word.startswith("gain=") else word for word in words]
    if how == "row" and rng.random() < 0.7:
        taken = [word[8:] for other in script for word in other.split(" ") if word.startswith("channel=")]
        words = [f"row={rng.choice([*taken, '0', '32', '40'])}" if word.startswith("row=") else word for word in words]
    if how == "long":
        words = ["samples=67108865" if word.startswith("samples=") else word for word in words]
    return " ".join(words)


def is_too_long(line: str) -> bool:
    """Whether a line asks for many samples that can be made."""
    counts = [word[8:] for word in line.split(" ") if word.startswith("samples=")]
    return any(count.isdecimal() and 200_000 < int(count) <= 1 << 26 for count in counts)


NAMES = ["span", "workers", "fingers", "paging", "esn", "row", "offset", "pilots", "messages", "frames", "raw", "key",
         "cycle", "base", "width", "top", "k", "number", "bits", "help"]  # fmt: skip
VALUES = ["0", "1", "2", "3", "4", "7", "8", "15", "16", "31", "32", "63", "64", "65", "512", "2048", "02048", "32767",
          "32768", "0000abcd", "0000ABCD", "abcd", "-1", "", "x", "4294967295", "4294967296", "18446744073709551615",
          "18446744073709551616", "00000000000000000001", "000000000000000000001"]  # fmt: skip


def worded(rng: random.Random) -> list[str]:
    """Any arguments, over a short file."""
    commands = ["find", "follow", "rate2", "list", "idle", "survey", "make", "FIND", ""]
    options = {rng.choice(NAMES): rng.choice(VALUES) for _ in range(rng.randrange(4))}
    needed = {"rate2": ["esn", "row"], "list": ["esn", "row", "k"], "idle": ["key"], "follow": ["esn", "row"]}
    command = rng.choice(commands)
    if rng.random() < 0.7:
        lawful = {"esn": "0000abcd", "row": "10", "k": "4", "key": "00000001"}
        options |= {name: lawful[name] for name in needed.get(command, []) if name not in options}
    line = words_of(rng, command, options)
    if rng.random() < 0.15:
        line += " " + rng.choice(["--", "-h", "--help", "--version", "--span", "more", "--span 64 --span 64"])
    return [line, *air(drawn_scene(rng), SMALL, "pilot")]


def tried(rng: random.Random) -> list[str]:
    """A trial."""
    return [f"words: trial --number {rng.choice([rng.randrange(1000), rng.getrandbits(64)])}", "input: nothing"]


KINDS = [(made, 25), (searched, 16), (worded, 14), (damaged_file, 10), (synced, 8), (followed, 20.6), (handed, 6),
         (tried, 0.4)]  # fmt: skip
"""The kinds of case, and how many of 100 are of each."""


def random_case(seed: int) -> str:
    """The text of the case of a seed."""
    rng = random.Random(seed)
    kind = rng.choices([kind for kind, _ in KINDS], [weight for _, weight in KINDS])[0]
    return "".join(line + "\n" for line in [f"purpose: the case of the seed {seed} of tools/agree", *kind(rng)])
