"""Says in words what a cell's script sends: levels in dB, lengths in seconds, and the noise that each channel bears."""

import datetime
import math

from cdma_tools.margins import margin_of, name_of
from cdma_tools.scripts import PILOT_ROW, Script, Traffic, fields_of, read_script

CHIPS_A_SECOND = 1_228_800
FULL_SCALE = {16: 32_767, 8: 127}
EPOCH = datetime.datetime(1980, 1, 6)
UNIT = 0.08  # seconds of one unit of a cell's time


def decibels(ratio: float) -> str:
    """Returns a power ratio in dB, to one decimal."""
    return f"{10 * math.log10(ratio):.1f} dB"


def shown(text: str, width: int) -> str:
    """Returns the description of a script that is known to be right."""
    script = read_script(text, "the script")
    named = {line.split(" ", 1)[0]: fields_of(line.split(" ")) for line in text.split("\n", 4)[:4]}
    lines = [*cell_lines(script, named["cell"]), "", *channel_lines(script, width), ""]
    return "\n".join(lines + content_lines(script, named.get("sync"))) + "\n"


def cell_lines(script: Script, cell: dict[str, str]) -> list[str]:
    """Describes the cell, its time and its link."""
    moment = EPOCH + datetime.timedelta(seconds=int(cell["time"]) * UNIT)
    seconds = script.samples / CHIPS_A_SECOND
    real, imaginary = int(script.link.real), int(script.link.imag)
    checks = int(cell["checks"])
    complemented = [size for bit, size in ((1, "30-bit"), (2, "16-bit")) if checks & bit]
    return [
        f"cell     PN {cell['pn']}, long code {cell['lc'].lower()} at local chip 0",
        f"time     {cell['time']} units of 80 ms: {moment:%Y-%m-%d %H:%M:%S.%f}"[:-4] + " system time",
        f"checks   {' and '.join(complemented) + ' checks are complemented' if complemented else 'not complemented'}",
        f"link     times {real} {'-' if imaginary < 0 else '+'} {abs(imaginary)}j, from local chip {script.start:,}",
        f"length   {script.samples:,} samples, {seconds:.3f} s",
    ]


def channel_lines(script: Script, width: int) -> list[str]:
    """Lists the channels with their levels, and the peak against full scale."""
    total = sum(gain * gain for gain in script.gains.values())
    parts = abs(int(script.link.real)) + abs(int(script.link.imag))
    peak, full = parts * sum(script.gains.values()), FULL_SCALE[width]
    lines = [f"{'channel':<12}{'row':>4}{'gain':>7}{'of all power':>14}{'of the pilot':>14}{'bears noise':>13}"]
    for row, gain in script.gains.items():
        name = "pilot" if row == PILOT_ROW else name_of(script, row)
        margin = "" if row == PILOT_ROW else str(margin_of(script, gain) or 0)
        against = decibels((gain / script.gains[PILOT_ROW]) ** 2)
        lines.append(f"{name:<12}{row:>4}{gain:>7}{decibels(gain * gain / total):>14}{against:>14}{margin:>13}")
    lines.append(f"peak     {peak:,} of {full:,}, {decibels((peak / full) ** 2)} of full scale")
    return lines


def content_lines(script: Script, sync: dict[str, str] | None) -> list[str]:
    """Says what the channels send; `sync` has the fields of the sync message."""
    lines = []
    if sync:
        frequency = f", CDMA_FREQ {sync['freq']}" if "freq" in sync else ""
        lines.append(
            f"sync     SID {sync['sid']}, NID {sync['nid']}, P_REV {sync['prev']}, PRAT {sync['prat']}{frequency}"
        )
    if script.paging:
        rate = {0: 9600, 1: 4800}.get(script.prat if script.prat is not None else -1)
        lines.append(f"paging   channels {', '.join(map(str, script.paging))} at {rate} bits a second")
    lines += [traffic_line(channel) for channel in script.traffic]
    return lines or ["nothing but the pilot"]


def traffic_line(channel: Traffic) -> str:
    """Describes a traffic channel and the cycle of its frames."""
    counts = {rate: sum(1 for frame in channel.frames if frame.rate == rate) for rate in
              sorted({frame.rate for frame in channel.frames}, reverse=True)}  # fmt: skip
    kinds = ", ".join(f"{count} of {rate}" for rate, count in counts.items())
    return (
        f"traffic  row {channel.row}, ESN {channel.esn}, offset {channel.offset}: a cycle of {len(channel.frames)}"
        f" frames ({kinds} bits a second), {len(channel.frames) * 0.02:.2f} s"
    )
