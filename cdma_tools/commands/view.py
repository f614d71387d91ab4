"""Shows in the browser what a radio or a recording contains, while `listen` decodes it.

SOURCE is one of `listen`: a file of samples, a .sigmf-meta, .sigmf or .wav, - for standard input, or the address of a
live source (rtl_tcp://, tcp://, udp://, zmq://, soapy:); or a file of lines that `listen` wrote, which has no
samples. A file of samples is played in real time, or --speed times as fast.

The page's address is printed, and a browser is opened with it. The page shows the spectrum and its waterfall, the
pilot, the code domain, the symbols of the pilot, sync and paging channels, figures over time, cells by PN, the base
station, and each message and frame. A click on a line shows its fields. It can be paused, and saves the lines so far, a
report of them, and the last 27 seconds as a sample file. It needs no network, and several browsers may show it.

Several channels are followed at once with --paging 1,2 or all, --traffic and --traffic-file, and several carriers of a
wide recording with --shift, repeated. With --cells K the K strongest cells of a file of samples are followed, and with
--pn P those with that PILOT_PN: first each is freed of the others, as with `listen`, and then all are played at once.
The table of lines has the cell and the channel of each, and can be filtered by them. The other panels, the report and
the sample file are those of the cell that is chosen in the page's head, at first the strongest of the first carrier.
What all channels of a cell have, as its sync messages, is shown once.

`listen` runs in its own process, and doesn't wait for a browser: a page gets at most ten updates a second, and
says how many lines and spectra it missed if it is too slow.

    tools/view radio.sigmf-meta
    tools/view --rate 2.4M --channel 283 --band 800 rtl_tcp://radio:1234
    rtl_sdr -f 878490000 -s 2400000 - | tools/view --type cu8 --rate 2400000 -
    tools/view radio.sigmf-meta --paging all --traffic 00c0ffee:12:2 --traffic 00c0fff0:13:0
    tools/view radio.sigmf-meta --cells 3
    tools/view call.jsonl --no-browser --port 8080

The server is bound to 127.0.0.1. With --listen ADDRESS others can reach it too, but only by the whole printed address:
its path is a secret, which is new each time.

If the source ends or fails, one line says so, and the page keeps what it has until Ctrl-C; with --exit the command ends
with the source. The first Ctrl-C or SIGTERM ends it in an orderly way, as with `listen`; a second one ends it at once.

Exit status: 0 a pilot was found, or lines were read, 1 no pilot was found, the source can't be read or the port is
taken, 2 wrong arguments.
"""

import argparse
import os
import webbrowser
from functools import partial

from cdma_tools.arguments import Parser, number_within, whole_within
from cdma_tools.commands import listen
from cdma_tools.listening.channel_options import add_channel_options
from cdma_tools.listening.options import (
    add_handset,
    add_lock,
    add_source,
    check_handset,
    check_source,
    check_there,
    flags_of,
    paging_number,
    shifts_of,
)
from cdma_tools.overwriting import STANDARD
from cdma_tools.sources.live import scheme_of
from cdma_tools.sources.options import add_radio_options
from cdma_tools.view.chip_store import ChipStore
from cdma_tools.view.listener import ListenerProcess, shows_lines
from cdma_tools.view.safety import LOOPBACK, Door
from cdma_tools.view.server import Hub, bound, plotly_path, serve
from cdma_tools.view.steps import Handset

LEAST_PORT, MOST_PORT = 1, 65_535
SPEEDS = (0.1, 1_000)
MOST_FOLLOWED = 64  # cells, each with a file of its last chips
DISPLAYS = ("DISPLAY", "WAYLAND_DISPLAY")  # variables of which one is set if a browser can open a window


def parser() -> Parser:
    """The arguments of the command line."""
    words = Parser("view", __doc__)
    add_source(words)
    pages = words.add_argument_group("the page")
    pages.add_argument(
        "--port", type=whole_within(LEAST_PORT, MOST_PORT), metavar="N", help="port of the page (default a free one)"
    )
    pages.add_argument("--no-browser", action="store_true", help="only print the address, and open no browser")
    reached = f"address to which the server is bound, as 0.0.0.0 for all of this machine (default {LOOPBACK})"
    pages.add_argument("--listen", default=LOOPBACK, metavar="ADDRESS", help=reached)
    pages.add_argument("--exit", action="store_true", help="end when the source ends")
    paced = "play a file of samples N times as fast as it was recorded (default 1)"
    pages.add_argument("--speed", type=number_within(*SPEEDS), default=1.0, metavar="N", help=paced)
    add_radio_options(words)
    add_handset(words)
    add_channel_options(words)
    listen.add_cells(words)
    words.set_defaults(out_dir=None)
    add_lock(words)
    return words


def check(words: argparse.ArgumentParser, options: argparse.Namespace) -> None:
    """Ends with status 2 if arguments don't go together; refuses a source or a program that isn't there."""
    has_cells, has_lines = options.cells is not None or options.pn is not None, shows_lines(options)
    if has_cells and (has_lines or scheme_of(options.source) is not None or options.source == STANDARD):
        words.error("--cells and --pn go with a file of samples")
    if most_cells(options) > MOST_FOLLOWED:
        words.error(f"more than {MOST_FOLLOWED} cells on all carriers")
    if has_lines:
        return
    check_source(words, options)
    listen.check_cells(words, options)
    if options.raw and listen.has_channels(options):
        words.error("--raw goes with one channel")
    check_handset(words, options)
    listen.channels_wanted(options)
    check_there(options)


def most_cells(options: argparse.Namespace) -> int:
    """Returns the greatest number of cells that may be followed, on all carriers."""
    return (options.cells or len(options.pn or (0,))) * len(shifts_of(options))


def open_browser(url: str) -> None:
    """Opens the page in the user's browser, if there is a screen."""
    if any(name in os.environ for name in DISPLAYS):
        webbrowser.open(url)


def main(arguments: list[str] | None = None) -> int:
    """Runs the tool, and returns its exit status."""
    words = parser()
    options = words.parse_args(arguments)
    check(words, options)
    plotly_path()
    sockets = bound(options.listen, options.port or 0)
    stores = [ChipStore() for _ in range(most_cells(options))]
    door = Door.of(options.listen, sockets[0].getsockname()[1])
    print(door.url, flush=True)
    if not options.no_browser:
        open_browser(door.url)
    handset = Handset(paging_number(options), options.esn, options.offset or 0, flags_of(options))
    hub = Hub(os.path.basename(options.source), stores, handset, options.row)
    begin = partial(ListenerProcess, options, stores, [one.fileno() for one in sockets])
    return serve(hub, begin, sockets, door, options.exit)
