"""Times the built program on inputs that it makes itself, and prints a table.

For each run: the best wall-clock time of several, and the greatest resident memory. Then, as tests of receiver_tests do
it, the sweep over all phases, on lanes and by a plain loop, the decoder and the list decoder. Then, as tests of
message_tests do it, a million messages of each kind, read and written. Build them first, with `tools/build`, `(cd
crates/receiver_tests && rt test)` and `(cd crates/message_tests && rt test)`.

    tools/bench
    tools/bench ./cdma_replay
    tools/bench --peers

--peers times other work instead: ours and that of Debian's libraries, in turns and on the same numbers. It takes the
best codeword of 192 bits by libfec and IT++; all phases of 2,048 samples by FFTW, in single and double precision; and
two seconds of a recording through the pulse by GNU Radio's resampler, next to the front of tools/import_capture --lock.
Small programs are built around the libraries in a temporary folder, which needs gcc and g++ and the packages
libfec-dev, libitpp-dev, libfftw3-dev and gnuradio; a line says what is missing. The times are processor times, the
least of many runs, and each result is compared with ours. Each line says what a library lacks.

Exit status: 0 all was timed, 1 something couldn't be, 2 wrong arguments.
"""

import os
import random
import re
import subprocess
import tempfile
import time
from typing import IO

from cdma_tools.arguments import Parser
from cdma_tools.errors import Refused
from cdma_tools.overwriting import InputFile
from cdma_tools.places import EXAMPLES, TOP
from cdma_tools.program import add_program_option, find_program, written_of
from cdma_tools.sample_header import header

TESTS = os.path.join(TOP, "crates", "receiver_tests", "out", "receiver_tests_tests")
PLAIN_TEST = "plain_search_tests::plain_loops_find_the_best_of_all_phases"
LANES_TEST = "plain_search_tests::lanes_find_the_best_of_all_phases"
# The module of the decoders' tests, and one that takes next to no time.
DECODER = "decoder_timing_tests"
SHORT_TEST = "decodes_nine_bits"
# Of each length and ends: the bits, and the test with the number of times that it decodes.
DECODINGS = [
    ("576 free bits", 576, "decodes_576_free_bits_100_times", 100),
    ("192 between zeros", 192, "decodes_192_bits_between_zeros_300_times", 300),
    ("4 of 192 bits", 192, "lists_4_of_192_bits_100_times", 100),
]
# Tests that read or write a message this many times, and one that takes almost no time.
MESSAGE_TESTS = os.path.join(TOP, "crates", "message_tests", "out", "message_tests_tests")
MESSAGE_TIMER = "message_timing_tests"
MESSAGE_SHORT_TEST = "a_message_is_written"
MESSAGE_TURNS = 10_000
MESSAGES = [
    ("sync", "sync_is"),
    ("paging, system", "system_parameters_are"),
    ("paging, neighbors", "neighbor_list_is"),
    ("paging, channels", "channel_list_is"),
    ("paging, other", "other_paging_is"),
    ("traffic, system", "in_traffic_is"),
    ("traffic, neighbors", "neighbor_update_is"),
    ("traffic, handoff", "handoff_direction_is"),
    ("traffic, other", "other_traffic_is"),
]
SCRIPT = os.path.join(EXAMPLES, "second_of_sync.script")
PAGES = "".join(f"paging channel={number} gain=60\npage half 34:04ff8046c0\n" for number in range(1, 8)).encode()
PAGE = b"paging channel=1 gain=60\npage half 34:04ff8046c0\n"
FRAMES = (
    b"frame 9600 172:123456789abcdef0123456789abcdef0123456789ab0 0101010101010101\n"
    b"frame 1200 16:8001 1111111100000000\n"
)
TRAFFIC = PAGE + b"".join(
    b"traffic row=%d esn=%08x offset=%d gain=40\n" % (row, row, row % 16) + FRAMES for row in range(2, 22)
)
# The same with frames of rate set 2, at their least and their greatest rate.
FRAMES2 = (
    b"frame2 1800 22:5a5a58 0101010101010101\n" b"frame2 14400 268:" + 8 * b"01234567" + b"8900 1111111100000000\n"
)
TRAFFIC2 = PAGE + b"".join(
    b"traffic row=%d esn=%08x offset=%d gain=40\n" % (row, row, row % 16) + FRAMES2 for row in range(2, 22)
)
# The frames of two rows; the one with number 31 on the first directs the handset to the second.
DIRECTION = b"172:8000000000000000000008508803880ff85006749800"
HANDOFF = PAGE + b"".join(
    b"traffic row=%d esn=0000abcd offset=0 gain=40\n" % row
    + b"".join(
        b"frame 9600 %s 0101010101010101\n"
        % (DIRECTION if (row, number) == (10, 31) else b"172:00%02x%02x%038x" % (row, number, 0))
        for number in range(50)
    )
    for row in (10, 20)
)
FRAME = b"frame 1200 16:ffff 0101010101010101\n"
MOST_BYTES = 1 << 20
NO_ENVIRONMENT: dict[str, str] = {}
# Of each run: its name, its arguments, the file that it reads, and how many samples that has or makes.
RUNS = [
    ("find, 1 worker", "find --workers 1", "short.is95", 2_048),
    ("find, 2 workers", "find --workers 2", "short.is95", 2_048),
    ("find, 4 workers", "find", "short.is95", 2_048),
    ("survey, 1 worker", "survey --workers 1", "short.is95", 2_048),
    ("survey, 4 workers", "survey", "short.is95", 2_048),
    ("find, a clean pilot", "find", "clean.is95", 2_048),
    ("find, 10 M samples", "find", "long.is95", 10_000_000),
    ("make, a second", "make", "second.script", 1_228_800),
    ("make, 7 paging", "make", "paged.script", 1_228_800),
    ("make, 20 traffic", "make", "busy.script", 1_228_800),
    ("make, frames of a MiB", "make", "full.script", 2_048),
    ("follow, a second", "follow", "second.is95", 1_228_800),
    ("follow, paging", "follow", "heard.is95", 1_228_800),
    ("follow, traffic", "follow --esn 00000002 --row 2 --offset 2", "crowd.is95", 1_228_800),
    ("rate2, traffic", "rate2 --esn 00000002 --row 2 --offset 2", "crowd2.is95", 1_228_800),
    ("list of 4, traffic", "list --esn 00000002 --row 2 --offset 2 --k 4", "crowd.is95", 1_228_800),
    ("idle, paging", "idle --key 00000000", "heard.is95", 1_228_800),
    ("follow, a handoff", "follow --esn 0000abcd --row 10", "handoff.is95", 2_457_600),
    ("trial, two seconds", "trial --number 0", os.devnull, 2_457_600),
]


def write_noise(path: str, count: int, seed: int = 1995) -> None:
    """Writes a sample file of uniform noise, in which no phase stands out."""
    noise = random.Random(seed)
    block = noise.randbytes(4 * min(count, 1 << 20))
    with open(path, "wb") as out:
        out.write(header(1, 0, count))
        left = 4 * count
        while left:
            piece = block[: min(left, len(block))]
            out.write(piece)
            left -= len(piece)


def start(program: str, words: list[str], source: IO[bytes]) -> subprocess.Popen[bytes]:
    """A run that reads a file and writes nowhere."""
    return subprocess.Popen([program, *words], stdin=source, stdout=subprocess.DEVNULL, env=NO_ENVIRONMENT)


def finish(child: subprocess.Popen[bytes], words: list[str], path: str) -> None:
    """Waits for a run, which has to end well."""
    status = child.wait()
    if status != 0:
        raise Refused(f"{' '.join(words)} on {path} ended with {status}")


def seconds_of(program: str, words: list[str], path: str) -> float:
    """Wall-clock seconds of one run."""
    with open(path, "rb") as source:
        begin = time.perf_counter()
        child = start(program, words, source)
        finish(child, words, path)
        return time.perf_counter() - begin


def peak_of(program: str, words: list[str], path: str) -> int:
    """Returns the greatest resident memory of one run in KiB, as the kernel reports it while the program runs."""
    peak = 0
    with open(path, "rb") as source:
        child = start(program, words, source)
        while child.poll() is None:
            with open(f"/proc/{child.pid}/status") as status:
                fields = dict(line.split(":", 1) for line in status)
            if fields["Name"].strip() == os.path.basename(program)[:15] and "VmHWM" in fields:
                peak = max(peak, int(fields["VmHWM"].split()[0]))
        finish(child, words, path)
    return peak


def make(program: str, script: bytes, path: str) -> None:
    """The file of a script's cell."""
    with open(path, "wb") as out:
        ran = subprocess.run([program, "make"], input=script, stdout=out, env=NO_ENVIRONMENT)
    if ran.returncode:
        raise Refused(f"{program} make ended with {ran.returncode}")


def test_seconds(tests: str, name: str) -> float:
    """Wall-clock seconds of one test."""
    begin = time.perf_counter()
    ran = subprocess.run([tests, name], stdout=subprocess.DEVNULL, stderr=subprocess.DEVNULL, env=NO_ENVIRONMENT)
    if ran.returncode:
        raise Refused(f"{name} ended with {ran.returncode}")
    return time.perf_counter() - begin


def print_sweeps() -> None:
    """Seconds of the sweep over all phases, by a plain loop and on lanes."""
    plain = min(test_seconds(TESTS, PLAIN_TEST) for _ in range(5))
    lanes = min(test_seconds(TESTS, LANES_TEST) for _ in range(5))
    print(f"{'sweep, plain loop':<24}{2_048:>12}{plain:>10.3f}")
    print(f"{'sweep on lanes':<24}{2_048:>12}{lanes:>10.3f}{plain / lanes:>9.1f}x")


def test_processor_seconds(tests: str, name: str) -> float:
    """Returns the processor seconds of one test, which don't depend on what else runs on the machine."""
    child = subprocess.Popen([tests, name], stdout=subprocess.DEVNULL, stderr=subprocess.DEVNULL, env=NO_ENVIRONMENT)
    _, status, used = os.wait4(child.pid, 0)
    if status != 0:
        raise Refused(f"{name} ended with {status}")
    return used.ru_utime + used.ru_stime


def decoder_seconds(name: str) -> float:
    """Processor seconds of a test of decoders: the least of many runs."""
    return min(test_processor_seconds(TESTS, f"{DECODER}::{name}") for _ in range(25))


def print_decoders() -> None:
    """Milliseconds of one decoding, and nanoseconds a state and step, less a run's start."""
    start = decoder_seconds(SHORT_TEST)
    print(f"{'decoding':<24}{'bits':>12}{'ms':>10}{'ns a state':>12}")
    for name, bits, test, times in DECODINGS:
        seconds = (decoder_seconds(test) - start) / times
        print(f"{name:<24}{bits:>12}{1e3 * seconds:>10.3f}{1e9 * seconds / (256 * bits):>12.2f}")


def message_seconds(name: str) -> float:
    """Processor seconds of a test of messages: the least of many runs."""
    return min(test_processor_seconds(MESSAGE_TESTS, f"{MESSAGE_TIMER}::{name}") for _ in range(25))


def print_messages() -> None:
    """Seconds that a million messages of each kind take to be read, and to be written, less a run's start."""
    start = message_seconds(MESSAGE_SHORT_TEST)
    print(f"{'a million messages':<24}{'read, s':>12}{'written, s':>12}")
    for name, test in MESSAGES:
        read, written = (message_seconds(f"{test}_{done}") - start for done in ("read", "written"))
        print(f"{name:<24}{1e6 * read / MESSAGE_TURNS:>12.3f}{1e6 * written / MESSAGE_TURNS:>12.3f}")


def print_row(program: str, name: str, words: list[str], path: str, count: int) -> None:
    """Prints the best time of several runs of a command over a file of `count` samples, and the greatest memory."""
    seconds = min(seconds_of(program, words, path) for _ in range(9))
    peak = max(peak_of(program, words, path) for _ in range(2))
    print(f"{name:<24}{count:>12}{seconds:>10.3f}{peak:>10}")


def longest_script(script: bytes) -> bytes:
    """A script of a MiB, of frames of 1,200 bits a second."""
    head = re.sub(rb"samples=[0-9]+", b"samples=2048", script) + b"traffic row=2 esn=0000abcd offset=0 gain=40\n"
    return head + (MOST_BYTES - len(head)) // len(FRAME) * FRAME


def write_inputs(program: str, folder: str) -> None:
    """The files of all runs, by the names that RUNS has."""
    script = read(SCRIPT)
    for name, count in (("short.is95", 2_048), ("long.is95", 10_000_000)):
        write_noise(os.path.join(folder, name), count)
    scripts = {
        "second.script": script,
        "paged.script": script + PAGES,
        "busy.script": script + TRAFFIC,
        "full.script": longest_script(script),
    }
    for name, text in scripts.items():
        with open(os.path.join(folder, name), "wb") as file:
            file.write(text)
    made = {
        "clean.is95": re.sub(rb"samples=[0-9]+", b"samples=2048", script),
        "second.is95": script,
        "heard.is95": script + PAGE,
        "crowd.is95": script + TRAFFIC,
        "crowd2.is95": script + TRAFFIC2,
        "handoff.is95": re.sub(rb"samples=[0-9]+", b"samples=2457600", script) + HANDOFF,
    }
    for name, text in made.items():
        make(program, text, os.path.join(folder, name))


def read(path: str) -> bytes:
    """The bytes of a file."""
    with open(path, "rb") as file:
        return file.read()


def print_runs(program: str) -> None:
    """A row for each run of the program."""
    with tempfile.TemporaryDirectory() as folder:
        write_inputs(program, folder)
        print(f"{'run':<24}{'samples':>12}{'seconds':>10}{'peak KiB':>10}")
        for name, words, file, count in RUNS:
            print_row(program, name, words.split(), os.path.join(folder, file), count)


def run_processor_seconds(program: str, words: list[str], path: str, wanted: int = 0) -> float:
    """Returns the processor seconds of one run over a file, which must end with the status `wanted`."""
    with open(path, "rb") as source:
        child = subprocess.Popen(
            [program, *words], stdin=source, stdout=subprocess.DEVNULL, stderr=subprocess.DEVNULL, env=NO_ENVIRONMENT
        )
        _, status, used = os.wait4(child.pid, 0)
    child.returncode = os.waitstatus_to_exitcode(status)
    if child.returncode != wanted:
        raise Refused(f"{program} {' '.join(words)} ended with {child.returncode}")
    return used.ru_utime + used.ru_stime


def one_decoding_seconds() -> float:
    """Processor seconds of one decoding of 192 bits by the program's decoder, less a run's start."""
    _, _, test, times = DECODINGS[1]
    start = test_processor_seconds(TESTS, f"{DECODER}::{SHORT_TEST}")
    return (test_processor_seconds(TESTS, f"{DECODER}::{test}") - start) / times


def print_libraries(program: str) -> None:
    """Prints the tables of our work next to that of the libraries."""
    from cdma_tools.peers.measuring import print_peers

    with tempfile.TemporaryDirectory() as folder:
        path = os.path.join(folder, "short.is95")
        write_noise(path, 2_048)
        words = ["find", "--workers", "1"]
        with open(path, "rb") as source:
            found = re.match(rb"pilot phase=(\d+) ", written_of(program, words, source))
        if not found:
            raise Refused(f"{program} find found no phase")

        def search() -> float:
            """The search by one worker, less the start of a run that does nothing and ends with status 2."""
            return run_processor_seconds(program, words, path) - run_processor_seconds(program, [], path, 2)

        print_peers(one_decoding_seconds if os.access(TESTS, os.X_OK) else None, search, path, found[1].decode())


def main(arguments: list[str] | None = None) -> int:
    """Runs the tool, and returns its exit status."""
    parser = Parser("bench", __doc__)
    parser.add_argument(
        "timed", type=InputFile, metavar="PROGRAM", nargs="?", help="program to time (default that of --program)"
    )
    parser.add_argument("--peers", action="store_true", help="time our work next to that of Debian's libraries")
    add_program_option(parser)
    options = parser.parse_args(arguments)
    program = find_program(options.timed or options.program)
    if options.peers:
        print_libraries(program)
        return 0
    print_runs(program)
    if os.access(TESTS, os.X_OK):
        print_sweeps()
        print_decoders()
    else:
        print(f"no tests at {TESTS}: sweeps and decoders aren't timed")
    if os.access(MESSAGE_TESTS, os.X_OK):
        print_messages()
    else:
        print(f"no tests at {MESSAGE_TESTS}: messages aren't timed")
    return 0
