"""Makes each allocation of the built program fail in turn, and fails if a run doesn't end as its contract says.

For each command the program runs once as it is, and then once for each allocation that it makes, with that allocation
refused. Such a run must end with status 6, nothing on standard output and the line of that status on standard error;
or, if the program can do without the allocation, as the first run did. A small library, which gcc compiles, counts and
refuses the C library's calls. So allocations of the program's runtime and threads fail too. Build the program first,
with `tools/build`.

    tools/starve
    tools/starve --program ./cdma_replay

Exit status: 0 no fault, 1 some, or gcc or the program is missing, 2 wrong arguments.
"""

import os
import re
import struct
import subprocess
import tempfile
from collections import Counter

from cdma_tools.arguments import Parser
from cdma_tools.errors import Refused
from cdma_tools.places import EXAMPLES
from cdma_tools.program import add_program_option, find_program

CAPTURE = os.path.join(EXAMPLES, "pilot_in_noise.is95")
SCRIPT = os.path.join(EXAMPLES, "second_of_paging.script")
MOST_SHOWN = 20
NUMBER = struct.Struct("@l")
# Counts the calls of a process in a file of eight bytes, and lets the one fail that the environment names.
LIBRARY = r"""
#include <errno.h>
#include <fcntl.h>
#include <stdlib.h>
#include <sys/mman.h>
#include <unistd.h>

void *__libc_malloc(size_t);
void *__libc_calloc(size_t, size_t);
void *__libc_realloc(void *, size_t);
void *__libc_memalign(size_t, size_t);

static long before, *calls = &before, refused;

__attribute__((constructor)) static void begin(void) {
    const char *call = getenv("REFUSED_CALL"), *path = getenv("COUNT_FILE");
    int file = path == NULL ? -1 : open(path, O_RDWR);
    void *place = file < 0 ? MAP_FAILED : mmap(NULL, sizeof *calls, PROT_READ | PROT_WRITE, MAP_SHARED, file, 0);
    if (call == NULL || place == MAP_FAILED) _exit(99);
    close(file);
    calls = place;
    refused = atol(call);
}

static int is_refused(void) {
    if (__atomic_add_fetch(calls, 1, __ATOMIC_SEQ_CST) != refused) return 0;
    errno = ENOMEM;
    return 1;
}

void *malloc(size_t size) { return is_refused() ? NULL : __libc_malloc(size); }
void *calloc(size_t count, size_t size) { return is_refused() ? NULL : __libc_calloc(count, size); }
void *realloc(void *old, size_t size) { return is_refused() ? NULL : __libc_realloc(old, size); }
void *memalign(size_t align, size_t size) { return is_refused() ? NULL : __libc_memalign(align, size); }
void *aligned_alloc(size_t align, size_t size) { return is_refused() ? NULL : __libc_memalign(align, size); }
int posix_memalign(void **out, size_t align, size_t size) {
    if (is_refused()) return ENOMEM;
    void *block = __libc_memalign(align, size);
    if (block == NULL) return ENOMEM;
    *out = block;
    return 0;
}
"""


def compiled(folder: str) -> str:
    """The library, in a folder."""
    source, library = os.path.join(folder, "refuse.c"), os.path.join(folder, "refuse.so")
    with open(source, "w") as file:
        file.write(LIBRARY)
    try:
        subprocess.run(["gcc", "-O1", "-shared", "-fPIC", "-o", library, source], check=True)
    except (OSError, subprocess.CalledProcessError) as why:
        raise Refused(f"the library that refuses can't be compiled: {why}") from None
    return library


class Starved:
    """A program each of whose allocations can be refused."""

    def __init__(self, program: str, folder: str) -> None:
        self.program, self.library = program, compiled(folder)
        self.count = os.path.join(folder, "count")

    def run(self, words: list[str], data: bytes, call: int) -> tuple[int, bytes, bytes, int]:
        """Returns how a run ends in which allocation `call` is refused, 0 for none, and the number of its allocations.
        """
        env = {"LD_PRELOAD": self.library, "REFUSED_CALL": str(call), "COUNT_FILE": self.count}
        with open(self.count, "wb") as file:
            file.write(NUMBER.pack(0))
        ran = subprocess.run([self.program, *words], input=data, capture_output=True, timeout=60, env=env)
        with open(self.count, "rb") as file:
            return ran.returncode, ran.stdout, ran.stderr, NUMBER.unpack(file.read())[0]

    def faults(self, words: list[str], data: bytes) -> list[str]:
        """Returns the faults of the runs of a command."""
        status, text, said, calls = self.run(words, data, 0)
        if status not in (0, 1) or calls == 0:
            return [f"{words[0]}: status {status} and {calls} allocations when none is refused: {said!r}"]
        found: list[str] = []
        ends: Counter[int] = Counter()
        for call in range(1, calls + 1):
            ended = self.run(words, data, call)[:3]
            ends[ended[0]] += 1
            if ended not in ((6, b"", b"out of memory\n"), (status, text, said)):
                found.append(
                    f"{words[0]}: allocation {call} of {calls}: status {ended[0]}, {len(ended[1])} bytes, {ended[2]!r}"
                )
        told = ", ".join(f"{number} with status {end}" for end, number in sorted(ends.items()))
        print(f"{words[0]}: {calls} allocations, each refused once: {told}")
        return found


def read(path: str) -> bytes:
    """The bytes of a file."""
    with open(path, "rb") as file:
        return file.read()


def runs_of(program: str) -> list[tuple[list[str], bytes]]:
    """The arguments and the input of a run of each command."""
    capture = read(CAPTURE)
    script = re.sub(rb"samples=[0-9]+", b"samples=400000", read(SCRIPT))
    channel = b"traffic row=10 esn=0000abcd offset=0 gain=40\nframe 1200 16:8001 0101010101010101\n"
    ran = subprocess.run([program, "make"], input=script + channel, capture_output=True)
    if ran.returncode:
        raise Refused(f"{program} make ended with {ran.returncode}")
    return [
        (["find"], capture),
        (["survey", "--top", "3"], capture),
        (["follow", *"--fingers 3 --esn 0000abcd --row 10 --raw 9".split()], ran.stdout),
        (["rate2", *"--esn 0000abcd --row 10".split()], ran.stdout),
        (["list", *"--esn 0000abcd --row 10 --k 4".split()], ran.stdout),
        (["idle", "--key", "00000000"], ran.stdout),
        (["make"], script + channel),
        (["trial", "--number", "0"], b""),
    ]


def main(arguments: list[str] | None = None) -> int:
    """Runs the tool, and returns its exit status."""
    parser = Parser("starve", __doc__)
    add_program_option(parser)
    program = find_program(parser.parse_args(arguments).program)
    with tempfile.TemporaryDirectory() as folder:
        starved = Starved(program, folder)
        found = [fault for words, data in runs_of(program) for fault in starved.faults(words, data)]
    for fault in found[:MOST_SHOWN]:
        print(fault)
    print(f"{len(found)} faults")
    return 1 if found else 0
