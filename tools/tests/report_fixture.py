"""What the tests of tools/report use: a sample file that they compute, its lines, and a program that writes these."""

import os
import shlex
from typing import Any

import numpy
from numpy.typing import NDArray

from cdma_tools.correlation import codes
from tools.tests.helping import sample_file

PHASE = 12_345  # of the pilot's code at the first sample
PILOT, SYNC = 100, 30  # amplitudes
SAMPLES = 120_000  # three whole frames of the sync channel after its first begin, and more
SPAN = 2_048
FOLLOWED = (
    f"pilot phase={PHASE} energy=167772160000",
    # GPS second 1,167,264,018 was 2017-01-01 00:00:00 UTC, 18 leap seconds later; 54 is -10 half hours.
    "sync at=294848 prev=5 min=1 sid=4139 nid=65535 pn=300 lc=00000000010 time=14590800225 lp=18 ltm=54 daylt=0 prat=0"
    " freq=283 rest=0:",
    "frame at=712704 rate=9600 good=1 bits=172:80000000000000000000000000000000000000000000 commands=0000000000000011",
    # Base station 58,253 at 37.774931 degrees north and 122.419375 west: 543,959 and -1,762,839 quarter seconds of arc.
    "paging at=737280 system pn=300 seq=46 sid=4139 nid=65535 zone=3105 zones=7 ztimer=5 msids=1 mnids=1 base=58253"
    " bclass=0 pages=2 cycle=2 home=1 fsid=0 fnid=0 up=1 down=0 param=1 prd=58 lat=543959 long=6625769 dist=844 wina=5 winn=11 winr=1 age=2"
    " pthresh=15 pframes=8 pthen=1 pperen=1 pdelay=27 rescan=0 tadd=28 tdrop=32 tcomp=5 ttdrop=3 rest=4:40",
    "paging at=737280 neighbors pn=300 seq=46 inc=4 pilots=0/300,1/168,3/4 rest=0:",
    "frame at=737280 rate=2400 good=0 bits=40:0000000000 commands=1111111111111111",
    "paging at=761856 channels pn=300 seq=46 freqs=283,25 rest=0:",
    "traffic at=761856 ack=0 seq=0 req=0 enc=0 handoff use=1 action=49 hdm=0 extra=0: records=300/20/0 rest=7:00",
    "sets at=786432 time=1008 active=300/10/0 candidate=168 report=1",
    "sets at=884736 time=1009 active=300/20/0,168/21/1 candidate= report=0",
    # Every value of an octet in a message's bits.
    f"paging at=900000 other type=255 bits=1024:{bytes(range(128)).hex()}",
    f"paging at=900001 other type=255 bits=1024:{bytes(range(128, 256)).hex()}",
)


def sent_symbols(count: int) -> NDArray[Any]:
    """Returns the signs of `count` symbols of a sync channel, by a rule with a long period."""
    return 1 - 2 * (numpy.arange(count) ** 2 // 7 % 2)


def signal(count: int = SAMPLES, phase: int = PHASE) -> NDArray[Any]:
    """Returns a pilot with a sync channel whose frames begin where the pilot's code does."""
    in_phase, quadrature = codes()
    places = (phase + numpy.arange(count)) % 32_768
    chips = phase + numpy.arange(count)
    row = 1 - 2 * (chips // 32 % 2)
    symbols = sent_symbols(count // 256 + 200)[chips // 256]
    return (PILOT + SYNC * row * symbols) * (in_phase + 1j * quadrature)[places]


def file_of(samples: NDArray[Any]) -> bytes:
    """Returns the sample file of rounded samples."""
    return sample_file([(round(one.real), round(one.imag)) for one in samples])


def survey_lines(strong: dict[int, int]) -> list[str]:
    """Returns the 512 lines of a survey in order: some strong pilots, and weak ones."""
    energies = {pilot: strong.get(pilot, 1_000_000 - pilot) for pilot in range(512)}
    ranks = sorted(energies, key=lambda pilot: (-energies[pilot], pilot))
    return [f"survey pn={pilot} delta={pilot % 5 - 2} energy={energies[pilot]}" for pilot in ranks]


class Fake:
    """A program in a folder that reads its whole input and writes what it was given for each command."""

    def __init__(self, folder: str) -> None:
        self.path, self.folder = os.path.join(folder, "cdma_replay"), folder
        told = shlex.quote(self.path)
        with open(self.path, "w") as file:
            file.write('#!/bin/sh\ncat > /dev/null\n')
            file.write(f'echo "$*" >> {told}.words\ncat {told}.$1\ncat {told}.$1.said >&2\nexit "$(cat {told}.$1.status)"\n')
        os.chmod(self.path, 0o700)
        self.tell("find", [FOLLOWED[0]])
        self.tell("survey", survey_lines({300: 167772160000, 168: 20000000000}))
        self.tell("follow", list(FOLLOWED))

    def tell(self, command: str, lines: list[str] | bytes, status: int = 0, said: str = "") -> None:
        """Sets what a command writes, its status, and its standard error."""
        text = lines if isinstance(lines, bytes) else "".join(line + "\n" for line in lines).encode()
        for name, data in ((command, text), (f"{command}.status", str(status).encode()), (f"{command}.said", said.encode())):
            with open(f"{self.path}.{name}", "wb") as file:
                file.write(data)

    def words(self) -> list[str]:
        """Returns the arguments of each run."""
        with open(f"{self.path}.words") as file:
            return file.read().splitlines()
