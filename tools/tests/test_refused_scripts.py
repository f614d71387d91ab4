"""Scripts that name no cell, and scripts at the limits of those that do, given to the built program.

Each script goes to `make`, whose output has no room. A script that names no cell ends with status 8 and its fault on
standard error, as docs/FORMATS.md specifies: the number of the first line that cannot be at its place, or what cannot
be sent. A script that names a cell reaches its first write, which fails.
"""

import subprocess
import unittest

from tools.tests.helping import NO_PROGRAM, PROGRAM

# Lines that scripts are made of, by names.
LINES = {
    "CELL": "cell pn=511 time=1000 lc=20000000000 checks=0",
    "LINK": "link re=0 im=-3 start=0 samples=1228800",
    "PILOT": "pilot gain=100",
    "SYNC": "sync gain=30 prev=3 min=1 sid=1 nid=2 lp=13 ltm=0 daylt=0 prat=0 rest=3:00",
    # Sync channels that announce paging channels of 4800 bits a second, and the two rates that no longer exist.
    "SYNC_4800": "sync gain=30 prev=3 min=1 sid=1 nid=2 lp=13 ltm=0 daylt=0 prat=1 rest=3:00",
    "SYNC_2400": "sync gain=30 prev=3 min=1 sid=1 nid=2 lp=13 ltm=0 daylt=0 prat=2 rest=3:00",
    "SYNC_1200": "sync gain=30 prev=3 min=1 sid=1 nid=2 lp=13 ltm=0 daylt=0 prat=3 rest=3:00",
    "PAGING": "paging channel=1 gain=60",
    "OTHER_PAGING": "paging channel=7 gain=1",
    "SILENT_PAGING": "paging channel=1 gain=0",
    "SILENT_PAGING_5": "paging channel=5 gain=0",
    # A channel list of 9 octets, and the same right after the page before.
    "HALF": "page half 34:04ff8046c0",
    "NEXT": "page next 34:04ff8046c0",
    # Pages whose type and bits are 0.
    "SIX_OCTETS": "page half 10:0000",
    "TEN_OCTETS": "page half 42:000000000000",
    "ELEVEN_OCTETS": "page half 50:00000000000000",
    "TRAFFIC": "traffic row=8 esn=00000009 offset=0 gain=40",
    "OTHER_TRAFFIC": "traffic row=63 esn=fFFfffff offset=15 gain=1",
    "ROW_0": "traffic row=0 esn=00000009 offset=0 gain=40",
    "ROW_1": "traffic row=1 esn=00000009 offset=0 gain=40",
    "ROW_9": "traffic row=9 esn=00000009 offset=0 gain=40",
    "ROW_32": "traffic row=32 esn=00000009 offset=0 gain=40",
    "SILENT": "traffic row=8 esn=00000009 offset=0 gain=0",
    "SILENT_9": "traffic row=9 esn=00000009 offset=0 gain=0",
    "LOUD": "traffic row=8 esn=00000009 offset=0 gain=65535",
    "FRAME": "frame 1200 16:ffff 0101010101010101",
    "FRAME2": "frame2 1800 22:5a5a58 0101010101010101",
}

# Lines that can't replace a cell's.
FAULTY_CELLS = [
    "",
    "cell",
    "cell ",
    "cell pn=511",
    "cell pn=511 time=1000 lc=20000000000",
    "cell pn=511 time=1000 lc=20000000000 checks=",
    "cell pn=511 time=1000 lc=20000000000 checks=0 ",
    "cell pn=511 time=1000 lc=20000000000 checks=0\r",
    "cell pn=511 time=1000 lc=20000000000 checks=0\x00",
    "cell pn=511 time=1000 lc=20000000000 checks=0 gain=1",
    " cell pn=511 time=1000 lc=20000000000 checks=0",
    "cell  pn=511 time=1000 lc=20000000000 checks=0",
    "cell pn=511  time=1000 lc=20000000000 checks=0",
    "cell\tpn=511 time=1000 lc=20000000000 checks=0",
    "cell pn=511\ttime=1000 lc=20000000000 checks=0",
    "cell time=1000 pn=511 lc=20000000000 checks=0",
    "Cell pn=511 time=1000 lc=20000000000 checks=0",
    "cell pn=512 time=1000 lc=20000000000 checks=0",
    "cell pn=0511 time=1000 lc=20000000000 checks=0",
    "cell pn=00 time=1000 lc=20000000000 checks=0",
    "cell pn= time=1000 lc=20000000000 checks=0",
    "cell pn=-1 time=1000 lc=20000000000 checks=0",
    "cell pn=+1 time=1000 lc=20000000000 checks=0",
    "cell pn=5_1 time=1000 lc=20000000000 checks=0",
    "cell pn=0x1 time=1000 lc=20000000000 checks=0",
    "cell pn=511 time=34359738369 lc=20000000000 checks=0",
    "cell pn=511 time=01000 lc=20000000000 checks=0",
    "cell pn=511 time=1000 lc=2000000000 checks=0",
    "cell pn=511 time=1000 lc=020000000000 checks=0",
    "cell pn=511 time=1000 lc=00000000000 checks=0",
    "cell pn=511 time=1000 lc=40000000000 checks=0",
    "cell pn=511 time=1000 lc=2000000000g checks=0",
    "cell pn=511 time=1000 lc=0x200000000 checks=0",
    "cell pn=511 time=1000 lc=20000000000 checks=4",
    "cell pn=511 time=1000 lc=20000000000 checks=00",
]

# In the place of the link's.
FAULTY_LINKS = [
    "link",
    "link re=0 im=-3 start=0",
    "link re=0 im=-3 start=0 samples=1228800 ",
    "link re=0 im=-3 start=0 samples=1228800\r",
    "link re=0 im=0 start=0 samples=1228800",
    "link re=-0 im=-3 start=0 samples=1228800",
    "link re=0 im=-03 start=0 samples=1228800",
    "link re=0 im=+3 start=0 samples=1228800",
    "link re=0 im=--3 start=0 samples=1228800",
    "link re=0 im=- start=0 samples=1228800",
    "link re=32768 im=-3 start=0 samples=1228800",
    "link re=-32769 im=-3 start=0 samples=1228800",
    "link re=0 im=32768 start=0 samples=1228800",
    "link re=0 im=-32769 start=0 samples=1228800",
    "link re=0 im=-3 start=4294967296 samples=1228800",
    "link re=0 im=-3 start=-1 samples=1228800",
    "link re=0 im=-3 start=0 samples=0",
    "link re=0 im=-3 start=0 samples=01228800",
    "link re=0 im=-3 start=0 samples=18446744073709551616",
    "link re=0 im=-3 start=0 samples=00000000000000000001",
    "link re=0 im=-3 start=0 samples=100000000000000000000",
    "link im=-3 re=0 start=0 samples=1228800",
]

# In the pilot's.
FAULTY_PILOTS = [
    "pilot",
    "pilot gain=",
    "pilot gain=100 ",
    "pilot gain=100 gain=100",
    "pilot gain=65536",
    "pilot gain=0100",
    "pilot gain=-1",
    "pilot  gain=100",
    "pilots gain=100",
]

# In the sync channel's.
FAULTY_SYNCS = [
    "sync",
    "sync gain=30",
    "sync gain=65536 prev=3 min=1 sid=1 nid=2 lp=13 ltm=0 daylt=0 prat=0 rest=3:00",
    "sync gain=30 prev=256 min=1 sid=1 nid=2 lp=13 ltm=0 daylt=0 prat=0 rest=3:00",
    "sync gain=30 prev=3 min=256 sid=1 nid=2 lp=13 ltm=0 daylt=0 prat=0 rest=3:00",
    "sync gain=30 prev=3 min=1 sid=32768 nid=2 lp=13 ltm=0 daylt=0 prat=0 rest=3:00",
    "sync gain=30 prev=3 min=1 sid=1 nid=65536 lp=13 ltm=0 daylt=0 prat=0 rest=3:00",
    "sync gain=30 prev=3 min=1 sid=1 nid=2 lp=256 ltm=0 daylt=0 prat=0 rest=3:00",
    "sync gain=30 prev=3 min=1 sid=1 nid=2 lp=13 ltm=64 daylt=0 prat=0 rest=3:00",
    "sync gain=30 prev=3 min=1 sid=1 nid=2 lp=13 ltm=0 daylt=2 prat=0 rest=3:00",
    "sync gain=30 prev=3 min=1 sid=1 nid=2 lp=13 ltm=0 daylt=0 prat=4 rest=3:00",
    "sync gain=30 prev=3 min=1 sid=1 nid=2 lp=13 ltm=0 daylt=0 prat=0",
    "sync gain=30 prev=3 min=1 sid=1 nid=2 lp=13 ltm=0 daylt=0 prat=0 rest=",
    "sync gain=30 prev=3 min=1 sid=1 nid=2 lp=13 ltm=0 daylt=0 prat=0 rest=0:",
    "sync gain=30 prev=3 min=1 sid=1 nid=2 lp=13 ltm=0 daylt=0 prat=0 rest=3:0",
    "sync gain=30 prev=3 min=1 sid=1 nid=2 lp=13 ltm=0 daylt=0 prat=0 rest=3:000",
    "sync gain=30 prev=3 min=1 sid=1 nid=2 lp=13 ltm=0 daylt=0 prat=0 rest=3:0000",
    "sync gain=30 prev=3 min=1 sid=1 nid=2 lp=13 ltm=0 daylt=0 prat=0 rest=3:10",
    "sync gain=30 prev=3 min=1 sid=1 nid=2 lp=13 ltm=0 daylt=0 prat=0 rest=3:01",
    "sync gain=30 prev=3 min=1 sid=1 nid=2 lp=13 ltm=0 daylt=0 prat=0 rest=3:0g",
    "sync gain=30 prev=3 min=1 sid=1 nid=2 lp=13 ltm=0 daylt=0 prat=0 rest=03:00",
    "sync gain=30 prev=3 min=1 sid=1 nid=2 lp=13 ltm=0 daylt=0 prat=0 rest=300",
    "sync gain=30 prev=3 min=1 sid=1 nid=2 lp=13 ltm=0 daylt=0 prat=0 rest=8:00",
    "sync gain=30 prev=3 min=1 sid=1 nid=2 lp=13 ltm=0 daylt=0 prat=0 freq=283 rest=3:00",
    "sync gain=30 prev=3 min=1 sid=1 nid=2 lp=13 ltm=0 daylt=0 prat=0 freq=2048 rest=0:",
    "sync gain=30 prev=3 min=1 sid=1 nid=2 lp=13 ltm=0 daylt=0 prat=0 freq= rest=0:",
    "sync gain=30 prev=3 min=1 sid=1 nid=2 lp=13 ltm=0 daylt=0 prat=0 rest=0: freq=283",
    "paging channel=1 gain=60",
    "page half 34:04ff8046c0",
    "traffic row=8 esn=00000009 offset=0 gain=40",
    "cell pn=511 time=1000 lc=20000000000 checks=0 \xe9",
]

# In a paging channel's.
FAULTY_PAGINGS = [
    "paging",
    "paging ",
    "paging channel=1",
    "paging channel=1 gain=",
    "paging channel= gain=60",
    "paging gain=60",
    "paging channel=1 gain=60 ",
    "paging channel=1 gain=60\r",
    "paging channel=1 gain=60 gain=60",
    "paging gain=60 channel=1",
    "paging channel=0 gain=60",
    "paging channel=8 gain=60",
    "paging channel=10 gain=60",
    "paging channel=01 gain=60",
    "paging channel=-1 gain=60",
    "paging channel=1 gain=65536",
    "paging channel=1 gain=060",
    "paging  channel=1 gain=60",
    "paging channel=1  gain=60",
    " paging channel=1 gain=60",
    "Paging channel=1 gain=60",
    "pagingchannel=1 gain=60",
]

# In that of a channel's first page.
FAULTY_PAGES = [
    "page",
    "page ",
    "page half",
    "page half ",
    "page half 34",
    "page half 34:",
    "page half :04ff8046c0",
    "page half 34:04ff8046",
    "page half 34:04ff8046c",
    "page half 34:04ff8046c000",
    "page half 34:04ff8046e0",
    "page half 34:04ff8046c1",
    "page half 34:04ff8046g0",
    "page half 034:04ff8046c0",
    "page half 34:04ff8046c0 ",
    "page half 34:04ff8046c0\r",
    "page half 34:04ff8046c0 34:04ff8046c0",
    "page half  34:04ff8046c0",
    "page  half 34:04ff8046c0",
    "page half half 34:04ff8046c0",
    "page 34:04ff8046c0",
    "page full 34:04ff8046c0",
    "half 34:04ff8046c0",
    "page next 34:04ff8046c0",
    # Bodies whose lengths fill no capsule of 6 octets or more.
    "page half 33:04ff804680",
    "page half 32:04ff8046",
    "page half 2:00",
    "page half 0:",
    # Bodies that aren't those of messages: types 1, 3 and 4 with too few bits, or the bits of a part of a record.
    "page half 10:0100",
    "page half 18:030000",
    "page half 50:03000000000000",
    "page half 42:040000000000",
]

# In a traffic channel's.
FAULTY_TRAFFICS = [
    "traffic",
    "traffic ",
    "traffic row=8",
    "traffic row=8 esn=00000009",
    "traffic row=8 esn=00000009 offset=0",
    "traffic row=8 esn=00000009 offset=0 gain=",
    "traffic row=8 esn=00000009 offset= gain=40",
    "traffic row=8 esn= offset=0 gain=40",
    "traffic row= esn=00000009 offset=0 gain=40",
    "traffic row=8 esn=00000009 offset=0 gain=40 ",
    "traffic row=8 esn=00000009 offset=0 gain=40\r",
    "traffic row=8 esn=00000009 offset=0 gain=40 gain=40",
    "traffic row=64 esn=00000009 offset=0 gain=40",
    "traffic row=08 esn=00000009 offset=0 gain=40",
    "traffic row=-8 esn=00000009 offset=0 gain=40",
    "traffic row=800 esn=00000009 offset=0 gain=40",
    "traffic row=8 esn=0000009 offset=0 gain=40",
    "traffic row=8 esn=000000009 offset=0 gain=40",
    "traffic row=8 esn=0000000g offset=0 gain=40",
    "traffic row=8 esn=0x000009 offset=0 gain=40",
    "traffic row=8 esn=-0000009 offset=0 gain=40",
    "traffic row=8 esn=9 offset=0 gain=40",
    "traffic row=8 esn=00000009 offset=16 gain=40",
    "traffic row=8 esn=00000009 offset=00 gain=40",
    "traffic row=8 esn=00000009 offset=-1 gain=40",
    "traffic row=8 esn=00000009 offset=0 gain=65536",
    "traffic row=8 esn=00000009 offset=0 gain=040",
    "traffic esn=00000009 row=8 offset=0 gain=40",
    "traffic row=8 offset=0 esn=00000009 gain=40",
    "traffic row=8 esn=00000009 gain=40 offset=0",
    "traffic  row=8 esn=00000009 offset=0 gain=40",
    "traffic row=8  esn=00000009 offset=0 gain=40",
    " traffic row=8 esn=00000009 offset=0 gain=40",
    "Traffic row=8 esn=00000009 offset=0 gain=40",
    "trafficrow=8 esn=00000009 offset=0 gain=40",
    "traffic channel=8 esn=00000009 offset=0 gain=40",
]

# In that of a channel's first frame.
FAULTY_FRAMES = [
    "frame",
    "frame ",
    "frame 1200",
    "frame 1200 ",
    "frame 1200 16:ffff",
    "frame 1200 16:ffff ",
    "frame 1200 0101010101010101",
    "frame 16:ffff 0101010101010101",
    "frame 1200 0101010101010101 16:ffff",
    "frame 1200 16:ffff 0101010101010101 ",
    "frame 1200 16:ffff 0101010101010101\r",
    "frame 1200 16:ffff 0101010101010101 0101010101010101",
    "frame  1200 16:ffff 0101010101010101",
    "frame 1200  16:ffff 0101010101010101",
    "frame 1200 16:ffff  0101010101010101",
    " frame 1200 16:ffff 0101010101010101",
    "Frame 1200 16:ffff 0101010101010101",
    "frame1200 16:ffff 0101010101010101",
    # Power control bits that aren't sixteen digits 0 or 1.
    "frame 1200 16:ffff 010101010101010",
    "frame 1200 16:ffff 01010101010101010",
    "frame 1200 16:ffff 0101010101010102",
    "frame 1200 16:ffff 2101010101010101",
    "frame 1200 16:ffff 01010101 01010101",
    "frame 1200 16:ffff 16:ffff",
    "frame 1200 16:ffff -101010101010101",
    # Rates of which no frame is.
    "frame 600 16:ffff 0101010101010101",
    "frame 01200 16:ffff 0101010101010101",
    "frame 9601 16:ffff 0101010101010101",
    "frame 14400 16:ffff 0101010101010101",
    "frame R1200 16:ffff 0101010101010101",
    # Information that isn't spelled by its octets, or of another length than the rate has.
    "frame 1200 16:fff 0101010101010101",
    "frame 1200 16:fffff 0101010101010101",
    "frame 1200 16:ffgf 0101010101010101",
    "frame 1200 016:ffff 0101010101010101",
    "frame 1200 15:fffe 0101010101010101",
    "frame 1200 17:ffff80 0101010101010101",
    "frame 2400 16:ffff 0101010101010101",
    "frame 4800 40:ffffffffff 0101010101010101",
    "frame 9600 80:ffffffffffffffffffff 0101010101010101",
    "frame 9600 172:fffffffffffffffffffffffffffffffffffffffffff8 0101010101010101",
]

# In that of the first frame of a channel of rate set 2.
FAULTY_FRAMES2 = [
    "frame2",
    "frame2 ",
    "frame2 1800",
    "frame2 1800 22:5a5a58",
    "frame2 1800 0101010101010101",
    "frame2 22:5a5a58 0101010101010101",
    "frame2 1800 22:5a5a58 0101010101010101 ",
    "frame2 1800 22:5a5a58 0101010101010101\r",
    "frame2  1800 22:5a5a58 0101010101010101",
    "frame2 1800 22:5a5a58  0101010101010101",
    "Frame2 1800 22:5a5a58 0101010101010101",
    "frame 2 1800 22:5a5a58 0101010101010101",
    "frame22 1800 22:5a5a58 0101010101010101",
    # Power control bits that aren't sixteen digits 0 or 1.
    "frame2 1800 22:5a5a58 010101010101010",
    "frame2 1800 22:5a5a58 0101010101010102",
    # Rates of which no frame is, one of them a rate of rate set 1.
    "frame2 1200 16:ffff 0101010101010101",
    "frame2 01800 22:5a5a58 0101010101010101",
    # Information that isn't spelled by its octets, or of another length than the rate has.
    "frame2 1800 22:5a5a5a 0101010101010101",
    "frame2 3600 22:5a5a58 0101010101010101",
    "frame2 14400 126:00000000000000000000000000000000 0101010101010101",
]

# The number of the line at fault, lines by their names that don't follow one another, and what follows them.
ORDERS = [
    (1, "", ""),
    (2, "CELL", ""),
    (3, "CELL LINK", ""),
    (1, "", "\n"),
    (2, "CELL", "\n"),
    (4, "CELL LINK PILOT", "\n"),
    (5, "CELL LINK PILOT SYNC", "\n"),
    (2, "CELL CELL LINK PILOT SYNC", ""),
    (3, "CELL LINK LINK PILOT SYNC", ""),
    (4, "CELL LINK PILOT PILOT SYNC", ""),
    (5, "CELL LINK PILOT SYNC SYNC", ""),
    (1, "LINK CELL PILOT SYNC", ""),
    (2, "CELL PILOT LINK SYNC", ""),
    (3, "CELL LINK SYNC PILOT", ""),
    (1, "LINK PILOT SYNC", ""),
    (2, "CELL PILOT SYNC", ""),
    (3, "CELL LINK SYNC", ""),
    (5, "CELL LINK PILOT SYNC CELL", ""),
    (1, "", "cell pn=511 time=1000 lc=20000000000 checks=0"),
    (2, "CELL", "link re=0 im=-3 start=0 samples=1228800"),
    (3, "CELL LINK", "pilot gain=100"),
    (4, "CELL LINK PILOT", "sync"),
    (5, "CELL LINK PILOT SYNC", " "),
    (5, "CELL LINK PILOT SYNC PILOT CELL", ""),
]

# Likewise with paging channels.
PAGING_ORDERS = [
    (1, "PAGING HALF", ""),
    (1, "HALF", ""),
    (2, "CELL PAGING HALF", ""),
    (3, "CELL LINK PAGING HALF", ""),
    (4, "CELL LINK PILOT PAGING HALF", ""),
    (4, "CELL LINK PILOT HALF", ""),
    (4, "CELL LINK PILOT PAGING SYNC HALF", ""),
    (5, "CELL LINK PILOT SYNC_2400 PAGING HALF", ""),
    (5, "CELL LINK PILOT SYNC_1200 PAGING HALF", ""),
    (5, "CELL LINK PILOT SYNC HALF", ""),
    (5, "CELL LINK PILOT SYNC HALF PAGING", ""),
    (5, "CELL LINK PILOT SYNC NEXT", ""),
    (6, "CELL LINK PILOT SYNC PAGING", ""),
    (6, "CELL LINK PILOT SYNC PAGING PAGING HALF", ""),
    (6, "CELL LINK PILOT SYNC PAGING OTHER_PAGING HALF", ""),
    (6, "CELL LINK PILOT SYNC PAGING NEXT", ""),
    (6, "CELL LINK PILOT SYNC PAGING NEXT HALF", ""),
    (6, "CELL LINK PILOT SYNC PAGING SYNC HALF", ""),
    (6, "CELL LINK PILOT SYNC PAGING", "\n"),
    (6, "CELL LINK PILOT SYNC PAGING", "page"),
    (6, "CELL LINK PILOT SYNC PAGING", "page half 34:04ff8046c0"),
    (5, "CELL LINK PILOT SYNC", "paging channel=1 gain=60"),
    (7, "CELL LINK PILOT SYNC PAGING HALF", "\n"),
    (7, "CELL LINK PILOT SYNC PAGING HALF CELL", ""),
    (7, "CELL LINK PILOT SYNC PAGING HALF LINK", ""),
    (7, "CELL LINK PILOT SYNC PAGING HALF PILOT", ""),
    (7, "CELL LINK PILOT SYNC PAGING HALF SYNC", ""),
    (7, "CELL LINK PILOT SYNC PAGING HALF", "page next 34:04ff8046c0"),
    (8, "CELL LINK PILOT SYNC PAGING HALF OTHER_PAGING", ""),
    (8, "CELL LINK PILOT SYNC PAGING HALF OTHER_PAGING NEXT", ""),
    (9, "CELL LINK PILOT SYNC PAGING HALF NEXT OTHER_PAGING SYNC", ""),
    (9, "CELL LINK PILOT SYNC PAGING HALF PAGING HALF", "\n"),
    (2, "CELL CELL LINK PILOT SYNC PAGING HALF", ""),
    (5, "CELL LINK PILOT SYNC SYNC PAGING HALF", ""),
    (7, "CELL LINK PILOT SYNC PAGING ELEVEN_OCTETS NEXT", ""),
    (7, "CELL LINK PILOT SYNC_4800 PAGING ELEVEN_OCTETS NEXT", ""),
]

# With traffic channels.
TRAFFIC_ORDERS = [
    (1, "TRAFFIC FRAME", ""),
    (1, "FRAME", ""),
    (2, "CELL TRAFFIC FRAME", ""),
    (3, "CELL LINK TRAFFIC FRAME", ""),
    (4, "CELL LINK PILOT TRAFFIC FRAME", ""),
    (4, "CELL LINK PILOT TRAFFIC FRAME SYNC", ""),
    (4, "CELL LINK PILOT FRAME", ""),
    (5, "CELL LINK PILOT SYNC FRAME", ""),
    (5, "CELL LINK PILOT SYNC FRAME TRAFFIC", ""),
    (6, "CELL LINK PILOT SYNC TRAFFIC", ""),
    (6, "CELL LINK PILOT SYNC TRAFFIC TRAFFIC FRAME", ""),
    (6, "CELL LINK PILOT SYNC TRAFFIC PAGING HALF", ""),
    (6, "CELL LINK PILOT SYNC TRAFFIC HALF", ""),
    (6, "CELL LINK PILOT SYNC TRAFFIC SYNC FRAME", ""),
    (6, "CELL LINK PILOT SYNC TRAFFIC", "\n"),
    (7, "CELL LINK PILOT SYNC TRAFFIC FRAME PAGING HALF", ""),
    (7, "CELL LINK PILOT SYNC TRAFFIC FRAME HALF", ""),
    (7, "CELL LINK PILOT SYNC TRAFFIC FRAME SYNC", ""),
    (7, "CELL LINK PILOT SYNC TRAFFIC FRAME CELL", ""),
    (7, "CELL LINK PILOT SYNC TRAFFIC FRAME", "\n"),
    (8, "CELL LINK PILOT SYNC TRAFFIC FRAME OTHER_TRAFFIC", ""),
    (6, "CELL LINK PILOT SYNC PAGING TRAFFIC FRAME", ""),
    (6, "CELL LINK PILOT SYNC PAGING FRAME", ""),
    (7, "CELL LINK PILOT SYNC PAGING HALF FRAME", ""),
    (8, "CELL LINK PILOT SYNC PAGING HALF TRAFFIC", ""),
    (8, "CELL LINK PILOT SYNC PAGING HALF TRAFFIC NEXT", ""),
    (9, "CELL LINK PILOT SYNC PAGING HALF TRAFFIC FRAME NEXT", ""),
    (5, "CELL LINK PILOT SYNC_2400 PAGING HALF TRAFFIC FRAME", ""),
    (7, "CELL LINK PILOT SYNC_2400 TRAFFIC FRAME PAGING HALF", ""),
    (5, "CELL LINK PILOT SYNC_1200 FRAME", ""),
    (6, "CELL LINK PILOT SYNC_1200 TRAFFIC", ""),
    (5, "CELL LINK PILOT SYNC", "traffic row=8 esn=00000009 offset=0 gain=40"),
    (6, "CELL LINK PILOT SYNC TRAFFIC", "frame 1200 16:ffff 0101010101010101"),
]

# And with frames of both rate sets.
MIXED_FRAMES = [
    (7, "CELL LINK PILOT SYNC TRAFFIC FRAME FRAME2", ""),
    (7, "CELL LINK PILOT SYNC TRAFFIC FRAME2 FRAME", ""),
    (8, "CELL LINK PILOT SYNC TRAFFIC FRAME FRAME FRAME2", ""),
    (8, "CELL LINK PILOT SYNC TRAFFIC FRAME2 FRAME2 FRAME", ""),
    (9, "CELL LINK PILOT SYNC TRAFFIC FRAME ROW_9 FRAME2 FRAME", ""),
    (9, "CELL LINK PILOT SYNC TRAFFIC FRAME2 ROW_9 FRAME FRAME2", ""),
]

# Plans that can't be sent: the first fault, what replaces the cell's lines, the channels after them, and the width of
# the samples.
ONE = {"LINK": "link re=1 im=0 start=0 samples=1"}
LOUD_LINK = {"LINK": "link re=32767 im=-3 start=0 samples=1228800"}
LONG_LINK = {"LINK": "link re=0 im=-3 start=0 samples=33554433"}
NO_PILOT = {"PILOT": "pilot gain=0"}
NO_SYNC = {"SYNC": "sync gain=0 prev=3 min=1 sid=1 nid=2 lp=13 ltm=0 daylt=0 prat=0 rest=3:00"}
MOST = {"PILOT": "pilot gain=65535"}
FAULTY_PLANS: list[tuple[str, dict[str, str], str, int]] = [
    ("too loud 4260100", LOUD_LINK, "", 16),
    ("too long 33554433", LONG_LINK, "", 16),
    ("too loud 390", {}, "", 8),
    ("gain 0", NO_PILOT, "", 16),
    ("gain 0", NO_PILOT | NO_SYNC, "", 16),
    ("gain 32", NO_SYNC, "", 16),
    ("gain 32", {"LINK": "link re=32767 im=32767 start=0 samples=18446744073709551615"} | MOST | NO_SYNC, "", 8),
    ("too loud 8589803520", {
        "LINK": "link re=-32768 im=-32768 start=4294967295 samples=18446744073709551615",
        "PILOT": "pilot gain=65535",
        "SYNC": "sync gain=65535 prev=3 min=1 sid=1 nid=2 lp=13 ltm=0 daylt=0 prat=0 rest=3:00",
    }, "", 16),
    ("line 2", {"LINK": "link re=1 im=0 start=0 samples=18446744073709551616"}, "", 8),
    ("too loud 6226300", LOUD_LINK, "PAGING HALF", 16),
    ("walsh 1", {}, "PAGING HALF PAGING HALF", 16),
    ("walsh 1", {}, "PAGING HALF OTHER_PAGING HALF NEXT PAGING HALF", 16),
    ("walsh 7", {}, "PAGING HALF OTHER_PAGING HALF OTHER_PAGING HALF PAGING HALF", 16),
    ("walsh 1", NO_PILOT, "PAGING HALF PAGING HALF", 16),
    ("gain 1", {}, "SILENT_PAGING HALF", 16),
    ("gain 1", {}, "SILENT_PAGING HALF OTHER_PAGING HALF", 16),
    ("gain 1", {}, "OTHER_PAGING HALF SILENT_PAGING HALF", 16),
    ("gain 5", {}, "SILENT_PAGING_5 HALF SILENT_PAGING HALF", 16),
    ("gain 0", NO_PILOT, "SILENT_PAGING HALF", 16),
    ("gain 1", LOUD_LINK, "SILENT_PAGING HALF", 16),
    ("too loud 32768", ONE | {"PILOT": "pilot gain=32678"}, "PAGING HALF", 16),
    ("too long 33554433", {"LINK": "link re=1 im=0 start=0 samples=33554433", "PILOT": "pilot gain=32677"},
     "PAGING HALF", 16),
    ("line 9", {}, "PAGING HALF PAGING HALF SYNC", 16),
    ("walsh 0", {}, "ROW_0 FRAME", 16),
    ("walsh 32", {}, "ROW_32 FRAME", 16),
    ("walsh 0", {}, "ROW_0 FRAME ROW_32 FRAME", 16),
    ("walsh 32", {}, "ROW_32 FRAME ROW_0 FRAME", 16),
    ("walsh 0", {}, "TRAFFIC FRAME ROW_0 FRAME", 16),
    ("walsh 8", {}, "TRAFFIC FRAME TRAFFIC FRAME", 16),
    ("walsh 8", {}, "TRAFFIC FRAME ROW_9 FRAME TRAFFIC FRAME", 16),
    ("walsh 9", {}, "TRAFFIC FRAME ROW_9 FRAME ROW_9 FRAME TRAFFIC FRAME", 16),
    ("walsh 1", {}, "PAGING HALF ROW_1 FRAME", 16),
    ("walsh 1", {}, "PAGING HALF OTHER_PAGING HALF ROW_1 FRAME", 16),
    ("walsh 1", {}, "PAGING HALF PAGING HALF ROW_0 FRAME", 16),
    ("walsh 0", {}, "PAGING HALF ROW_0 FRAME ROW_1 FRAME", 16),
    ("walsh 32", NO_PILOT, "ROW_32 FRAME", 16),
    ("walsh 8", {}, "SILENT FRAME TRAFFIC FRAME", 16),
    ("walsh 1", LONG_LINK | MOST, "ROW_1 FRAME ROW_1 FRAME", 16),
    ("gain 8", {}, "SILENT FRAME", 16),
    ("gain 0", NO_PILOT, "SILENT FRAME", 16),
    ("gain 1", {}, "SILENT_PAGING HALF SILENT FRAME", 16),
    ("gain 8", {}, "PAGING HALF SILENT FRAME", 16),
    ("gain 9", {}, "SILENT_9 FRAME SILENT FRAME", 16),
    ("gain 9", LONG_LINK | MOST, "TRAFFIC FRAME SILENT_9 FRAME", 16),
    ("too loud 32768", ONE | {"PILOT": "pilot gain=32698"}, "TRAFFIC FRAME", 16),
    ("too loud 32768", ONE | {"PILOT": "pilot gain=32638"}, "PAGING HALF TRAFFIC FRAME", 16),
    ("too loud 32768", ONE | {"PILOT": "pilot gain=32658"}, "TRAFFIC FRAME ROW_9 FRAME", 16),
    ("too loud 196995", LONG_LINK, "LOUD FRAME", 16),
    ("too long 33554433", LONG_LINK, "TRAFFIC FRAME", 16),
    ("too long 33554433", LONG_LINK, "PAGING HALF TRAFFIC FRAME ROW_9 FRAME", 16),
]  # fmt: skip

# The same for cells with only a pilot: the link, the pilot, and the width of the samples.
FAULTY_PILOT_PLANS = [
    ("too loud 32768", "link re=1 im=0 start=0 samples=1", "pilot gain=32768", 16),
    ("too loud 32768", "link re=-1 im=1 start=0 samples=1", "pilot gain=16384", 16),
    ("too loud 32768", "link re=-32768 im=0 start=0 samples=1", "pilot gain=1", 16),
    ("too loud 128", "link re=0 im=-1 start=0 samples=1", "pilot gain=128", 8),
    ("too long 18446744073709551615", "link re=1 im=0 start=0 samples=18446744073709551615", "pilot gain=1", 16),
    ("too long 33554433", "link re=1 im=0 start=0 samples=33554433", "pilot gain=127", 16),
    ("too long 67108865", "link re=1 im=0 start=0 samples=67108865", "pilot gain=127", 8),
    ("too loud 128", "link re=1 im=0 start=0 samples=67108865", "pilot gain=128", 8),
]
# And those at the ends of their bounds.
LARGEST_PILOT_PLANS = [
    ("link re=32767 im=0 start=0 samples=1", "pilot gain=1", 16),
    ("link re=1 im=0 start=0 samples=33554432", "pilot gain=32767", 16),
    ("link re=1 im=0 start=0 samples=67108864", "pilot gain=127", 8),
]

# Lines whose numbers are at the ends of their ranges.
LAWFUL_LINES = {
    "CELL": [
        "cell pn=0 time=0 lc=00000000001 checks=0",
        "cell pn=511 time=34359738368 lc=3fffffffffF checks=3",
        "cell pn=9 time=10 lc=3FFFFFFFFFF checks=1",
        "cell pn=10 time=99 lc=0000000000a checks=2",
    ],
    "LINK": [
        "link re=1 im=0 start=0 samples=1",
        "link re=0 im=1 start=4294967295 samples=33554432",
        "link re=-1 im=-1 start=10 samples=10",
        "link re=-20 im=20 start=1 samples=9",
    ],
    "SYNC": [
        "sync gain=1 prev=0 min=0 sid=0 nid=0 lp=0 ltm=0 daylt=0 prat=0 rest=3:00",
        "sync gain=1 prev=255 min=255 sid=32767 nid=65535 lp=255 ltm=63 daylt=1 prat=3 rest=3:e0",
        "sync gain=1 prev=3 min=1 sid=1 nid=2 lp=13 ltm=0 daylt=0 prat=0 freq=0 rest=0:",
        "sync gain=1 prev=3 min=1 sid=1 nid=2 lp=13 ltm=0 daylt=0 prat=0 freq=2047 rest=8:A5",
        "sync gain=1 prev=3 min=1 sid=1 nid=2 lp=13 ltm=0 daylt=0 prat=0 freq=283 rest=16:aB0f",
        "sync gain=1 prev=3 min=1 sid=1 nid=2 lp=13 ltm=0 daylt=0 prat=0 freq=283 rest=976:" + 122 * "5a",
    ],
}

# Channels at no fault: paging channels at both rates, and traffic channels whatever the rate of paging channels is.
LAWFUL_PAGINGS = [
    "PAGING HALF",
    "PAGING HALF NEXT",
    "PAGING HALF NEXT HALF NEXT NEXT",
    "PAGING HALF OTHER_PAGING HALF",
    "OTHER_PAGING HALF NEXT PAGING HALF",
    "PAGING SIX_OCTETS",
    "PAGING ELEVEN_OCTETS HALF",
    # 15 body bits of the half-frame are left.
    "PAGING TEN_OCTETS NEXT",
]
LAWFUL_TRAFFICS = [
    "TRAFFIC FRAME",
    "TRAFFIC FRAME FRAME",
    "TRAFFIC FRAME OTHER_TRAFFIC FRAME",
    "OTHER_TRAFFIC FRAME FRAME TRAFFIC FRAME FRAME",
    "ROW_1 FRAME ROW_9 FRAME",
    "TRAFFIC FRAME2",
    "TRAFFIC FRAME2 FRAME2 ROW_9 FRAME FRAME",
    "TRAFFIC FRAME ROW_9 FRAME2",
]
# Pages, and frames, that are alone after their channel's line.
LAWFUL_PAGES = ["page half 10:FfC0", "page half 42:030000000000"]
LAWFUL_FRAMES = [
    "frame 2400 40:00000000fF 1111111111111111",
    "frame 4800 80:00112233445566778899 0000000000000000",
    "frame 9600 172:" + 43 * "f" + "0 0101010101010101",
    "frame2 3600 56:00112233445566 1111111111111111",
    "frame2 7200 126:00112233445566778899aabbccddeefC 0000000000000000",
    "frame2 14400 268:" + 67 * "f" + "0 0101010101010101",
]

# The sync line, the octets of a page of zeros that the next one follows at once, and whether there is room for that: of
# 95 body bits 8, 0 and 14 are left, and of 47 at the lower rate 8, 0 and 39.
FOLLOWED_PAGES = [
    ("SYNC", 94, True),
    ("SYNC", 95, False),
    ("SYNC", 105, True),
    ("SYNC_4800", 46, True),
    ("SYNC_4800", 47, False),
    ("SYNC_4800", 48, True),
]

HEAD = "CELL LINK PILOT SYNC"


def script_of(names: str, instead: dict[str, str] | None = None) -> str:
    """Returns a script of named lines, some of which replace the lines with these names."""
    lines = LINES | (instead or {})
    return "".join(lines[name] + "\n" for name in names.split())


def zero_page(octets: int) -> str:
    """Returns a page of `octets` octets whose type and bits are 0."""
    bits = 8 * octets - 38
    return f"page half {bits}:" + -(-bits // 8) * "00"


@unittest.skipUnless(PROGRAM, NO_PROGRAM)
class RefusedScripts(unittest.TestCase):
    def made(self, script: str, bits: int) -> tuple[int, str]:
        """Returns the status and the standard error of a run that can write nothing."""
        assert PROGRAM is not None
        with open("/dev/full", "wb") as full:
            words = [PROGRAM, "make", "--bits", str(bits)]
            ran = subprocess.run(words, input=script.encode(), stdout=full, stderr=subprocess.PIPE, timeout=60)
        return ran.returncode, ran.stderr.decode()

    def expect_fault(self, script: str, fault: str, bits: int = 16) -> None:
        with self.subTest(script):
            self.assertEqual(self.made(script, bits), (8, f"bad script: {fault}\n"))

    def expect_lawful(self, script: str, bits: int = 16) -> None:
        with self.subTest(script):
            self.assertEqual(self.made(script, bits), (5, "write fault\n"))

    def expect_refused(self, before: str, lines: list[str], behind: str) -> None:
        """Asserts that each of these lines is refused between some lines and others."""
        number = len(before.split()) + 1
        for line in lines:
            self.expect_fault(script_of(before) + line + "\n" + script_of(behind), f"line {number}")

    def expect_orders(self, orders: list[tuple[int, str, str]]) -> None:
        for number, names, end in orders:
            self.expect_fault(script_of(names) + end, f"line {number}")

    def test_lines_of_the_cell(self) -> None:
        self.expect_refused("", FAULTY_CELLS, "LINK PILOT SYNC")
        self.expect_refused("CELL", FAULTY_LINKS, "PILOT SYNC")
        self.expect_refused("CELL LINK", FAULTY_PILOTS, "SYNC")
        self.expect_refused("CELL LINK PILOT", FAULTY_SYNCS, "")

    def test_lines_of_channels(self) -> None:
        self.expect_refused(HEAD, FAULTY_PAGINGS, "HALF")
        self.expect_refused(HEAD + " PAGING", FAULTY_PAGES, "HALF")
        self.expect_refused(HEAD, FAULTY_TRAFFICS, "FRAME")
        self.expect_refused(HEAD + " TRAFFIC", FAULTY_FRAMES, "FRAME")
        self.expect_refused(HEAD + " TRAFFIC", FAULTY_FRAMES2, "FRAME2")

    def test_orders(self) -> None:
        self.expect_orders(ORDERS)
        self.expect_orders(PAGING_ORDERS)
        self.expect_orders(TRAFFIC_ORDERS)
        self.expect_orders(MIXED_FRAMES)

    def test_plans(self) -> None:
        for fault, instead, channels, bits in FAULTY_PLANS:
            self.expect_fault(script_of(f"{HEAD} {channels}", instead), fault, bits)
        for fault, link, pilot, bits in FAULTY_PILOT_PLANS:
            self.expect_fault(script_of("CELL LINK PILOT", {"LINK": link, "PILOT": pilot}), fault, bits)
        # A plan that can't be sent is reported only if all lines of the script are at their places.
        self.expect_fault(script_of("CELL LINK PILOT", NO_PILOT) + "\n", "line 4")
        self.expect_fault(script_of("CELL LINK", {"LINK": "link re=1 im=0 start=0 samples=67108865"}), "line 3", 8)

    def test_a_big_script(self) -> None:
        """As many bytes as a script may have, and one more."""
        self.expect_fault(1_048_576 * "\n", "line 1")
        self.expect_fault(1_048_577 * "\n", "too big")

    def test_a_long_cycle(self) -> None:
        """A cycle of 77 half-frames and 98 octets has 8,185 bits; one of an octet more has 8,193."""
        begun = script_of(HEAD + " PAGING" + 77 * " SIX_OCTETS")
        self.expect_lawful(begun + zero_page(98) + "\n")
        self.expect_fault(begun + zero_page(99) + "\n", "line 83")

    def test_pages_that_follow(self) -> None:
        """A page that follows at once needs 8 body bits of its half-frame."""
        for sync, octets, lawful in FOLLOWED_PAGES:
            script = script_of(f"CELL LINK PILOT {sync} PAGING FIRST NEXT", {"FIRST": zero_page(octets)})
            if lawful:
                self.expect_lawful(script)
            else:
                self.expect_fault(script, "line 7")

    def test_the_ends_of_ranges(self) -> None:
        for name, lines in LAWFUL_LINES.items():
            for line in lines:
                self.expect_lawful(script_of(HEAD, {name: line}))
        for link, pilot, bits in LARGEST_PILOT_PLANS:
            self.expect_lawful(script_of("CELL LINK PILOT", {"LINK": link, "PILOT": pilot}), bits)
        for pilot, channels in (("32677", "PAGING HALF"), ("32637", "PAGING HALF TRAFFIC FRAME")):
            self.expect_lawful(script_of(f"{HEAD} {channels}", ONE | {"PILOT": f"pilot gain={pilot}"}))

    def test_channels(self) -> None:
        for sync in ("SYNC", "SYNC_4800"):
            for channels in LAWFUL_PAGINGS:
                self.expect_lawful(script_of(f"CELL LINK PILOT {sync} {channels}"))
            for page in LAWFUL_PAGES:
                self.expect_lawful(script_of(f"CELL LINK PILOT {sync} PAGING HALF", {"HALF": page}))
        for sync in ("SYNC", "SYNC_4800", "SYNC_2400", "SYNC_1200"):
            for channels in LAWFUL_TRAFFICS:
                self.expect_lawful(script_of(f"CELL LINK PILOT {sync} {channels}"))
            for frame in LAWFUL_FRAMES:
                self.expect_lawful(script_of(f"CELL LINK PILOT {sync} TRAFFIC FRAME", {"FRAME": frame}))
