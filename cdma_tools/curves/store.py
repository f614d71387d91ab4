"""The counts of a run, kept as they come in an SQLite file.

| Table | Content |
|---|---|
| `setup` | what the counts depend on, as `name`, `value` |
| `batches` | a row for each batch that is done: `point` (thousandths of a decibel), `batch` |
| `counts` | `point`, `batch`, `curve` (its number), `channel`, `sent` and the kinds of error |

A batch and its counts are written in one transaction, with one row for the batch. So a run that is interrupted and
begun again counts none twice.
"""

import contextlib
import hashlib
import json
import os
import sqlite3
from typing import Iterator

from cdma_tools.curves.batch import Setup
from cdma_tools.curves.counting import OUTCOMES, Count, Counts
from cdma_tools.curves.plan import Done
from cdma_tools.errors import Refused

FORM = "2"
COUNTS = "counts.sqlite"  # the name of the file in its folder
TABLES = f"""
create table if not exists setup (name text primary key, value text not null);
create table if not exists batches (point integer, batch integer, primary key (point, batch));
create table if not exists counts (
    point integer, batch integer, curve integer, channel text, sent integer not null,
    {', '.join(f'{outcome} integer not null' for outcome in OUTCOMES)},
    primary key (point, batch, curve, channel)
);
"""
# A killed process loses nothing so, and a machine that loses power the last batches at most; and no batch waits for the
# disk.
FAST = "pragma journal_mode = wal; pragma synchronous = normal;"
COLUMNS = ("sent", *OUTCOMES)


def identity(setup: Setup) -> dict[str, str]:
    """Returns what a run's counts depend on, by name, without the paths of files."""
    scripts = [setup.text, *setup.others]
    return {
        "form": FORM,
        "scripts": " ".join(hashlib.sha256(text.encode()).hexdigest() for text in scripts),
        "row": str(setup.row),
        "paths": " ".join(f"{delay}:{factor}" for delay, factor in setup.paths),
        "maker": setup.maker_checksum,
        "receivers": json.dumps([[curve.checksum, curve.words] for curve in setup.curves]),
        "seed": str(setup.seed),
        "numpy": setup.numpy_version,
        **({"channel": setup.antenna.text} if setup.antenna else {}),
    }


class Store:
    """A file of counts that belongs to one setup."""

    def __init__(self, path: str, setup: Setup) -> None:
        self.path = path
        with self.faults():
            self.base = sqlite3.connect(path)
            self.base.executescript(FAST)
            self.base.executescript(TABLES)
            self.check(identity(setup))

    @contextlib.contextmanager
    def faults(self) -> Iterator[None]:
        """Turns a fault of the file into words."""
        try:
            yield
        except sqlite3.Error as why:
            raise Refused(f"{self.path}: {why}") from None

    def check(self, wanted: dict[str, str]) -> None:
        """Writes the setup if there is none; raises Refused if the file has the counts of another."""
        kept = dict(self.base.execute("select name, value from setup"))
        if not kept:
            with self.base:
                self.base.executemany("insert into setup values (?, ?)", wanted.items())
        elif differing := sorted(name for name in {*kept, *wanted} if kept.get(name) != wanted.get(name)):
            raise Refused(f"{self.path} has counts of another run ({', '.join(differing)} differ): give another --out")

    def add(self, point: int, batch: int, curves: list[Counts]) -> None:
        """Keeps a batch's counts, once."""
        with self.faults(), self.base:
            if self.base.execute("insert or ignore into batches values (?, ?)", (point, batch)).rowcount:
                self.base.executemany(
                    f"insert into counts values (?, ?, ?, ?, {', '.join('?' for _ in COLUMNS)})",
                    [
                        (point, batch, number, channel, *(getattr(count, column) for column in COLUMNS))
                        for number, counts in enumerate(curves)
                        for channel, count in counts.items()
                    ],
                )

    @property
    def has_counts(self) -> bool:
        """Whether a batch is kept."""
        with self.faults():
            return self.base.execute("select 1 from batches limit 1").fetchone() is not None

    def done(self, curves: int) -> Done:
        """All batches that are kept, with each curve's counts."""
        with self.faults():
            found: Done = {}
            for point, batch in self.base.execute("select point, batch from batches"):
                found.setdefault(point, {})[batch] = [{} for _ in range(curves)]
            for point, batch, number, channel, *numbers in self.base.execute(
                f"select point, batch, curve, channel, {', '.join(COLUMNS)} from counts order by rowid"
            ):
                found[point][batch][number][channel] = Count(*numbers)
            return found

    def close(self) -> None:
        """Closes the file."""
        self.base.close()


def opened(folder: str, setup: Setup) -> Store:
    """Returns the file of counts of a folder, which is made if it is missing."""
    try:
        os.makedirs(folder, exist_ok=True)
    except OSError as why:
        raise Refused(f"{folder}: {why.strerror}") from None
    return Store(os.path.join(folder, COUNTS), setup)
