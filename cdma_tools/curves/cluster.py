"""Handing batches to workers.

A batch is a task without effects; only the process that asks for batches keeps counts.
"""

import asyncio
import concurrent.futures
import contextlib
from typing import Any, Callable

from cdma_tools.cluster import AHEAD, result_of, some_ended, workers_of
from cdma_tools.curves.batch import Setup, run_batch
from cdma_tools.curves.counting import Counts
from cdma_tools.curves.plan import Ledger
from cdma_tools.errors import Refused

Sink = Callable[[int, int, list[Counts]], None]


class Hands:
    """The batches of a ledger that are under way, by their futures."""

    def __init__(self, client: Any, setup: Setup, ledger: Ledger, sigmas: dict[int, float]) -> None:
        self.client, self.setup, self.ledger, self.sigmas = client, setup, ledger, sigmas
        self.under_way: dict[Any, tuple[int, int]] = {}

    def fill(self) -> None:
        """Hands out batches, the first needed first, until each worker has enough."""
        room = AHEAD * max(1, workers_of(self.client)) - len(self.under_way)
        asked = set(self.under_way.values())
        for point, batch in self.ledger.wanted():
            if room <= 0:
                break
            if (point, batch) not in asked:
                future = self.client.submit(run_batch, self.setup, point, self.sigmas[point], batch, pure=False)
                self.under_way[future] = (point, batch)
                room -= 1

    def step(self, sink: Sink) -> None:
        """Waits for batches, and takes those that have ended; if one failed, the others are taken first."""
        fault: Refused | None = None
        for future in some_ended(self.client, list(self.under_way)):
            point, batch = self.under_way.pop(future)
            try:
                counts = result_of(future, "batch")
            except Refused as why:
                fault = why
                continue
            self.ledger.take(point, batch, counts)
            sink(point, batch, counts)
        if fault:
            raise fault


def hand_out(client: Any, setup: Setup, ledger: Ledger, sigmas: dict[int, float], sink: Sink) -> None:
    """Does a ledger's batches until each point has enough; `sink` gets each as it comes, once."""
    hands = Hands(client, setup, ledger, sigmas)
    try:
        while ledger.left():
            hands.fill()
            hands.step(sink)
    except (OSError, concurrent.futures.CancelledError, asyncio.CancelledError):
        raise Refused("the scheduler ended, or cancelled the run") from None
    finally:
        with contextlib.suppress(Exception):
            client.cancel(list(hands.under_way), force=True)
