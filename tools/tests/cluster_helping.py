"""A scheduler and workers of dask.distributed, each a process of its own on this machine, as a user starts them."""

import json
import os
import subprocess
import time
from collections.abc import Callable
from typing import Any

from tools.tests.helping import PYTHON, ROOT

# A worker's or a scheduler's command, as shown in docs/CURVES.md.
SERVER = [PYTHON, "-B", "-m"]
# Seconds that anything takes at most.
SECONDS = 240


def wait_for(condition: Callable[[], Any], ended: subprocess.Popen[Any]) -> None:
    """Waits until a condition holds, which must happen before a process ends."""
    until = time.monotonic() + SECONDS
    while not condition():
        assert ended.poll() is None, "a process ended too soon"
        assert time.monotonic() < until, "too slow"
        time.sleep(0.05)


def started(words: list[str], clean: Callable[..., object]) -> subprocess.Popen[bytes]:
    """Starts a silent process at the top of the repository, which ends with a test: `clean` is its addCleanup."""
    child = subprocess.Popen(words, stdout=subprocess.DEVNULL, stderr=subprocess.DEVNULL, cwd=ROOT)

    def end() -> None:
        child.kill()
        child.wait()

    clean(end)
    return child


def address_in(path: str) -> str | None:
    """Returns the address that a scheduler wrote to a file; None as long as there is none."""
    try:
        with open(path, encoding="ascii") as file:
            return str(json.load(file)["address"])
    except (OSError, ValueError):
        return None


def started_scheduler(folder: str, clean: Callable[..., object]) -> tuple[subprocess.Popen[bytes], str]:
    """Starts a scheduler, which writes to a folder; returns it and its address."""
    path = os.path.join(folder, "scheduler.json")
    child = started(
        [*SERVER, "distributed.cli.dask_scheduler", "--host", "127.0.0.1", "--port", "0", "--no-dashboard",
         "--scheduler-file", path], clean
    )  # fmt: skip
    wait_for(lambda: address_in(path), child)
    return child, address_in(path) or ""


def started_worker(address: str, folder: str, clean: Callable[..., object]) -> subprocess.Popen[bytes]:
    """Starts a worker of the scheduler at an address; it may write to a folder."""
    return started(
        [*SERVER, "distributed.cli.dask_worker", address, "--nthreads", "1", "--no-nanny", "--no-dashboard",
         "--local-directory", folder], clean
    )  # fmt: skip
