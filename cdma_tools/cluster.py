"""Distribution of tasks to workers by dask.distributed (Debian's package python3-distributed).

A task has no effects. If a worker dies, dask gives its tasks to another one, and if two workers did one task, the
results are the same.

Anyone who reaches a scheduler or a worker can run code as its user. All servers of a cluster that is started here listen
only on loopback addresses.
"""

import asyncio
import contextlib
import fcntl
import functools
import logging
import multiprocessing.spawn
import os
import shutil
import tempfile
from typing import Any, Iterator

from cdma_tools.errors import Refused

# Above every level of a logger.
SILENT = logging.CRITICAL + 1
# Seconds until a scheduler that doesn't answer isn't there, and until one that has no worker, or none any more, gets
# none.
CONNECT = 10
FIRST_WORKER = LAST_WORKER = 60
# Settings of a worker process that is started here, besides dask's own: the C library keeps up to this many bytes of
# freed memory. By dask's setting it returns each large array, and takes as long again to get new pages.
KEEP_FREED = {"distributed.nanny.pre-spawn-environ.MALLOC_TRIM_THRESHOLD_": 1 << 28}
LOOPBACK = "127.0.0.1"
WORKER = "Dask Worker process"  # the beginning of the name that dask gives to a worker's process
# The address of a status page: dask starts one in each process, by default on all interfaces.
STATUS_PAGE = f"{LOOPBACK}:0"
# The beginning of the name of a folder for workers, and the name of the file in it that its run holds.
FOLDER, HELD = "cdma-workers-", "held"
# Tasks under way for each worker: one that it does and one that waits, so that none is idle.
AHEAD = 2


def quiet() -> Any:
    """Returns dask.distributed, which writes nothing of its own from here on."""
    try:
        import distributed
    except ImportError as missing:
        raise Refused(f"{missing}: install the package python3-distributed, and run /usr/bin/python3") from None
    for name in ("distributed", "tornado", "asyncio", *logging.root.manager.loggerDict):
        if name.split(".")[0] in ("distributed", "tornado", "asyncio"):
            logging.getLogger(name).setLevel(SILENT)
    return distributed


@functools.cache
def leave_out_main() -> None:
    """Lets dask's workers start without the main module of this process: a script that isn't made for that would run
    again in each of them."""
    prepared = multiprocessing.spawn.get_preparation_data

    def without_main(name: str) -> dict[str, Any]:
        data: dict[str, Any] = prepared(name)
        kept = {key: value for key, value in data.items() if not key.startswith("init_main_from_")}
        return kept if name.startswith(WORKER) else data

    multiprocessing.spawn.get_preparation_data = without_main


# The folders of this process's clusters.
own_folders: set[str] = set()


@contextlib.contextmanager
def worker_folder() -> Iterator[str]:
    """A temporary folder for workers. Those that ended runs left there are removed first."""
    remove_left_folders()
    folder = tempfile.mkdtemp(prefix=FOLDER)
    own_folders.add(folder)
    try:
        # The file is held before it has its name, so nobody takes a new folder for one that was left.
        with open(os.path.join(folder, f"{HELD}.new"), "wb") as held:
            fcntl.flock(held, fcntl.LOCK_EX)
            os.rename(held.name, os.path.join(folder, HELD))
            yield folder
    finally:
        remove_own_folders()


def remove_own_folders() -> None:
    """Removes the folders of this process's clusters."""
    while own_folders:
        shutil.rmtree(own_folders.pop(), ignore_errors=True)


def remove_left_folders() -> None:
    """Removes folders of this user's runs that were killed: nobody holds their files now."""
    place = tempfile.gettempdir()
    for name in os.listdir(place):
        folder = os.path.join(place, name)
        if name.startswith(FOLDER) and is_left(folder):
            shutil.rmtree(folder, ignore_errors=True)


def is_left(folder: str) -> bool:
    """Whether a folder is this user's, and its run has ended."""
    try:
        if os.lstat(folder).st_uid != os.getuid():
            return False
        with open(os.path.join(folder, HELD), "rb") as held:
            fcntl.flock(held, fcntl.LOCK_EX | fcntl.LOCK_NB)
    except OSError:
        return False
    return True


@contextlib.contextmanager
def connected(address: str | None, workers: int) -> Iterator[Any]:
    """A client of the scheduler at an address, or of a cluster on this machine: of processes, and of one thread for one
    worker, which starts faster."""
    distributed = quiet()
    import dask

    with contextlib.ExitStack() as stack:
        try:
            if address is None:
                leave_out_main()
                folder = stack.enter_context(worker_folder())
                stack.enter_context(dask.config.set(KEEP_FREED))
                cluster = distributed.LocalCluster(
                    n_workers=workers,
                    threads_per_worker=1,
                    processes=workers > 1,
                    host=LOOPBACK if workers > 1 else None,
                    dashboard_address=STATUS_PAGE,
                    worker_dashboard_address=STATUS_PAGE,
                    memory_limit=0,
                    local_directory=folder,
                    silence_logs=SILENT,
                )
                stack.enter_context(cluster)
                client = stack.enter_context(distributed.Client(cluster))
            else:
                client = stack.enter_context(distributed.Client(address, timeout=CONNECT))
        except (OSError, TimeoutError, asyncio.TimeoutError, ValueError) as why:
            where = "a cluster on this machine can't be started" if address is None else f"no scheduler at {address}"
            raise Refused(f"{where}: {why or 'it does not answer'}") from None
        try:
            client.wait_for_workers(1, timeout=FIRST_WORKER)
        except (TimeoutError, asyncio.TimeoutError):
            raise Refused(f"the scheduler at {address} has no workers") from None
        yield client


def workers_of(client: Any) -> int:
    """Returns the current number of workers of a client's scheduler."""
    return len(client.scheduler_info()["workers"])


def some_ended(client: Any, futures: list[Any]) -> list[Any]:
    """Returns the futures that have ended, at least one; raises Refused if no worker is left that could end one."""
    while True:
        try:
            return list(quiet().wait(futures, timeout=LAST_WORKER, return_when="FIRST_COMPLETED").done)
        except (TimeoutError, asyncio.TimeoutError):
            if not workers_of(client):
                raise Refused("the scheduler has no workers left") from None


def result_of(future: Any, task: str) -> Any:
    """Returns the result of the task with this name; raises Refused if it failed, or if the scheduler lost it."""
    if future.status == "finished":
        return future.result()
    if future.status != "error":
        raise Refused("the scheduler ended, or cancelled the run")
    why = future.exception()
    if isinstance(why, Refused):
        raise why
    if type(why).__name__ == "KilledWorker":
        raise Refused(f"one {task} ended several workers: they were killed, or ran out of memory")
    if isinstance(why, ModuleNotFoundError):
        raise Refused(f"a worker reports {why}: start it at the top of this repository, with PYTHONPATH=.")
    raise Refused(f"a worker failed: {type(why).__name__}: {why}")
