"""Processes that share work: none of their servers can be reached from the network, and they leave nothing."""

import contextlib
import os
import signal
import subprocess
import tempfile
import time
import unittest
import unittest.mock
from collections.abc import Iterator

from tools.tests.helping import EXAMPLES, PYTHON, ROOT, needs, temporary_folder

needs("distributed", "psutil")

import psutil

from cdma_tools import cluster
from cdma_tools.workers import quietly

SECONDS = 120  # the longest wait
# A cluster of n workers, which writes a line once it is ready and ends when its input does.
CLUSTER = """
import sys
from cdma_tools.cluster import connected, remove_own_folders
from cdma_tools.workers import quietly

if __name__ == "__main__":
    count = int(sys.argv[1])
    whole = connected(None, count)
    with quietly(whole, remove_own_folders) if count > 1 else whole:
        print("ready", flush=True)
        sys.stdin.read()
"""


def listening_sockets(pid: int) -> set[str]:
    """Returns the addresses at which a process and its children accept connections."""
    found = set()
    whole = psutil.Process(pid)
    for process in [whole, *whole.children(recursive=True)]:
        with contextlib.suppress(psutil.NoSuchProcess):
            for connection in process.connections("inet"):
                if connection.status == psutil.CONN_LISTEN or connection.type == 2 and not connection.raddr:
                    found.add(str(connection.laddr.ip))
    return found


class Clusters(unittest.TestCase):
    """Clusters as separate processes, with their own temporary directory."""

    parted, seconds = True, 6

    def setUp(self) -> None:
        self.folder, self.temporary = temporary_folder(self.addCleanup), temporary_folder(self.addCleanup)
        self.script = os.path.join(self.folder, "cluster_of.py")
        with open(self.script, "w", encoding="ascii") as file:
            file.write(CLUSTER)

    def start(self, *words: str) -> subprocess.Popen[bytes]:
        """Starts a process, which ends with the test."""
        environment = dict(os.environ, TMPDIR=self.temporary, PYTHONPATH=ROOT, OMP_NUM_THREADS="1")
        child = subprocess.Popen(
            [PYTHON, "-B", *words], stdin=subprocess.PIPE, stdout=subprocess.PIPE, stderr=subprocess.DEVNULL,
            env=environment, cwd=self.folder,
        )  # fmt: skip
        self.addCleanup(self.end, child)
        return child

    @staticmethod
    def end(child: subprocess.Popen[bytes]) -> None:
        """Ends a process and its children."""
        with contextlib.suppress(psutil.NoSuchProcess):
            for process in [*psutil.Process(child.pid).children(recursive=True), child]:
                with contextlib.suppress(psutil.NoSuchProcess):
                    process.kill()
        child.communicate()

    def ready(self, count: int) -> subprocess.Popen[bytes]:
        """Returns an existing cluster of `workers` workers."""
        child = self.start(self.script, str(count))
        assert child.stdout is not None
        self.assertEqual(child.stdout.readline(), b"ready\n")
        return child

    def left(self) -> list[str]:
        """Returns the workers' folders that exist."""
        return [name for name in os.listdir(self.temporary) if name.startswith(cluster.FOLDER)]

    def wait_for_sockets(self, child: subprocess.Popen[bytes], workers: int) -> set[str]:
        """Returns the sockets of a tool once its workers exist."""
        until = time.monotonic() + SECONDS
        while time.monotonic() < until and child.poll() is None:
            addresses = listening_sockets(child.pid)
            if len(psutil.Process(child.pid).children(recursive=True)) >= workers and len(self.workers()) == workers:
                return addresses | listening_sockets(child.pid)
            time.sleep(0.1)
        raise AssertionError("no workers are there")

    def workers(self) -> list[str]:
        """Returns the folders of the workers: each worker makes one once its servers run."""
        return [
            name
            for path, names, _ in os.walk(self.temporary)
            for name in names
            if name.startswith("worker-") and "dirlock" not in name
        ]

    def test_clusters_listen_to_loopback_only(self) -> None:
        for count in (1, 2):
            with self.subTest(count):
                child = self.ready(count)
                self.assertEqual(listening_sockets(child.pid), {"127.0.0.1"})
                child.communicate()
                self.assertEqual((child.returncode, self.left()), (0, []))

    def test_a_curve_listens_to_loopback_only(self) -> None:
        script = os.path.join(EXAMPLES, "frames_9600.script")
        fake = os.path.join(ROOT, "tools", "tests", "fake_receiver.py")
        program = os.path.join(self.folder, "fake")
        with open(program, "w", encoding="ascii") as file:
            file.write(f"#!/bin/sh\nFAKE_SCRIPT={script} FAKE_FAULT=slow exec {PYTHON} -S -B {fake} \"$@\"\n")
        os.chmod(program, 0o755)
        words = "--from 1 --to 3 --step 1 --frames 500 --workers 2 --maker"
        child = self.start(os.path.join(ROOT, "tools", "curve"), script, *words.split(), program)
        self.assertEqual(self.wait_for_sockets(child, 2), {"127.0.0.1"})

    def test_a_listening_listens_to_loopback_only(self) -> None:
        recording = os.path.join(self.folder, "zeros.ci8")
        with open(recording, "wb") as file:
            file.truncate(2 * 1_228_800 * 40)
        words = "--type ci8 --rate 1228800 --program /bin/true --part 10 --workers 2"
        child = self.start(os.path.join(ROOT, "tools", "listen"), *words.split(), recording)
        self.assertEqual(self.wait_for_sockets(child, 2), {"127.0.0.1"})

    def test_what_is_ended_leaves_nothing(self) -> None:
        child = self.ready(2)
        self.assertEqual(len(self.left()), 1)
        child.send_signal(signal.SIGTERM)
        child.communicate()
        self.assertEqual((child.returncode, self.left()), (-signal.SIGTERM, []))

    def test_what_was_killed_is_removed_by_the_next_run(self) -> None:
        killed = self.ready(2)
        self.end(killed)
        held = self.ready(1)
        kept = self.left()
        self.assertEqual(len(kept), 1)  # the killed one's is gone already
        self.assertEqual(self.ready(1).communicate()[0], b"")
        self.assertEqual(self.left(), kept)
        held.communicate()
        self.assertEqual(self.left(), [])


class Folders(unittest.TestCase):
    """The workers' folders, without any workers."""

    def setUp(self) -> None:
        self.folder = temporary_folder(self.addCleanup)
        patch = unittest.mock.patch.object(tempfile, "tempdir", self.folder)
        patch.start()
        self.addCleanup(patch.stop)

    def test_only_folders_that_nobody_holds_are_removed(self) -> None:
        names = {"other": "other-1", "new": f"{cluster.FOLDER}new", "left": f"{cluster.FOLDER}left"}
        for name in names.values():
            os.mkdir(os.path.join(self.folder, name))
        with open(os.path.join(self.folder, names["left"], cluster.HELD), "wb"):
            pass
        with cluster.worker_folder() as own:
            cluster.remove_left_folders()
            self.assertTrue(os.path.isdir(own))
            self.assertEqual(
                sorted(os.listdir(self.folder)), sorted([names["other"], names["new"], os.path.basename(own)])
            )
        self.assertFalse(os.path.exists(own))

    def test_sigterm_cleans_first(self) -> None:
        order: list[str] = []

        @contextlib.contextmanager
        def no_cluster() -> Iterator[unittest.mock.Mock]:
            yield unittest.mock.Mock()

        with unittest.mock.patch("os.kill", lambda *_: order.append("killed")):
            with quietly(no_cluster(), lambda: order.append("cleaned")):
                signal.raise_signal(signal.SIGTERM)
        self.assertEqual(order, ["cleaned", "killed"])


if __name__ == "__main__":
    unittest.main()
