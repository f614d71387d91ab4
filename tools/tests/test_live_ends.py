"""Live sources of tools/listen that can't be used, or that stop: one line, and status 1."""

import contextlib
import importlib.util
import socket
import threading
import unittest
import unittest.mock
from collections.abc import Callable, Iterator
from typing import Any

from tools.tests.helping import needs, run_inside

needs("numpy", "scipy")

from cdma_tools.sources import live  # noqa: E402

PIECE, PIECES = bytes(8_000), 20  # what is sent before a source stops: 1,000 samples without a pilot each
WAIT = 0.6  # seconds without samples after which a source is given up here


@contextlib.contextmanager
def port_in_use() -> Iterator[int]:
    """Yields a port of datagrams that another socket has."""
    with socket.socket(socket.AF_INET, socket.SOCK_DGRAM) as taken:
        taken.bind(("127.0.0.1", 0))
        yield int(taken.getsockname()[1])


class Refused(unittest.TestCase):
    seconds = 2

    def check(self, source: str, why: str) -> None:
        """The listening ends with one line that has the source and the reason."""
        words = ["--type", "cf32", "--rate", "2457600", "--program", "/bin/true", source]
        self.assertEqual(run_inside("listen", *words), (1, b"", f"listen: {source}: {why}\n"))

    def test_a_port_in_use(self) -> None:
        with port_in_use() as port:
            self.check(f"udp://127.0.0.1:{port}", "Address already in use")

    def test_a_closed_port(self) -> None:
        with socket.create_server(("127.0.0.1", 0)) as free:
            port = free.getsockname()[1]
        self.check(f"tcp://127.0.0.1:{port}", "Connection refused")

    @unittest.skipUnless(importlib.util.find_spec("zmq"), "no zmq: install the package python3-zmq")
    def test_an_address_that_no_publisher_can_have(self) -> None:
        source = "zmq://127.0.0.1:0"
        status, wrote, said = run_inside("listen", "--rate", "2457600", "--program", "/bin/true", source)
        self.assertEqual((status, wrote, said.count("\n")), (1, b"", 1), said)
        self.assertTrue(said.startswith(f"listen: {source}: "), said)


class Stopped(unittest.TestCase):
    """Sources that send samples and stop."""

    seconds = 8

    def check(self, address: Callable[[int], str], port: int, send: Callable[[], Any], is_over: bool = False) -> None:
        """Checks the one line on a source that sends, and then is over or falls silent."""
        source, stops = address(port), threading.Event()

        def send_some() -> None:
            for _ in range(PIECES):
                stops.wait(0.02)
                with contextlib.suppress(OSError):
                    send()

        sender = threading.Thread(target=send_some, daemon=True)
        sender.start()
        words = ["--type", "cf32", "--rate", "2457600", "--search", "600", "--program", "/bin/true", source]
        with unittest.mock.patch.object(live, "SERVER_TIMEOUT", WAIT):
            status, wrote, said = run_inside("listen", *words)
        stops.set()
        sender.join()
        self.assertEqual((status, wrote, said.count("\n")), (1, b"", 1), said)
        expected = "no pilot stands out anywhere" if is_over else f"{source}: no samples for 1 s\n"
        self.assertTrue(said.startswith(f"listen: {expected}"), said)

    @unittest.skipUnless(importlib.util.find_spec("zmq"), "no zmq: install the package python3-zmq")
    def test_a_publisher(self) -> None:
        """One that falls silent and one that is gone are the same to a subscriber."""
        import zmq

        for is_gone in (False, True):
            with self.subTest(is_gone=is_gone), zmq.Context() as context:
                publisher = context.socket(zmq.PUB)
                port, sent = publisher.bind_to_random_port("tcp://127.0.0.1"), list[Any]()

                def publish() -> None:
                    sent.append(publisher.send(PIECE))
                    if is_gone and len(sent) == PIECES:
                        publisher.close(linger=0)

                self.check("zmq://127.0.0.1:{}".format, port, publish)
                publisher.close(linger=0)

    def test_datagrams(self) -> None:
        with port_in_use() as port, socket.socket(socket.AF_INET, socket.SOCK_DGRAM) as sender:
            pass
        with socket.socket(socket.AF_INET, socket.SOCK_DGRAM) as sender:
            self.check("udp://127.0.0.1:{}".format, port, lambda: sender.sendto(PIECE, ("127.0.0.1", port)))

    def test_a_server(self) -> None:
        """One that keeps the connection is given up; one that closes it ends the listening."""
        for is_over in (False, True):
            with self.subTest(is_over=is_over), socket.create_server(("127.0.0.1", 0)) as server:
                connections: list[socket.socket] = []

                def send() -> None:
                    if not connections:
                        connections.append(server.accept()[0])
                    connections[0].sendall(PIECE)
                    connections.append(connections[0])
                    if is_over and len(connections) > PIECES:
                        connections[0].close()

                self.check("tcp://127.0.0.1:{}".format, server.getsockname()[1], send, is_over)
                connections[0].close()


if __name__ == "__main__":
    unittest.main()
