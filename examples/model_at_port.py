#!/usr/bin/python3
"""A worked adapter: the model as a receiver that waits at a TCP port, and answers in lines of JSON
(conformance/README.md).

    /usr/bin/python3 examples/model_at_port.py 5995
"""

import json
import os
import shlex
import socketserver
import sys

sys.path.insert(0, os.path.dirname(os.path.dirname(os.path.abspath(__file__))))
from cdma_model.run import run
from cdma_tools.lines import read_line


class Receiver(socketserver.StreamRequestHandler):
    """One run: a line with the arguments, then the input up to its end. It replies with lines, the status last."""

    def handle(self) -> None:
        """Serves one connection."""
        arguments = shlex.split(self.rfile.readline().decode())
        outcome = run(arguments, self.rfile.read)
        for line in b"".join(outcome.written).decode("ascii").splitlines():
            self.wfile.write(json.dumps(read_line(line)).encode() + b"\n")
        self.wfile.write(json.dumps({"status": outcome.status, "error": outcome.said}).encode() + b"\n")


if __name__ == "__main__":
    with socketserver.TCPServer(("localhost", int(sys.argv[1])), Receiver) as server:
        print(f"a receiver at localhost:{server.server_address[1]}", flush=True)
        server.serve_forever()
