#!/usr/bin/python3
"""A worked adapter: a flowgraph of GNU Radio as the radio of a receiver. It reads a sample file from standard input,
sends it through GNU Radio's own channel model, and gives what comes out to a receiver, whose lines and status are
the answer.

RECEIVER names the receiver, NOISE the standard deviation of the noise on each branch, TAPS the paths' factors, chip
by chip.

    RECEIVER=cdma_replay NOISE=300 TAPS=1,0,0.5j examples/through_gnuradio.py follow < second.is95
"""

import os
import subprocess
import sys

import numpy
from gnuradio import blocks, channels, gr

HEADER_BYTES = 16
WIDTHS = {1: ">i2", 2: "i1"}
SEED = 1995


def through(samples: numpy.ndarray, noise: float, taps: list[complex]) -> numpy.ndarray:
    """Returns the samples that the flowgraph makes of `samples`, as many as those."""
    flow = gr.top_block()
    source, sink = blocks.vector_source_c(samples.tolist()), blocks.vector_sink_c()
    # The model's noise is complex, and its voltage that of both branches together.
    channel = channels.channel_model(noise * 2**0.5, 0.0, 1.0, taps, SEED)
    flow.connect(source, channel, sink)
    flow.run()
    made = numpy.array(sink.data(), dtype=numpy.complex64)
    return numpy.pad(made, (0, max(0, len(samples) - len(made))))[: len(samples)]


def main() -> int:
    """Reads a sample file and passes what the flowgraph makes of it to the receiver."""
    data = sys.stdin.buffer.read()
    head, form = data[:HEADER_BYTES], WIDTHS[data[5]]
    parts = numpy.frombuffer(data, form, offset=HEADER_BYTES).astype(numpy.float32)
    taps = [complex(tap) for tap in os.environ.get("TAPS", "1").split(",")]
    made = through(parts.view(numpy.complex64), float(os.environ.get("NOISE", "0")), taps)
    bounds = numpy.iinfo(form)
    heard = numpy.clip(numpy.rint(made.view(numpy.float32)), bounds.min, bounds.max).astype(form)
    return subprocess.run([os.environ["RECEIVER"], *sys.argv[1:]], input=head + heard.tobytes()).returncode


if __name__ == "__main__":
    sys.exit(main())
