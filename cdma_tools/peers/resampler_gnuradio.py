"""Resamples a recording by GNU Radio: `resampler_gnuradio.py RECORDING TAPS RATIO CHIPS`.

RECORDING has samples of floating point, TAPS the filter's, for FILTERS phases between two samples, RATIO is the rate of
the chips over that of the samples, and CHIPS is the file of what comes out. Written are the processor seconds of the
run, of all its threads.
"""

import sys
import time

import numpy
from gnuradio import blocks, gr
from gnuradio.filter import pfb

FILTERS = 32


def main(recording: str, taps: str, ratio: str, chips: str) -> None:
    """Runs the flowgraph to the recording's end."""
    top = gr.top_block()
    source = blocks.file_source(gr.sizeof_gr_complex, recording, False)
    filter_taps = numpy.fromfile(taps, dtype=numpy.float32).tolist()
    resampler = pfb.arb_resampler_ccf(float(ratio), filter_taps, FILTERS)
    top.connect(source, resampler, blocks.file_sink(gr.sizeof_gr_complex, chips))
    begin = time.process_time()
    top.run()
    print(f"{time.process_time() - begin:.9e}")


if __name__ == "__main__":
    main(*sys.argv[1:])
