#!/usr/bin/env python3
# -*- coding: utf-8 -*-

#
# SPDX-License-Identifier: GPL-3.0
#
# GNU Radio Python Flow Graph
# Title: The air to a listener
# Author: Rolvenst maintainers
# Description: Sends a source of samples to tools/listen. Enable one source (a recording, a radio, or another ZMQ PUB socket) and one sink (a ZMQ PUB socket or UDP datagrams).
# GNU Radio version: 3.10.5.1

from gnuradio import blocks
import pmt
from gnuradio import gr
from gnuradio.filter import firdes
from gnuradio.fft import window
import sys
import signal
from argparse import ArgumentParser
from gnuradio.eng_arg import eng_float, intx
from gnuradio import eng_notation
from gnuradio import zeromq




class air_to_listener(gr.top_block):

    def __init__(self, recording='air.cf32', rate=2457600, frequency=878.49e6, gain=30, driver='rtlsdr', publisher='tcp://127.0.0.1:5555', address='tcp://127.0.0.1:5556', port=5557, speed=1):
        gr.top_block.__init__(self, "The air to a listener", catch_exceptions=True)

        ##################################################
        # Parameters
        ##################################################
        self.recording = recording
        self.rate = rate
        self.frequency = frequency
        self.gain = gain
        self.driver = driver
        self.publisher = publisher
        self.address = address
        self.port = port
        self.speed = speed

        ##################################################
        # Blocks
        ##################################################

        self.zmq_sink = zeromq.pub_sink(gr.sizeof_gr_complex, 1, address, 100, False, (-1), '', False)
        self.recording_source = blocks.file_source(gr.sizeof_gr_complex*1, recording, False, 0, 0)
        self.recording_source.set_begin_tag(pmt.PMT_NIL)
        self.pace = blocks.throttle(gr.sizeof_gr_complex*1, (speed * rate),True)


        ##################################################
        # Connections
        ##################################################
        self.connect((self.pace, 0), (self.zmq_sink, 0))
        self.connect((self.recording_source, 0), (self.pace, 0))


    def get_recording(self):
        return self.recording

    def set_recording(self, recording):
        self.recording = recording
        self.recording_source.open(self.recording, False)

    def get_rate(self):
        return self.rate

    def set_rate(self, rate):
        self.rate = rate
        self.pace.set_sample_rate((self.speed * self.rate))

    def get_frequency(self):
        return self.frequency

    def set_frequency(self, frequency):
        self.frequency = frequency

    def get_gain(self):
        return self.gain

    def set_gain(self, gain):
        self.gain = gain

    def get_driver(self):
        return self.driver

    def set_driver(self, driver):
        self.driver = driver

    def get_publisher(self):
        return self.publisher

    def set_publisher(self, publisher):
        self.publisher = publisher

    def get_address(self):
        return self.address

    def set_address(self, address):
        self.address = address

    def get_port(self):
        return self.port

    def set_port(self, port):
        self.port = port

    def get_speed(self):
        return self.speed

    def set_speed(self, speed):
        self.speed = speed
        self.pace.set_sample_rate((self.speed * self.rate))



def argument_parser():
    description = 'Sends a source of samples to tools/listen. Enable one source (a recording, a radio, or another ZMQ PUB socket) and one sink (a ZMQ PUB socket or UDP datagrams).'
    parser = ArgumentParser(description=description)
    parser.add_argument(
        "--recording", dest="recording", type=str, default='air.cf32',
        help="Set file of cf32_le samples to play [default=%(default)r]")
    parser.add_argument(
        "--rate", dest="rate", type=eng_float, default=eng_notation.num_to_str(float(2457600)),
        help="Set samples per second [default=%(default)r]")
    parser.add_argument(
        "--frequency", dest="frequency", type=eng_float, default=eng_notation.num_to_str(float(878.49e6)),
        help="Set frequency in Hz to which a radio is tuned [default=%(default)r]")
    parser.add_argument(
        "--gain", dest="gain", type=eng_float, default=eng_notation.num_to_str(float(30)),
        help="Set gain of a radio in dB [default=%(default)r]")
    parser.add_argument(
        "--driver", dest="driver", type=str, default='rtlsdr',
        help="Set driver of SoapySDR for a radio [default=%(default)r]")
    parser.add_argument(
        "--publisher", dest="publisher", type=str, default='tcp://127.0.0.1:5555',
        help="Set address of a ZMQ PUB socket to subscribe to [default=%(default)r]")
    parser.add_argument(
        "--address", dest="address", type=str, default='tcp://127.0.0.1:5556',
        help="Set address of the ZMQ PUB socket of this flowgraph [default=%(default)r]")
    parser.add_argument(
        "--port", dest="port", type=intx, default=5557,
        help="Set port of this machine to which UDP datagrams go [default=%(default)r]")
    parser.add_argument(
        "--speed", dest="speed", type=eng_float, default=eng_notation.num_to_str(float(1)),
        help="Set speed of a recording, as a multiple of real time [default=%(default)r]")
    return parser


def main(top_block_cls=air_to_listener, options=None):
    if options is None:
        options = argument_parser().parse_args()
    tb = top_block_cls(recording=options.recording, rate=options.rate, frequency=options.frequency, gain=options.gain, driver=options.driver, publisher=options.publisher, address=options.address, port=options.port, speed=options.speed)

    def sig_handler(sig=None, frame=None):
        tb.stop()
        tb.wait()

        sys.exit(0)

    signal.signal(signal.SIGINT, sig_handler)
    signal.signal(signal.SIGTERM, sig_handler)

    tb.start()

    try:
        input('Press Enter to quit: ')
    except EOFError:
        pass
    tb.stop()
    tb.wait()


if __name__ == '__main__':
    main()
