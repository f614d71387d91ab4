#!/usr/bin/env python3
# -*- coding: utf-8 -*-

#
# SPDX-License-Identifier: GPL-3.0
#
# GNU Radio Python Flow Graph
# Title: A cell on the air
# Author: Rolvenst maintainers
# Description: Plays a sample file of cdma_replay make through the pulse of TIA/EIA-95-B and a channel model. The samples go to a file and to a ZMQ PUB socket.
# GNU Radio version: 3.10.5.1

from gnuradio import blocks
import pmt
from gnuradio import channels
from gnuradio.filter import firdes
from gnuradio import filter
from gnuradio import gr
from gnuradio.fft import window
import sys
import signal
from argparse import ArgumentParser
from gnuradio.eng_arg import eng_float, intx
from gnuradio import eng_notation
from gnuradio import zeromq




class cell_on_air(gr.top_block):

    def __init__(self, chips='cell.is95', recording='/dev/null', address='tcp://127.0.0.1:*', noise=0, carrier=0, clock=0, speed=1):
        gr.top_block.__init__(self, "A cell on the air", catch_exceptions=True)

        ##################################################
        # Parameters
        ##################################################
        self.chips = chips
        self.recording = recording
        self.address = address
        self.noise = noise
        self.carrier = carrier
        self.clock = clock
        self.speed = speed

        ##################################################
        # Variables
        ##################################################
        self.half_pulse = half_pulse = [-0.025288315, -0.034167931, -0.035752323, -0.016733702, 0.021602514, 0.064938487, 0.091002137, 0.081894974, 0.037071157, -0.021998074, -0.060716277, -0.051178658, 0.007874526, 0.084368728, 0.126869306, 0.094528345, -0.012839661, -0.143477028, -0.211829088, -0.140513128, 0.094601918, 0.441387140, 0.785875640, 1.0]
        self.rate = rate = 2 * 1228800
        self.pulse = pulse = (half_pulse + half_pulse[::-1])[::2]
        self.paths = paths = [1.0]

        ##################################################
        # Blocks
        ##################################################

        self.recording_sink = blocks.file_sink(gr.sizeof_gr_complex*1, recording, False)
        self.recording_sink.set_unbuffered(False)
        self.pulse_filter = filter.interp_fir_filter_ccf(2, pulse)
        self.pulse_filter.declare_sample_delay(0)
        self.publisher = zeromq.pub_sink(gr.sizeof_gr_complex, 1, address, 100, False, (-1), '', False)
        self.pace = blocks.throttle(gr.sizeof_gr_complex*1, (speed * rate),True)
        self.native_parts = blocks.endian_swap(2)
        self.complex_chips = blocks.interleaved_short_to_complex(False, False,1.0)
        self.chips_source = blocks.file_source(gr.sizeof_short*1, chips, False, 8, 0)
        self.chips_source.set_begin_tag(pmt.PMT_NIL)
        self.channel = channels.channel_model(
            noise_voltage=noise,
            frequency_offset=(carrier / rate),
            epsilon=(1 + clock * 1e-6),
            taps=paths,
            noise_seed=1995,
            block_tags=False)


        ##################################################
        # Connections
        ##################################################
        self.connect((self.channel, 0), (self.pace, 0))
        self.connect((self.chips_source, 0), (self.native_parts, 0))
        self.connect((self.complex_chips, 0), (self.pulse_filter, 0))
        self.connect((self.native_parts, 0), (self.complex_chips, 0))
        self.connect((self.pace, 0), (self.publisher, 0))
        self.connect((self.pace, 0), (self.recording_sink, 0))
        self.connect((self.pulse_filter, 0), (self.channel, 0))


    def get_chips(self):
        return self.chips

    def set_chips(self, chips):
        self.chips = chips
        self.chips_source.open(self.chips, False)

    def get_recording(self):
        return self.recording

    def set_recording(self, recording):
        self.recording = recording
        self.recording_sink.open(self.recording)

    def get_address(self):
        return self.address

    def set_address(self, address):
        self.address = address

    def get_noise(self):
        return self.noise

    def set_noise(self, noise):
        self.noise = noise
        self.channel.set_noise_voltage(self.noise)

    def get_carrier(self):
        return self.carrier

    def set_carrier(self, carrier):
        self.carrier = carrier
        self.channel.set_frequency_offset((self.carrier / self.rate))

    def get_clock(self):
        return self.clock

    def set_clock(self, clock):
        self.clock = clock
        self.channel.set_timing_offset((1 + self.clock * 1e-6))

    def get_speed(self):
        return self.speed

    def set_speed(self, speed):
        self.speed = speed
        self.pace.set_sample_rate((self.speed * self.rate))

    def get_half_pulse(self):
        return self.half_pulse

    def set_half_pulse(self, half_pulse):
        self.half_pulse = half_pulse
        self.set_pulse((self.half_pulse + self.half_pulse[::-1])[::2])

    def get_rate(self):
        return self.rate

    def set_rate(self, rate):
        self.rate = rate
        self.channel.set_frequency_offset((self.carrier / self.rate))
        self.pace.set_sample_rate((self.speed * self.rate))

    def get_pulse(self):
        return self.pulse

    def set_pulse(self, pulse):
        self.pulse = pulse
        self.pulse_filter.set_taps(self.pulse)

    def get_paths(self):
        return self.paths

    def set_paths(self, paths):
        self.paths = paths
        self.channel.set_taps(self.paths)



def argument_parser():
    description = 'Plays a sample file of cdma_replay make through the pulse of TIA/EIA-95-B and a channel model. The samples go to a file and to a ZMQ PUB socket.'
    parser = ArgumentParser(description=description)
    parser.add_argument(
        "--chips", dest="chips", type=str, default='cell.is95',
        help="Set sample file of cdma_replay make, 16 bits a part [default=%(default)r]")
    parser.add_argument(
        "--recording", dest="recording", type=str, default='/dev/null',
        help="Set file of cf32_le samples to write [default=%(default)r]")
    parser.add_argument(
        "--address", dest="address", type=str, default='tcp://127.0.0.1:*',
        help="Set address of the ZMQ PUB socket; * takes a free port [default=%(default)r]")
    parser.add_argument(
        "--noise", dest="noise", type=eng_float, default=eng_notation.num_to_str(float(0)),
        help="Set standard deviation of the complex noise, in units of the chips [default=%(default)r]")
    parser.add_argument(
        "--carrier", dest="carrier", type=eng_float, default=eng_notation.num_to_str(float(0)),
        help="Set carrier offset in Hz [default=%(default)r]")
    parser.add_argument(
        "--clock", dest="clock", type=eng_float, default=eng_notation.num_to_str(float(0)),
        help="Set clock error of the radio in millionths [default=%(default)r]")
    parser.add_argument(
        "--speed", dest="speed", type=eng_float, default=eng_notation.num_to_str(float(1)),
        help="Set speed, as a multiple of real time [default=%(default)r]")
    return parser


def main(top_block_cls=cell_on_air, options=None):
    if options is None:
        options = argument_parser().parse_args()
    tb = top_block_cls(chips=options.chips, recording=options.recording, address=options.address, noise=options.noise, carrier=options.carrier, clock=options.clock, speed=options.speed)

    def sig_handler(sig=None, frame=None):
        tb.stop()
        tb.wait()

        sys.exit(0)

    signal.signal(signal.SIGINT, sig_handler)
    signal.signal(signal.SIGTERM, sig_handler)

    tb.start()

    tb.wait()


if __name__ == '__main__':
    main()
