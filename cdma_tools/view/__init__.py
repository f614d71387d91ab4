"""The live view: `listen`, and a page in the browser that shows what it does.

The listening runs in a process of its own (`listener`), which passes its lines, spectra and figures on through a pipe
and never waits for a reader (`outbox`). Its last chips are in a file that both processes share (`chip_store`). The
process that was started serves the page (`server`): it keeps what a page shows in bounded memory (`kept`), measures the
waveform in the last chips (`waveform`), and sends each browser at most ten updates a second.
"""
