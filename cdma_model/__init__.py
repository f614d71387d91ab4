"""A readable program for the forward link of TIA/EIA-95-B: docs/LINK.md and docs/FORMATS.md in plain Python with numpy.

Its modules correspond to the crates of docs/ARCHITECTURE.md, and each uses only those before it: bits, codes, coding,
messages, files, script, words, cell, noise, air, search, frames, lists, sets, lines, handset, slots, run. The model
shares no code with the crates, so the rules are read twice, independently. All values are whole numbers. Complex
numbers that hold them have parts below 2^53, and no sum or product of them is rounded.

It shares no code with cdma_tools either: the tools may import the model, which never imports them.
"""
