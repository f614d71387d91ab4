"""Messages and frames as packets that Wireshark reads, and the dissector that takes them apart.

| Module | Content |
|---|---|
| `layouts` | the parts of each message in the order in which they are sent, and the bits of a message by them |
| `packets` | the header of a packet, and the packet of a line |
| `pcapng` | the blocks of a pcapng file |
| `stream` | the pcapng file of the lines of one recording, with their times |
| `capture` | where packets go as they come |
| `dissector` | the dissector in Lua, made of `dissector.lua` and the layouts |
"""
