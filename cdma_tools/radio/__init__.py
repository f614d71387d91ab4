"""From a radio's recording to the chips of the strongest pilot in it, and back.

| Module | Does |
|---|---|
| `air` | what the standard fixes: the chip rate, the pilot's code, the pulse, the transmitter's phase equaliser |
| `plain` | chips of a recording whose carrier and clock are right |
| `front` | filter, coarse carrier and resampling, in one transform |
| `acquisition` | where a pilot stands out: its code phase and its carrier |
| `tracking` | the pilot's delay and carrier, segment by segment |
| `fitting` | the clock and the carrier of the whole recording as smooth curves |
| `second_pass` | one sample a chip at the fitted instants |
| `paths` | the delays at which the pilot comes |
| `gaps` | where samples were lost |
| `locking` | all of that one after the other, and what was found |
| `search_policy` | how far from the middle, and in which spectra, every tool searches |
| `strength` | Ec/Io on the air, from the chips of a lock |
| `scanning` | many centre frequencies, one after the other |
| `channel` | a recording as a radio would make it, from sample files |
| `bench` | what a lock to a recording loses, for `tools/radio_bench` |
| `bench_cases` | its cells and links |
"""
