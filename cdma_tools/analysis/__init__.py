"""What a recording's cells send, row by row, and how well.

| Module | Purpose |
|---|---|
| `walsh` | despreads the 64 Walsh rows of a cell's chips, and spreads them again |
| `pulse` | the pulse after its matched filter: its sides, and its slope |
| `code_domain` | powers, phases and times of the rows, and the quality of the waveform, piece by piece |
| `row_correlation` | correlation of a row's chips with later ones |
| `over_paths` | share of all power that a cell has over all its paths |
| `branches` | offset and imbalance of a radio's two branches |
| `limits` | the standard's limits of a transmission |
| `measuring`, `telling` | an analysis of a file or a recording; the same as lines, as JSON and as a picture |
| `symbols` | what a cell sends, symbol by symbol, as far as it was received |
| `taking_off` | a cell's waveform in the raw samples |
| `cells` | every cell of a recording, with the stronger ones subtracted |
| `importing` | a sample file of one cell of several |
| `kept_samples` | raw samples in files that are written too |
"""
