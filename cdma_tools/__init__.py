"""Tools in Python for `cdma_replay`, of which nothing is proved.

| Module | Has |
|---|---|
| `sample_header`, `sample_file` | the form of sample files; reading them in any place |
| `recordings` | raw samples of each type, read in any place |
| `sigmf` | the metadata of a SigMF recording, and notes that are added to it |
| `lines` | the fields of the program's lines in one table, by which every tool reads lines |
| `heard_run` | what lines of `follow` say that a handset received |
| `scripts` | what is read of a script of a cell |
| `correlation` | the correlation of samples with the pilot's code |
| `plots` | matplotlib without a screen |
| `progress` | how far a long run has come |
| `arguments` | values of a command line |
| `checks` | how a sample file's checks are sent: tried, and set in place |
| `errors`, `writing` | what is refused, in words; a whole file or none |
| `program` | the one way to the program |
| `workers` | processes that share work |
| `places` | where the checkout's program and data stand |
| `starting` | the one way into every command, and what each is called |
| `entries` | the commands that are installed |
| `radio` | from a radio's recording to chips, and back |
| `analysis` | what a cell sends, row by row, and how well |
| `curves` | how often a receiver loses frames in noise |
| `report` | one page that shows a recording |
| `explaining` | one frame step by step |
| `conformance` | what a case of `conformance/` asks of the model, and cases that are drawn |
| `repository` | how the crates lie |
| `commands` | a module for each command, with its `main` |
"""

__version__ = "0.2.0"
RELEASED = "2026-12-01"  # the day of this version, as CHANGELOG.md has it
