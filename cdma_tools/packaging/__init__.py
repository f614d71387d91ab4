"""Distribution of the program and the tools: their files below a prefix, and a Debian package.

| Module | Content |
|---|---|
| `tree` | files of an installation, how they are put below a prefix and removed again |
| `parsers` | the parser of each command, from which manual pages and completions are made |
| `manuals` | a manual page for each command, by argparse-manpage |
| `completions` | completions of the tools for bash and zsh, by shtab |
| `program_completions` | those of cdma_replay, which say what is wrong with its arguments |
| `archive` | the built program as an archive with its checksum |
| `gate_log` | the log of the gate that goes with the archive |
| `debian` | the package: what the rules in debian/ take from here, and how it is made in a copy of the checkout |
"""
