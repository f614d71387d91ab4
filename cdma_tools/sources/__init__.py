"""Sources of samples: one way for all tools from the name of a source to its samples.

| Module | Purpose |
|---|---|
| `options` | the arguments that describe a source, and how they go together |
| `stored` | recordings in files, by their names: SigMF, SigMF archives and WAV files |
| `live` | live sources, by their addresses, and standard input |
| `rtl_tcp` | servers with the protocol of rtl_tcp |
| `backlog` | what a thread has taken from a source that can't wait |
| `taking` | any source as samples in a file, for the tools that read a recording more than once |
"""
