"""The parts of `tools/curve`, which measures how often a receiver loses frames at a level of noise.

| Module | Has |
|---|---|
| `levels` | Eb/Nt of a channel at a level of noise, and the level for an Eb/Nt |
| `noise` | seeds, and white Gaussian noise added to samples |
| `bound` | the weights of the code's words, and the union bound on frame errors, in white noise and in fading |
| `antenna` | a recording over a link, and the lock that makes a sample file of it again |
| `receiver` | runs of the maker of samples and of receivers |
| `counting` | what became of each frame and each message that was sent |
| `batch` | one file: made, made noisy, received and counted; what a worker does |
| `plan` | points, batches in order, and when a point has enough |
| `store` | the counts that are kept, in SQLite |
| `cluster` | handing batches to workers by dask.distributed |
| `report` | table, CSV and picture |
"""
