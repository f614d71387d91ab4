"""Recordings of any length, and live sources: from samples to lines, as long as samples arrive.

| Module | Purpose |
|---|---|
| `ring`, `streaming_front` | the samples that are still needed, and the fast way from them to chips |
| `instants` | the instants between chips, by all that was received |
| `searching`, `pursuit`, `timeline` | finding a pilot, its points, and the timing and carrier fitted to them |
| `stream_lock`, `pieces` | all of that as a lock that takes bytes and gives chips |
| `follow_run`, `seams`, `relay` | successive runs of `follow`, so that each line is written once |
| `events`, `system_time` | lines with the chip at which each was known, and the time of chips |
| `listening` | the lock and the runs of one stream |
| `parts`, `sharing` | a recording in parts, done here or by workers, and joined |
| `line_writer`, `output` | destinations of lines |
"""
