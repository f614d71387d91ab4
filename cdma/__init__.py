"""The tools of Rolvenst as a library: make a cell's samples, and follow what a handset hears of them.

    import cdma

    cell = cdma.Cell(pn=511)
    cell.add_sync()
    for event in cdma.follow(cdma.make(cell)):
        print(event)

The functions run the program `cdma_replay`, which is found as the tools find it, or the Python model after
`cdma.use_model()`. They print nothing and set no signal handlers. Parameters have the names and bounds of the options
(docs/FORMATS.md). Each error is a `cdma.Error`, whose text is the line that a tool prints. A wrong parameter is a
`cdma.ParameterError`.

Names without an underscore here are public, and change only with the major version.
"""

from cdma import plot
from cdma.bits import Bits, bit_text, bits
from cdma.cells import Cell, make, read_script
from cdma.chips import Chips, load, save
from cdma.domains import CodeDomain, code_domain
from cdma.errors import Error, FileError, NoProgramError, ParameterError, ScriptError
from cdma.events import Event, Frame, Page, Pilot, PilotSets, Rank, RawMessage, Sync, Table, TrafficMessage
from cdma.explaining import Explanation, explain, margin
from cdma.importing import Imported, import_capture
from cdma.listening import Listening, ListenSource, listen
from cdma.locking import Lock, RecordedPath, lock
from cdma.programs import use_model, use_program
from cdma.receiving import Run, find, follow, survey
from cdma.recordings import Recording, record
from cdma_tools import __version__
from cdma_tools.analysis.cell_table import CellFacts
from cdma_tools.analysis.limits import Limit
from cdma_tools.margins import Margin
from cdma_tools.signs import Signs

__all__ = [
    "Bits",
    "Cell",
    "CellFacts",
    "Chips",
    "CodeDomain",
    "Error",
    "Event",
    "Explanation",
    "FileError",
    "Frame",
    "Imported",
    "Limit",
    "ListenSource",
    "Listening",
    "Lock",
    "Margin",
    "NoProgramError",
    "Page",
    "ParameterError",
    "Pilot",
    "PilotSets",
    "Rank",
    "RawMessage",
    "RecordedPath",
    "Recording",
    "Run",
    "ScriptError",
    "Signs",
    "Sync",
    "Table",
    "TrafficMessage",
    "__version__",
    "bit_text",
    "bits",
    "code_domain",
    "explain",
    "find",
    "follow",
    "import_capture",
    "listen",
    "load",
    "lock",
    "make",
    "margin",
    "plot",
    "read_script",
    "record",
    "save",
    "survey",
    "use_model",
    "use_program",
]
