"""What one browser has of a listening already, and what it gets next.

An update has the newest of each panel, and a bounded number of lines and rows of the waterfall. Panels of a cell are
those of the one that the browser has chosen. A browser that is too slow for all of them misses the oldest, and gets the
number of those.
"""

from typing import Any

from cdma_tools.view.kept import Kept, Panels

# Lines of an update, and of the first one; rows of the waterfall of one update.
MOST_LINES, FIRST_LINES, MOST_ROWS = 200, 500, 10


class Feed:
    """The updates of one browser."""

    def __init__(self, kept: Kept, run: str) -> None:
        """It has nothing yet; `run` names the listening, by which a page knows a new one."""
        self.kept, self.run = kept, run
        self.line, self.remark = max(kept.lines.first, kept.lines.count - FIRST_LINES), kept.remarks.first
        self.versions: dict[str, int] = {}
        self.missed = 0  # lines and rows that were dropped before they could be sent
        self.number, self.cell = 0, kept.cells[0]
        self.spectrum = self.point = 0

    def first(self) -> dict[str, Any]:
        """Returns the first update, with all that the page shows at once."""
        return {"hello": {"run": self.run, "name": self.kept.name}, **self.chosen(0), **self.news(FIRST_LINES)}

    def chosen(self, number: int) -> dict[str, Any]:
        """Chooses the cell of a number, if there is one, and returns what the page shows of it at once."""
        if not 0 <= number < len(self.kept.cells):
            return {}
        self.number, self.cell = number, self.kept.cells[number]
        self.versions = {name: version for name, version in self.versions.items() if name in self.kept.panels.contents}
        rows = [row for _, row in self.cell.spectra.since(0, len(self.cell.spectra.kept))]
        self.spectrum, self.point = self.cell.spectra.count, self.cell.history.count
        told = {"chosen": {"number": number, "history": self.cell.history.kept}, "spectra": rows}
        return told | self.panels(self.cell.panels)

    def news(self, most: int = MOST_LINES) -> dict[str, Any]:
        """Returns what has come since the last update, with up to `most` lines; empty if there is nothing."""
        told: dict[str, Any] = {}
        if lines := self.lines(most):
            told["lines"] = lines
        if rows := self.rows():
            told["spectra"] = rows
        if remarks := [remark for _, remark in self.kept.remarks.since(self.remark, len(self.kept.remarks.kept))]:
            told["remarks"] = remarks
        self.remark = self.kept.remarks.count
        if self.cell.history.count > self.point:
            told["points"] = self.cell.history.kept[-1:]
            self.point = self.cell.history.count
        told |= self.panels(self.kept.panels) | self.panels(self.cell.panels)
        if told and self.missed:
            told["missed"] = self.missed
        return told

    def lines(self, most: int) -> list[dict[str, Any]]:
        """Returns the next lines; those that aren't kept any more are missed."""
        first = max(self.line, self.kept.lines.first)
        self.missed += first - self.line
        lines = [line.shown(number) for number, line in self.kept.lines.since(first, most)]
        self.line = first + len(lines)
        return lines

    def rows(self) -> list[dict[str, Any]]:
        """Returns the newest rows of the waterfall; older ones are missed."""
        spectra = self.cell.spectra
        first = max(self.spectrum, spectra.count - MOST_ROWS)
        self.missed += first - self.spectrum
        self.spectrum = spectra.count
        return [row for _, row in spectra.since(first, MOST_ROWS)]

    def panels(self, panels: Panels) -> dict[str, Any]:
        """Returns those of some panels that have changed."""
        changed = {}
        for name, (version, content) in panels.contents.items():
            if self.versions.get(name) != version:
                self.versions[name] = version
                changed[name] = content
        return changed
