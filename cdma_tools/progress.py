"""Progress of a tool: one bar on standard error, if that is a terminal.

The bar is that of tqdm (Debian's package python3-tqdm). If standard error is not a terminal, or tqdm is missing, there is
no bar, and nothing is written. So the output of a tool is the same in a pipe, in a file and in a test.
"""

import sys
from typing import Any, Iterable, Iterator

from cdma_tools.interrupts import INTERRUPTS, noted_interrupts


class Silent:
    """A bar that shows nothing, with the calls of tqdm that the tools use, for when tqdm is missing."""

    def __init__(self, over: Iterable[Any] | None = None) -> None:
        self.over = () if over is None else over

    def __iter__(self) -> Iterator[Any]:
        return iter(self.over)

    def __enter__(self) -> "Silent":
        return self

    def __exit__(self, *_: object) -> None:
        pass

    def update(self, count: float = 1) -> None:
        """Ignores `count` steps."""

    def set_description(self, text: str) -> None:
        """Takes another text before the bar."""

    def close(self) -> None:
        """Takes the bar away."""


def bar(over: Iterable[Any] | None = None, *, total: float | None = None, text: str = "", unit: str = "") -> Any:
    """Returns a bar over the items of `over`, which it yields, or over `total` steps that `update(count)` counts.

    It is also a context manager, at whose end the bar is removed. `text` comes before it; `unit` names a step.

        for case in bar(cases, text="cases"):
        with bar(total=count, text="recording", unit="chips") as shown:
            shown.update(1_024)

    An interrupt waits until the bar has begun. The bar is closed where it is left, and not when Python removes it: an
    interrupt there couldn't end the tool.
    """
    with noted_interrupts(*INTERRUPTS):
        try:
            from tqdm import tqdm
        except ImportError:
            return Silent(over)

        class Bar(tqdm):  # type: ignore[misc]
            """A bar that is closed by whoever made it."""

            def __del__(self) -> None:
                """Leaves it as it is."""

        return Bar(
            over, total=total, desc=text or None, unit=unit or "it", unit_scale=bool(unit), leave=False,
            file=sys.stderr, disable=not sys.stderr.isatty(),
        )  # fmt: skip
