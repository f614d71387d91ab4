"""The tests that `pytest --cdma-receiver` adds: one for each case."""

from collections.abc import Callable, Iterable
from typing import Any


def test_receiver(cdma_case: Any, cdma_receiver: Callable[..., Iterable[object]]) -> None:
    """The receiver reports what the case expects."""
    cdma_case.check(cdma_receiver(cdma_case.chips(), **cdma_case.options))
