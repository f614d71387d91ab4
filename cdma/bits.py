"""Bits as an array of 0 and 1, and as the text N:HEX of lines and scripts (docs/FORMATS.md, "Lines")."""

from collections.abc import Sequence
from typing import Any

import numpy
from numpy.typing import ArrayLike, NDArray

from cdma.errors import ParameterError
from cdma.parameters import instance_of
from cdma_tools.scripting import beginning
from cdma_tools.scripting.values import BitText, Wrong

Bits = str | Sequence[int] | NDArray[Any]  # N:HEX, or one number 0 or 1 for each bit
ANY_COUNT = BitText(lambda count: None)


def bits(text: str) -> NDArray[numpy.uint8]:
    """Returns the bits of a text N:HEX as an array of 0 and 1, shape (N,), the first bit first.

    Raises `cdma.ParameterError` if the text has another form.

    >>> cdma.bits("10:ffc0")
    array([1, 1, 1, 1, 1, 1, 1, 1, 1, 1], dtype=uint8)
    """
    try:
        return numpy.array([int(bit) for bit in ANY_COUNT.read(instance_of("text", text, str))], numpy.uint8)
    except Wrong as why:
        raise ParameterError("text", str(why)) from None


def bit_text(values: ArrayLike) -> str:
    """Returns bits, each a number 0 or 1, as the text N:HEX; the padding of the last octet is zero.

    Raises `cdma.ParameterError` for other values and for more than one dimension.

    >>> cdma.bit_text([1, 1, 1, 1, 1, 1, 1, 1, 1, 1])
    '10:ffc0'
    """
    array = numpy.asarray(values)
    is_empty = array.size == 0
    if array.ndim != 1 or not (is_empty or array.dtype.kind in "biu" and numpy.isin(array, (0, 1)).all()):
        raise ParameterError("values", "bits are a row of numbers 0 and 1")
    return beginning.bit_text("".join(str(int(bit)) for bit in array)) if not is_empty else "0:"
