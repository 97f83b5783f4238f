"""Arguments as plain values. The library reads memory, so nothing that a caller's class says of itself is believed."""

import sys
from mmap import mmap
from operator import index
from typing import SupportsIndex

# Anything with a buffer is taken for bytes; the type of these came with Python 3.12.
if sys.version_info >= (3, 12):
    from collections.abc import Buffer as Bytes
else:
    Bytes = bytes | bytearray | memoryview | mmap


def copied(data: Bytes) -> bytes:
    """As bytes that nobody else can change. A class made from `bytes` may lie about its length; its buffer cannot.
    A plain `bytes(5)` would make a model of five zeros."""
    if type(data) is bytes:
        return data
    with memoryview(data) as view:
        return view.tobytes()


def whole(value: SupportsIndex, what: str, least: int, most: int) -> int:
    """A whole number in this range. True and False are none."""
    if isinstance(value, bool):
        raise TypeError(f"{what} must be a whole number, not {value}")
    number = index(value)
    if not least <= number <= most:
        raise ValueError(f"{what} must be from {least} to {most}, not {number}")
    return number
