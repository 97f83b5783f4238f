"""Reading a file once, and no further than the library has to see."""

import io
import os

from ._sizing import LARGEST_MODEL

_PART = 1 << 20


def read(path: str | os.PathLike[str]) -> bytes:
    """The bytes of a file. Of one that is too long only the length matters: zeros stand for it, which take no memory, as nobody writes them."""
    with open(os.fspath(path), "rb") as file:
        size = os.fstat(file.fileno()).st_size
        if size > LARGEST_MODEL:
            return bytes(LARGEST_MODEL + 1)
        model = file.read(size + 1)  # a byte more than it had: a pipe says 0, and a file may have grown
        return model if len(model) <= size else _to_the_end(file, model)


def _to_the_end(file: io.BufferedReader, start: bytes) -> bytes:
    held = io.BytesIO()
    held.write(start)
    while part := file.read(min(_PART, LARGEST_MODEL + 1 - held.tell())):
        held.write(part)
    return held.getvalue()  # what it holds, and no copy
