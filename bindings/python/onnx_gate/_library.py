"""The shared object: where it is, and its functions."""

import ctypes
import mmap
import os
from pathlib import Path

_FEW = 1 << 20  # cells, of 4 MiB: an array for them is quicker than a mapping


class Answered(ctypes.Structure):
    _fields_ = [(name, ctypes.c_uint64) for name in ("refusal", "place", "nodes", "names", "first", "odd")]


class Part(ctypes.Structure):
    _fields_ = [("start", ctypes.c_uint64), ("length", ctypes.c_uint64)]


class Need(ctypes.Structure):
    _fields_ = [("names", ctypes.c_size_t), ("lists", ctypes.c_size_t)]


def _path() -> Path:
    """An absolute path: what has no slash in it would be looked for wherever the system keeps libraries."""
    named = os.environ.get("ONNX_GATE_LIB")
    path = Path(__file__).with_name("libonnx_gate.so") if named is None else Path(named)
    path = Path(os.path.abspath(path))
    if not path.is_file():
        raise ImportError(f"{path} is missing: run bindings/python/build.sh, or let ONNX_GATE_LIB name another file")
    return path


def _load() -> ctypes.CDLL:
    path = _path()
    try:
        library = ctypes.CDLL(str(path))
        library.onnx_gate_check_indexed, library.onnx_gate_show_name, library.onnx_gate_needed
    except (OSError, AttributeError) as error:
        raise ImportError(f"{path} is not the gate's library: run bindings/python/build.sh again ({error})") from None
    size, cells = ctypes.c_size_t, ctypes.c_void_p  # an array or an address
    lent = [ctypes.c_char_p, size, ctypes.c_char_p, size, cells, size, cells, size]
    library.onnx_gate_check_indexed.argtypes = [*lent, ctypes.c_uint64]
    library.onnx_gate_check_indexed.restype = Answered
    library.onnx_gate_show_name.argtypes = [ctypes.c_char_p, size, ctypes.c_uint64, ctypes.c_uint64]
    library.onnx_gate_show_name.restype = Part
    library.onnx_gate_needed.argtypes = [ctypes.c_char_p, size]
    library.onnx_gate_needed.restype = Need
    return library


_library = _load()


def check_indexed(model: bytes, operators: bytes, cells: int, extra: int, seed: int) -> Answered:
    """The indexed check in so many cells and extra cells. `model` and `operators` are bytes and of no class made from it."""
    lent = model, len(model), operators, len(operators)
    if cells + extra <= _FEW:
        own, more = (ctypes.c_uint32 * cells)(), (ctypes.c_uint32 * extra)()  # zeroed
        return _library.onnx_gate_check_indexed(*lent, own, cells, more, extra, seed)
    with _mapped(4 * (cells + extra)) as room:
        # a number, and no array in the room: whoever holds one, also in a traceback, keeps the room from being closed
        start = ctypes.addressof(ctypes.c_uint32.from_buffer(room))
        return _library.onnx_gate_check_indexed(*lent, start, cells, start + 4 * cells, extra, seed)


def _mapped(size: int) -> mmap.mmap:
    """Bytes that the system zeroes: what is not written is not real. They are private, as to read shared ones makes them real."""
    try:
        return mmap.mmap(-1, size, mmap.MAP_PRIVATE | mmap.MAP_ANONYMOUS)
    except (OSError, OverflowError):
        raise MemoryError(f"there is no memory for {size // 4} cells") from None


def show_name(model: bytes, start: int, length: int) -> Part:
    return _library.onnx_gate_show_name(model, len(model), start, length)


def needed(model: bytes) -> Need:
    """Counted by bindings/c/sizing.c, which is not proved; no acceptance rests on it."""
    return _library.onnx_gate_needed(model, len(model))
