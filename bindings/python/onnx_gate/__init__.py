"""The proved gate for Python: a model is accepted or refused before a runtime sees it.

    import onnx_gate
    operators = onnx_gate.operators([("ai.onnx", 7, 21), ("ai.onnx.ml", 1, 5)])
    checked = onnx_gate.check_file("model.onnx", operators)
    print(checked, checked.explanation)
    if checked:
        run(checked.model)

The answer is that of the proved library; nothing here judges a model. `build.sh` makes the shared object that is loaded from beside
this file, or from where ONNX_GATE_LIB says. `python -m onnx_gate MODEL...` checks files.
"""

import os
from dataclasses import dataclass, field
from operator import index

from . import _files, _library, _sizing
from ._lists import operators
from ._sizing import CELLS_PER_NAME, LARGEST_MODEL
from ._values import Bytes, copied, whole
from .rules import RULES

__version__ = "0.1.0"
__all__ = ["CELLS_PER_NAME", "LARGEST_MODEL", "RULES", "Answer", "CheckedFile", "check", "check_file", "operators", "show_name"]

_ALREADY_VISIBLE = 23  # the one refusal that has a second place
_MOST = 2**64 - 1  # of what crosses as 64 bits: ctypes would cut it


@dataclass(frozen=True)
class Answer:
    """Accepted with three counts (`refusal` is 0), or refused with a number and a place, and 23 with a second one. What does not apply
    is 0. True where accepted."""

    refusal: int
    place: int
    nodes: int
    names: int
    first: int
    """Refused with 23: where the name is defined that is already visible, in bytes as `place`; of an input with a default, the input's.
    It may lie behind `place`: fields are judged in another order than they stand in."""
    odd: int
    """Accepted: how many fields hold a name that is no identifier of C, as exporters write them: /encoder/MatMul_output_0. Counted is each
    name of a graph, function, input, output, initializer, node and attribute, each op_type, input and output of a node, and each dim_param
    of the main graph's inputs and outputs."""

    @property
    def accepted(self) -> bool:
        return self.refusal == 0

    @property
    def rule(self) -> str:
        """A short name, such as input-not-visible; empty where accepted."""
        return RULES.get(self.refusal, ("", ""))[0]

    @property
    def explanation(self) -> str:
        """The rule that is broken, in one line; empty where accepted."""
        return RULES.get(self.refusal, ("", ""))[1]

    def __bool__(self) -> bool:
        return self.accepted

    def __str__(self) -> str:
        if self.accepted:
            return f"accepted nodes {self.nodes} names {self.names} odd {self.odd}"
        first = f" first {self.first}" if self.refusal == _ALREADY_VISIBLE else ""
        return f"refused {self.refusal} at {self.place}{first}"


@dataclass(frozen=True)
class CheckedFile(Answer):
    """The answer for a file, and the bytes that it is about: a file that is read again may be another one."""

    model: bytes = field(repr=False)
    """What was checked, for the runtime; empty where it was refused."""


def check(
    model: Bytes, operators: Bytes, cells: int | None = None, extra: int | None = None, seed: int | None = None
) -> Answer:
    """Accepts or refuses the bytes `model` for a runtime that has `operators`.

    cells  how many cells there are, CELLS_PER_NAME for each name. Where more names are visible at once than half of them the answer
           is 40. Without it there are as many as the model needs
    extra  how many extra cells are lent beside exactly `cells` cells: fewer than four times as many are refused with 65.
           Without it there are enough for the time to grow no faster than the model
    seed   how names are spread over the index, from 0 to 2**64 - 1. No answer depends on it. Without it a random one is drawn,
           so that no model can be made to stall the check

    What is not plain `bytes` is copied first: no change of it by others, and nothing that its class says, reaches the library.

    Memory, beside the model: 40 bytes for each name, for up to 65,536 names at first and for eight times more as long as there are
    more; and 16 for each function, initializer, named node, attribute and import beyond as many as these names. That is next to
    nothing for models that people make, which tensors fill; a file that is made for it can ask for 13.4 times its size, 28.7 GB at most.
    Of more than 4 MiB only what a name is kept in is real. Where there is no memory that is a MemoryError, and no answer.
    """
    model, operators = copied(model), copied(operators)
    seed = int.from_bytes(os.urandom(8), "little") if seed is None else whole(seed, "seed", 0, _MOST)
    if cells is not None:
        cells = whole(cells, "cells", 0, _MOST)
    if extra is None:
        return _sized(model, operators, len(model) if cells is None else cells, seed)
    if cells is None:
        raise ValueError("extra says how many beside how many cells: give both")
    return _indexed(model, operators, cells, whole(extra, "extra", 0, _MOST), seed)


def check_file(
    path: str | os.PathLike[str], operators: Bytes, cells: int | None = None, seed: int | None = None
) -> CheckedFile:
    """As `check`, for the bytes of a file, which is read once and no further than the library has to see. It is not mapped: what others
    write to it afterwards does not reach `model`."""
    model = _files.read(path)
    found = check(model, operators, cells, seed=seed)
    return CheckedFile(**vars(found), model=model if found else b"")


def show_name(model: Bytes, start: int, length: int) -> bytes:
    """The part of `model` that lies there, or the empty part where the range does not fit."""
    model, start, length = copied(model), index(start), index(length)
    if not (0 <= start <= _MOST and 0 <= length <= _MOST):
        return b""
    part = _library.show_name(model, start, length)
    return model[part.start : part.start + part.length]


def _indexed(model: bytes, operators: bytes, cells: int, extra: int, seed: int) -> Answer:
    found = _library.check_indexed(model, operators, cells, extra, seed)
    return Answer(found.refusal, found.place, found.nodes, found.names, found.first, found.odd)


def _sized(model: bytes, operators: bytes, limit: int, seed: int) -> Answer:
    """Starts with few cells where a model may have many names, and gives more after a 40: no other answer depends on them."""
    need, most = _library.needed(model), _sizing.most_cells(model, limit)
    counted = CELLS_PER_NAME * need.names
    cells = min(counted, most, _sizing.FIRST)
    while True:
        answer = _indexed(model, operators, cells, _sizing.extra_cells(cells, need.lists), seed)
        if answer.refusal != 40 or cells == most:
            return answer
        cells = _sizing.more_cells(cells, counted, most)
