"""Writes models of exactly SIZE bytes that are mostly a hole, into a folder: sparse.py EXAMPLES FOLDER SIZE NAME...

A name is one of MODELS below. For each that is refused a line says the answer and the path.
"""
import sys
from pathlib import Path

examples, folder, size = sys.argv[1], Path(sys.argv[2]), int(sys.argv[3])
sys.dont_write_bytecode = True
sys.path.insert(0, examples)
from make import FLOAT, graph_input, imported, node, number, part, varint  # noqa: E402


def long(field, length):
    """The tag and the length of a field."""
    return varint(field << 3 | 2) + varint(length)


def cut(length):
    """A doc_string that says it has this length, and 8 bytes are left."""
    return long(6, length) + bytes(8)


READER = node("Add", ["w", "late"], ["y"], name="sum")
# what stands in the graph behind the initializer, and behind the graph; and the refusal, the bytes at fault and the path
MODELS = {
    "accepted": (node("Relu", ["w"], ["y"]), b"", None),
    "late": (graph_input("x") + READER, b"", (30, part(1, "late"), 'graph > node[0] "sum" > input[1]')),
    "past": (b"", cut(2**31 - 8), (1, cut(2**31 - 8), "doc_string")),
    "wraps": (b"", cut(2**32 + 8), (1, cut(2**32 + 8), "doc_string")),
    "again": (part(5, number(2, FLOAT) + part(8, "w")), b"", (23, part(8, "w"), 'graph > initializer[1] "w" > name')),
}


def around(hole, inside, behind):
    """What stands before and after so many bytes of raw data, those of the graph's first initializer."""
    start = number(2, FLOAT) + part(8, "w") + long(9, hole)
    head = part(2, "g") + long(5, len(start) + hole) + start
    return number(1, 8) + long(7, len(head) + hole + len(inside)) + head, inside + imported() + behind


for name in sys.argv[4:]:
    inside, behind, refused = MODELS[name]
    hole = size - sum(map(len, around(size, inside, behind)))
    head, tail = around(hole, inside, behind)
    assert len(head) + hole + len(tail) == size
    with open(folder / f"{name}.onnx", "wb") as file:
        file.write(head)
        file.seek(hole, 1)
        file.write(tail)
    if refused:
        refusal, fault, path = refused
        first = f" first {head.index(fault)}" if refusal == 23 else ""
        print(f"{name}.onnx: refused {refusal} at {len(head) + hole + tail.index(fault)}{first}: {path}")
