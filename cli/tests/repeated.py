"""Writes models of 60 MB into a folder that repeat one name, and are refused at the second: repeated.py EXAMPLES FOLDER.

Only the names say that no more than one is kept, so there is room for all. A line says each answer.
"""
import sys
from pathlib import Path

examples, folder = sys.argv[1], Path(sys.argv[2])
sys.dont_write_bytecode = True
sys.path.insert(0, examples)
from make import FLOAT, function, graph, integer, model, number, part  # noqa: E402


def many(field):
    return field * (60_000_000 // len(field))


attributes = many(part(5, part(1, "a") + number(20, 1)))
bare = {"inputs": (), "outputs": ()}
# the field that is at fault the second time, and what the graph holds
MODELS = {
    "attributes": (31, part(1, "a"), part(1, part(2, "y") + part(4, "X") + attributes)),
    "initializers": (23, part(8, "w"), many(part(5, number(2, FLOAT) + part(8, "w")))),
    "nodes": (29, part(3, "n"), many(part(1, part(2, "") + part(3, "n") + part(4, "X")))),
}
# the same, and the functions
FUNCTIONS = {
    "functions": (41, function("f", **bare), many(function("f", **bare))),
    "function-attributes": (42, part(6, "a"), function("f", many(part(6, "a")), **bare)),
    "defaults": (42, part(1, "a"), function("f", many(part(11, integer("a", 1))), **bare)),
}
MADE = [(name, refusal, fault, model(graph("g", fields))) for name, (refusal, fault, fields) in MODELS.items()]
MADE += [(name, refusal, fault, model(graph("g"), functions)) for name, (refusal, fault, functions) in FUNCTIONS.items()]
for name, refusal, fault, made in MADE:
    (folder / f"{name}.onnx").write_bytes(made)
    first = made.index(fault)
    shown = f" first {first}" if refusal == 23 else ""
    print(f"{name}.onnx: refused {refusal} at {made.index(fault, first + 1)}{shown}")
