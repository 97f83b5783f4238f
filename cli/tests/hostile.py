"""Writes refused models of 64 MB that are dear to explain, into a folder: hostile.py EXAMPLES FOLDER."""
import sys
from pathlib import Path

examples, folder = sys.argv[1], Path(sys.argv[2])
sys.dont_write_bytecode = True
sys.path.insert(0, examples)
from make import function, graph, initializer, model, node, number, own_node, part, reference  # noqa: E402

SIZE = 67_108_864 - 256


def many(field):
    return field * (SIZE // len(field))


# a name that nothing defines, and millions of places to look for it
(folder / "nodes.onnx").write_bytes(model(graph("g", node("Relu", ["x"], ["y"]), many(part(1, b"")))))
(folder / "outputs.onnx").write_bytes(model(graph("g", node("Relu", ["x"], ["y"]), part(1, many(part(2, b""))))))
(folder / "defaults.onnx").write_bytes(model(graph("g", many(part(1, b"")), initializer("w")), ir_version=3))
# millions of values in one attribute
values = part(1, "a") + number(20, 1) + many(number(8, 0))
(folder / "values.onnx").write_bytes(model(graph("g", node("Relu", [], ["y"], values))))
# a name of megabytes, twice
name = "n" * (SIZE // 2 - 64)
(folder / "names.onnx").write_bytes(model(graph("g", initializer(name), initializer(name))))
# millions of fields before the one at fault
(folder / "fields.onnx").write_bytes(model(graph("g", many(part(10, b"")), node("", [], ["y"]))))
# millions of fields in a function, which is there before; and in one that lacks an attribute
half = part(8, b"") * (SIZE // 4)
(folder / "functions.onnx").write_bytes(model(graph("g"), 2 * function("f", half, inputs=(), outputs=())))
bad = own_node("X", [], ["y"], reference("a", "b"))
(folder / "references.onnx").write_bytes(model(graph("g"), function("f", many(part(8, b"")), bad, inputs=(), outputs=())))
