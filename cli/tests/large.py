"""Writes models with many names into a folder: large.py EXAMPLES FOLDER [odd]."""
import sys
from pathlib import Path

examples, folder = sys.argv[1], Path(sys.argv[2])
sys.dont_write_bytecode = True
sys.path.insert(0, examples)
from make import function, graph, graph_input, graph_output, initializer, integer, model, node, own_node, reference  # noqa: E402


def chain(count, name=lambda i: ""):
    """Each node reads the output before it."""
    nodes = (node("Relu", [f"v{i}"], [f"v{i + 1}"], name=name(i)) for i in range(count))
    return model(graph("chain", graph_input("v0"), *nodes, graph_output(f"v{count}")))


def outputs(count):
    return model(graph("g", node("Split", [], [f"v{i:06x}" for i in range(count)])))


def defaults(count):
    """As many inputs, each with an initializer of its name."""
    values = [*(graph_input(f"w{i}") for i in range(count)), *(initializer(f"w{i}") for i in range(count))]
    return model(graph("g", *values))


def attributes(count):
    return model(graph("g", node("Relu", [], ["y"], *(integer(f"a{i}", i) for i in range(count)))))


def functions(count):
    return model(graph("g"), *(function(f"f{i}", inputs=(), outputs=()) for i in range(count)))


def references(count):
    """A function with so many attributes, and a node that refers to each."""
    refers = own_node("Relu", [], ["y"], *(reference(f"a{i}", f"a{i}") for i in range(count)))
    return model(graph("g"), function("f", refers, inputs=(), outputs=(), attributes=[f"a{i}" for i in range(count)]))


if sys.argv[3:] == ["odd"]:
    # the name that all paths show comes last in its node
    split = node("Split", [], [f"/v/{i:05x}" for i in range(300_000)], name="/split")
    (folder / "odd.onnx").write_bytes(model(graph("g", split)))
    sys.exit()
(folder / "unnamed.onnx").write_bytes(chain(20_000))
(folder / "named.onnx").write_bytes(chain(20_000, "node{}".format))
(folder / "named-twice.onnx").write_bytes(chain(20_000, lambda i: f"node{i % 19_999}"))
(folder / "defaults.onnx").write_bytes(defaults(20_000))
(folder / "attributes.onnx").write_bytes(attributes(20_000))
(folder / "functions.onnx").write_bytes(functions(20_000))
(folder / "references.onnx").write_bytes(references(20_000))
(folder / "outputs.onnx").write_bytes(outputs(1_500_000))
