#!/usr/bin/env python3
"""Writes the example models beside this file, or into the folder that is given. Standard library only: the bytes are put together here.

A file's name says what it shows: NN-words.onnx is refused with NN, ok-words.onnx is accepted.
"""
import sys
from pathlib import Path

FLOAT, INT64, BOOL = 1, 7, 9  # data types
A_FLOAT, INT, GRAPH, INTS = 1, 2, 5, 7  # attribute types


def varint(value):
    value &= 2**64 - 1
    out = bytearray()
    while value >= 0x80:
        out.append(value & 0x7F | 0x80)
        value >>= 7
    out.append(value)
    return bytes(out)


def padded(value, size):
    """A varint of so many bytes, more than it needs: as programs write that leave room for a length and fill it in later."""
    return bytes(value >> 7 * i & 0x7F | 0x80 for i in range(size - 1)) + b"\0"


def number(field, value):
    return varint(field << 3) + varint(value)


def part(field, contents):
    """A field of text or of a message."""
    contents = contents.encode() if isinstance(contents, str) else contents
    return varint(field << 3 | 2) + varint(len(contents)) + contents


def imported(domain="", version=13, field=8):
    return part(field, (part(1, domain) if domain else b"") + number(2, version))


def used(domain="", version=13):
    """An import of a function."""
    return imported(domain, version, field=9)


def model(graph, *functions, ir_version=8, imports=imported(), more=b""):
    return number(1, ir_version) + part(2, "examples") + part(7, graph) + imports + b"".join(functions) + more


def graph(name, *fields):
    return part(2, name) + b"".join(fields)


def typed(name, elem_type=FLOAT, dims=("batch", 4)):
    """A value with its type; a dim is a number or a variable."""
    shape = b"".join(part(1, part(2, d) if isinstance(d, str) else number(1, d)) for d in dims)
    tensor = number(1, elem_type) + part(2, shape)
    return part(1, name) + part(2, part(1, tensor))


def graph_input(name, **kind):
    return part(11, typed(name, **kind))


def graph_output(name, **kind):
    return part(12, typed(name, **kind))


def initializer(name, data_type=FLOAT, dims=(), raw=bytes(4)):
    return part(5, b"".join(number(1, d) for d in dims) + number(2, data_type) + part(8, name) + part(9, raw))


WEIGHTS = initializer("w", dims=(4, 4), raw=bytes(64))


def padded_length(name):
    """A tensor whose length takes as many bytes as the longest."""
    contents = number(2, FLOAT) + part(8, name) + part(9, bytes(4))
    return varint(5 << 3 | 2) + padded(len(contents), 5) + contents


def too_short(name):
    """A tensor that says it has more data than it has room for."""
    return part(5, number(2, FLOAT) + part(8, name) + varint(9 << 3 | 2) + varint(64) + bytes(16))


def node(op_type, inputs, outputs, *attributes, name="", domain="", field=1):
    out = b"".join(part(1, i) for i in inputs) + b"".join(part(2, o) for o in outputs)
    out += (part(3, name) if name else b"") + part(4, op_type)
    out += b"".join(part(5, a) for a in attributes)
    return part(field, out + (part(7, domain) if domain else b""))


def own_node(op_type, inputs, outputs, *attributes, **more):
    """A node of a function."""
    return node(op_type, inputs, outputs, *attributes, field=7, **more)


def function(name, *nodes, inputs=("X",), outputs=("Y",), attributes=(), defaults=(), imports=used(), domain="", overload=""):
    out = part(1, name) + b"".join(part(4, i) for i in inputs) + b"".join(part(5, o) for o in outputs)
    out += b"".join(part(6, a) for a in attributes) + b"".join(nodes) + imports
    out += (part(10, domain) if domain else b"") + b"".join(part(11, d) for d in defaults)
    return part(25, out + (part(13, overload) if overload else b""))


def integer(name, value):
    return part(1, name) + number(3, value) + number(20, INT)


def floating(name):
    """With the value 0."""
    return part(1, name) + varint(2 << 3 | 5) + bytes(4) + number(20, A_FLOAT)


def reference(name, attribute, kind=INT):
    """An attribute of a node in a function, with the value that the function's attribute has."""
    return part(1, name) + part(21, attribute) + number(20, kind)


def body(name, inner):
    return part(1, name) + part(6, inner) + number(20, GRAPH)


def branch(name, *nodes, output):
    return graph(name, *nodes, graph_output(output, dims=()))


def tagger(step=None, then_branch=None, else_branch=None):
    """Reads words one by one and keeps a state; the Loop's body chooses with an If how to change it. The state that
    the body gets and the words are read from inside the branches."""
    then_branch = then_branch or branch(
        "known", node("Add", ["state", "word"], ["sum"], name="add"), node("Tanh", ["sum"], ["next_known"]),
        output="next_known")
    else_branch = else_branch or branch(
        "unknown", node("Mul", ["state", "decay"], ["next_unknown"], name="fade"), output="next_unknown")
    step = step or graph(
        "step",
        graph_input("i", elem_type=INT64, dims=()), graph_input("going", elem_type=BOOL, dims=()),
        graph_input("state", dims=(4,)),
        node("Gather", ["words", "i"], ["word"], integer("axis", 0), name="pick"),
        node("Less", ["word", "limit"], ["is_known"]),
        node("If", ["is_known"], ["next"], body("then_branch", then_branch), body("else_branch", else_branch),
             name="choose"),
        node("Identity", ["going"], ["still_going"]),
        node("Identity", ["next"], ["tag"]),
        graph_output("still_going", elem_type=BOOL, dims=()), graph_output("next"), graph_output("tag"))
    return model(graph(
        "tagger",
        graph_input("words", dims=("length", 4)),
        initializer("limit"), initializer("decay"), initializer("start", dims=(4,), raw=bytes(16)),
        initializer("turns", INT64, raw=bytes(8)),
        node("Loop", ["turns", "", "start"], ["end", "tags"], body("body", step), name="over_words"),
        graph_output("tags", dims=("length", 4))))


def layer(*nodes, inputs=None, outputs=None):
    """A small network: weights `w` and the given nodes between `x` and `y`."""
    fields = inputs or [graph_input("x")]
    fields += [WEIGHTS, *nodes]
    return graph("network", *fields, *(outputs or [graph_output("y")]))


def chain(**more):
    return layer(node("MatMul", ["x", "w"], ["h"], name="dense1"), node("Relu", ["h"], ["y"], name="relu1"), **more)


def reads_the_other_branch():
    """The else-branch reads what only the then-branch defines."""
    return tagger(else_branch=branch(
        "unknown", node("Tanh", ["sum"], ["next_unknown"], name="fade"), output="next_unknown"))


def nested(depth):
    inner = graph(f"depth_{depth}")
    for level in range(depth - 1, 0, -1):
        inner = graph(f"depth_{level}", node("Loop", [], [f"out_{level}"], body("body", inner)))
    return model(inner)


def exported():
    """Names as PyTorch's exporter writes them, which are no identifiers; a variable of a shape is none either."""
    dense, bias = "/encoder/MatMul_output_0", "encoder.bias"
    return model(graph(
        "main_graph",
        graph_input("x", dims=("batch-size", 4)), WEIGHTS, initializer(bias, dims=(4,), raw=bytes(16)),
        node("MatMul", ["x", "w"], [dense], name="/encoder/MatMul"),
        node("Add", [bias, dense], ["y"], name="/encoder/Add"),
        graph_output("y", dims=("batch-size", 4))))


def defaults_only(own="gain"):
    """As exporters wrote at IR version 3: every weight is an input too, and the initializer its default, in the Loop's body as well. `own`
    names the body's initializer."""
    weights = {"turns": (INT64, (), 8), "start": (FLOAT, (4,), 16), "decay": (FLOAT, (4,), 16)}
    step = graph(
        "step",
        graph_input("i", elem_type=INT64, dims=()), graph_input("going", elem_type=BOOL, dims=()),
        graph_input("state", dims=(4,)), graph_input("gain", dims=(4,)),
        initializer(own, dims=(4,), raw=bytes(16)),
        node("Mul", ["state", "gain"], ["next"], name="scale"),
        node("Identity", ["going"], ["still_going"]),
        graph_output("still_going", elem_type=BOOL, dims=()), graph_output("next", dims=(4,)))
    return model(graph(
        "torch-jit-export",
        graph_input("x", dims=(4,)),
        *(graph_input(name, elem_type=kind, dims=dims) for name, (kind, dims, _) in weights.items()),
        *(initializer(name, kind, dims, bytes(size)) for name, (kind, dims, size) in weights.items()),
        node("Loop", ["turns", "", "start"], ["end"], body("body", step), name="over_words"),
        node("Mul", ["end", "decay"], ["faded"]),
        node("Add", ["faded", "x"], ["y"]),
        graph_output("y", dims=(4,))), ir_version=3)


def gated(*nodes, attributes=("axis",), defaults=(floating("alpha"),), **more):
    """A function with an attribute, a default and references to both, one of them in a branch. More names are visible in it than in the
    main graph."""
    leaky = branch("leaky", node("LeakyRelu", ["P"], ["L"], reference("alpha", "alpha", A_FLOAT), name="slope"), output="L")
    plain = branch("plain", node("Identity", ["P"], ["I"]), output="I")
    nodes = nodes or (
        own_node("Softmax", ["X"], ["P"], reference("axis", "axis"), name="weigh"),
        own_node("If", ["use"], ["Y"], body("then_branch", leaky), body("else_branch", plain), name="choose"))
    return function("GatedSoftmax", *nodes, inputs=("X", "use"), attributes=attributes, defaults=defaults, **more)


def calling(*functions, imports=imported()):
    """A main graph whose one node calls a function. The check asks nothing of a call."""
    return model(graph(
        "network",
        graph_input("x"), initializer("use", BOOL, raw=bytes(1)),
        node("GatedSoftmax", ["x", "use"], ["y"], integer("axis", 1), name="gate"),
        graph_output("y")), *functions, ir_version=9, imports=imports)


def two_of_one_name(*domains):
    def root(domain):
        return function("Magnitude", own_node("Mul", ["X", "X"], ["square"]), own_node("Sqrt", ["square"], ["Y"]), domain=domain)

    main_graph = layer(node("Magnitude", ["x"], ["h"]), node("Magnitude", ["h"], ["y"], domain="ai.onnx.ml"))
    return model(main_graph, *map(root, domains), imports=imported() + imported("ai.onnx.ml", 3))


def overloaded(ir_version):
    """As exporters name a framework's operators: two overloads of one name."""
    def add(overload):
        return function(
            "aten_add", own_node("Mul", ["other", "other"], ["scaled"]), own_node("Add", ["self.1", "scaled"], ["sum.1"]),
            inputs=("self.1", "other"), outputs=("sum.1",), overload=overload)

    return model(layer(node("aten_add", ["x", "w"], ["y"])), add("Tensor"), add("Scalar"), ir_version=ir_version)


LATIN_1 = "première".encode("latin-1")
RELU = node("Relu", ["h"], ["y"], name="relu1")
DENSE = node("MatMul", ["x", "w"], ["h"], name="dense1")

MODELS = {
    "ok-tagger": tagger(),
    "ok-network": model(chain()),
    "ok-default-value": model(chain(inputs=[graph_input("x"), graph_input("w", dims=(4, 4))])),
    "ok-exported-names": exported(),
    "ok-ir-3-defaults": defaults_only(),
    "ok-padded-ints": model(
        layer(node("Transpose", ["x"], ["y"], part(1, "perm") + part(8, padded(1, 2) + padded(0, 3)) + number(20, INTS)))),
    "ok-classifier": model(
        layer(node("Scaler", ["x"], ["y"], domain="ai.onnx.ml")), imports=imported() + imported("ai.onnx.ml", 3)),
    "ok-function": calling(gated()),
    "ok-functions-of-two-domains": two_of_one_name("", "ai.onnx.ml"),
    "ok-overloads": overloaded(10),
    "01-truncated": model(chain())[:150],
    "01-tensor-too-short": model(layer(too_short("b"), DENSE, RELU)),
    "03-not-a-model": b"<html><body>404 Not Found</body></html>\n",
    "04-wrong-field": number(1, 8) + number(7, 1),
    "05-two-graphs": model(chain(), more=part(7, chain())),
    "06-too-deep": nested(9),
    "09-padded-length": model(layer(padded_length("b"), DENSE, RELU)),
    "09-padded-tag": model(chain(), imports=part(8, padded(2 << 3, 2) + varint(13))),
    "09-padded-value": model(
        layer(node("Softmax", ["x"], ["y"], part(1, "axis") + varint(3 << 3) + padded(1, 2) + number(20, INT)))),
    "10-old-ir-version": model(chain(), ir_version=2),
    "10-empty": b"",
    "11-no-graph": number(1, 8) + imported(),
    "12-no-opset": model(chain(), imports=b""),
    "12-function-without-opset": calling(gated(imports=b"")),
    "13-imported-twice": model(chain(), imports=imported("", 13) + imported("ai.onnx", 13)),
    "14-opset-too-new": model(chain(), imports=imported(version=22)),
    "14-unknown-domain": model(chain(), imports=imported() + imported("com.example", 1)),
    "14-function-opset-too-new": calling(gated(imports=used(version=22))),
    "16-sparse-initializer": model(layer(DENSE, RELU, part(15, b""))),
    "20-graph-without-name": model(chain()[len(part(2, "network")):]),
    "21-not-utf8": model(layer(node("MatMul", ["x", "w"], [LATIN_1]), node("Relu", [LATIN_1], ["y"]))),
    "22-input-without-name": model(chain(inputs=[graph_input("")])),
    "23-defined-twice": model(layer(DENSE, node("Tanh", ["h"], ["h"], name="tanh1"), RELU)),
    "23-default-twice": model(layer(WEIGHTS, DENSE, RELU, inputs=[graph_input("x"), graph_input("w", dims=(4, 4))])),
    "23-inputs-last": model(graph("network", WEIGHTS, node("MatMul", ["x", "w"], ["x"], name="dense1"), graph_input("x"))),
    "24-output-without-type": model(chain(outputs=[part(12, part(1, "y"))])),
    "25-bad-element-type": model(chain(inputs=[graph_input("x", elem_type=0)])),
    "26-bad-data-type": model(layer(initializer("b", data_type=99), DENSE, RELU)),
    "27-node-without-operator": model(layer(node("", ["x"], ["y"], name="nothing"))),
    "28-domain-not-imported": model(layer(node("Scaler", ["x"], ["y"], name="scale", domain="ai.onnx.ml"))),
    "28-import-of-the-model": calling(
        gated(own_node("Scaler", ["X"], ["Y"], name="scale", domain="ai.onnx.ml")), imports=imported() + imported("ai.onnx.ml", 3)),
    "29-two-nodes-one-name": model(layer(DENSE, node("Relu", ["h"], ["y"], name="dense1"))),
    "30-undefined": model(layer(DENSE, node("Add", ["h", "bias"], ["y"], name="add1"))),
    "30-wrong-order": model(layer(RELU, DENSE)),
    "30-across-branches": reads_the_other_branch(),
    "30-outer-name-in-function": model(
        chain(), function("Copy", own_node("Identity", ["X"], ["Y"])),
        function("Dense", own_node("MatMul", ["X", "w"], ["Y"], name="dense"))),
    "31-attribute-twice": model(layer(node("Softmax", ["x"], ["y"], integer("axis", 1), integer("axis", 2)))),
    "32-attribute-type": model(layer(node("Softmax", ["x"], ["y"], part(1, "axis") + number(3, 1) + number(20, 1)))),
    "32-default-graph": calling(gated(defaults=(body("alpha", graph("plain")),))),
    "33-reference": model(layer(node("Softmax", ["x"], ["y"], part(1, "axis") + part(21, "a") + number(20, INT)))),
    "33-default-reference": calling(gated(defaults=(reference("alpha", "axis", A_FLOAT),))),
    "33-other-functions-attribute": calling(
        gated(), function("Softer", own_node("Softmax", ["X"], ["Y"], reference("axis", "axis"), name="weigh"))),
    "34-node-without-output": model(layer(DENSE, RELU, node("Relu", ["h"], [], name="dead"))),
    "35-output-missing": model(layer(DENSE)),
    "37-no-shape": model(chain(inputs=[part(11, part(1, "x") + part(2, part(1, number(1, FLOAT))))])),
    "38-negative-dimension": model(chain(inputs=[graph_input("x", dims=(-1, 4))])),
    "41-function-twice": two_of_one_name("", "ai.onnx"),
    "41-overloads-ir-9": overloaded(9),
    "42-attribute-twice": calling(gated(attributes=("axis", "beta", "axis"))),
    "42-attribute-and-default": calling(gated(attributes=("axis", "alpha"))),
    "42-default-twice": calling(gated(defaults=(floating("alpha"), floating("alpha")))),
    "43-initializer-not-input": model(chain(), ir_version=3),
    "43-outer-name": defaults_only(own="decay"),
}


def main():
    folder = Path(sys.argv[1]) if len(sys.argv) > 1 else Path(__file__).parent
    for old in folder.glob("*.onnx"):
        old.unlink()
    for name, contents in MODELS.items():
        assert len(contents) < 2048, name
        (folder / f"{name}.onnx").write_bytes(contents)
    print(f"{len(MODELS)} models in {folder}")


if __name__ == "__main__":
    main()
