"""Faults at each place of a function: the answer, the path to it, and what is said of it, as text and as JSON.

functions.py COMMAND EXAMPLES
"""
import json
import os
import subprocess
import sys
import tempfile

command, examples = map(os.path.abspath, sys.argv[1:])
sys.dont_write_bytecode = True
sys.path.insert(0, examples)
from make import body, function, graph, integer, model, number, own_node, part, reference, used  # noqa: E402

NO_MODEL = "the imports of the model do not serve"
REFERS = own_node("Relu", ["X"], ["Y"], reference("axis", "scale"), name="r")
NESTED = own_node("If", ["X"], ["Y"], body("then", graph("then", part(1, part(1, "none") + part(2, "z") + part(4, "Relu")))), name="if")
DEEP = own_node("If", ["X"], ["Y"], body("then", graph("then", part(1, part(2, "z") + part(4, "Relu") + part(5, reference("k", "no"))))))


def f(*nodes, **more):
    """A function that gives back its input, if no nodes are given."""
    return function("f", *nodes, **({} if nodes else {"outputs": ["X"]}), **more)


def unnamed(*fields):
    return part(25, b"".join(fields))


# the function before, the function, the refusal, the last such bytes are at fault, the path behind the function, and a part of the notes
CASES = [
    (b"", unnamed(used()), 22, unnamed(used()), "", None),
    (b"", unnamed(part(1, ""), used()), 22, part(1, ""), "name", None),
    (b"", unnamed(part(1, b"f\x80"), used()), 21, part(1, b"f\x80"), "name", "not UTF-8 at "),
    (f(), f(), 41, f(), "", 'first at 21, functions[0] "f"'),
    (f(), f(overload="v"), 41, f(overload="v"), "", 'first at 21, functions[0] "f"'),
    (b"", f(attributes=["a", ""]), 22, part(6, ""), "attribute[1]", None),
    (b"", f(attributes=["a", "b", "b"]), 42, part(6, "b"), "attribute[2]", "attribute[1]"),
    (b"", f(defaults=[number(20, 1)]), 22, part(11, number(20, 1)), "attribute_proto[0]", None),
    (b"", f(defaults=2 * [integer("a", 1)]), 42, part(1, "a"), 'attribute_proto[1] "a" > name', 'attribute_proto[0] "a"'),
    (b"", f(attributes=["a"], defaults=[integer("a", 1)]), 42, part(1, "a"), 'attribute_proto[0] "a" > name', "attribute[0]"),
    (b"", f(defaults=[reference("a", "b")]), 33, part(11, reference("a", "b")), 'attribute_proto[0] "a"', 'it refers to "b", and a default'),
    (b"", f(defaults=[part(1, "a")]), 32, part(11, part(1, "a")), 'attribute_proto[0] "a"', "type is absent; the attribute holds nothing"),
    (b"", f(imports=b""), 12, f(imports=b""), "", NO_MODEL),
    (b"", f(imports=2 * used()), 13, used(), "opset_import[1]", "ai.onnx version 13, imported before"),
    (b"", f(imports=used("x.y")), 14, used("x.y"), 'opset_import[0] "x.y"', "the list does not have this domain"),
    (b"", f(inputs=["X", ""]), 22, part(4, ""), "input[1]", None),
    (b"", f(inputs=["X", "X"]), 23, part(4, "X"), "input[1]", 'defined first at 27, functions[0] "f" > input[0]'),
    (b"", f(own_node("Relu", ["X"], ["Y"], domain="x.y")), 28, part(7, "x.y"), "node[0] (Relu) > domain", NO_MODEL),
    (b"", f(2 * own_node("Relu", ["X"], [""], name="n")), 29, part(3, "n"), 'node[1] "n" > name', 'node[0] "n"'),
    (b"", f(own_node("Relu", ["Z"], ["Y"])), 30, part(1, "Z"), "node[0] (Relu) > input[0]", 'nothing in the model defines "Z"'),
    (f(inputs=["X", "Z"]), function("g", own_node("Relu", ["Z"], ["Y"])), 30, part(1, "Z"), "node[0] (Relu) > input[0]", "a function sees no"),
    (b"", f(REFERS), 33, part(5, reference("axis", "scale")), 'node[0] "r" > attribute[0] "axis"', "its function has no attributes"),
    (b"", f(NESTED), 30, part(1, "none"), 'node[0] "if" > attribute[0] "then" > g > node[0] (Relu) > input[0]', "nothing"),
    (b"", f(DEEP), 33, part(5, reference("k", "no")), 'node[0] (If) > attribute[0] "then" > g > node[0] (Relu) > attribute[0] "k"', '"no"'),
    (f(), unnamed(part(5, "q"), part(1, "g"), used()), 35, part(5, "q"), "output[0]", 'nothing in the model defines "q"'),
]


def answers(path, contents):
    """As text and as JSON."""
    with open(path, "wb") as file:
        file.write(contents)
    for option in [[], ["--json"]]:
        done = subprocess.run([command, "check", *option, path], capture_output=True, text=True, timeout=60, check=False)
        assert done.stderr == "" and done.returncode == 1, (done, contents)
        yield done.stdout


def check(path, before, functions, refusal, fault, where, note):
    made = model(graph("g"), before, functions)
    text, answer = answers(path, made)
    place, found = made.rindex(fault), json.loads(answer)
    assert (found["refusal"], found["place"]) == (refusal, place), (found, place)
    around, _, rest = found["path"].partition(" > ")
    assert around.startswith(f"functions[{1 if before else 0}]") and rest == where, (found, where)
    lines = text.splitlines()
    assert lines[0].startswith(f"{path}: refused {refusal} at {place}"), lines
    assert lines[2] == f"  where  {found['path']}" and all(f"  note   {each}" in lines for each in found["notes"]), (lines, found)
    said = any(note in each for each in found["notes"]) if note else not found["notes"]
    assert said, (found["notes"], note)
    return refusal


with tempfile.TemporaryDirectory() as folder:
    met = {check(os.path.join(folder, "m.onnx"), *case) for case in CASES}
assert met == {12, 13, 14, 21, 22, 23, 28, 29, 30, 32, 33, 35, 41, 42}, met
print("as expected")
