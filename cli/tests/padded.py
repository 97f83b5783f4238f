"""Padded tags, values and lengths at each depth of a model: an answer at the right place that says which of them it is; and padding
in what nobody opens, which is accepted.

padded.py COMMAND EXAMPLES
"""
import json
import os
import subprocess
import sys
import tempfile

command, examples = map(os.path.abspath, sys.argv[1:])
sys.dont_write_bytecode = True
sys.path.insert(0, examples)
from make import INTS, graph, model, node, number, padded, part, typed, used, varint  # noqa: E402

# field 99, which no message has, so that nothing but its varints is at fault: tag, value or length, contents
TAG = 99 << 3
SHORTEST = [(varint(TAG), varint(300), b""), (varint(TAG | 2), varint(200), bytes(200)), (varint(TAG | 5), b"", bytes(4))]


def longer(shortest):
    """The same varint in each length that is too long."""
    value = sum((byte & 0x7F) << 7 * i for i, byte in enumerate(shortest))
    return [padded(value, size) for size in range(len(shortest) + 1, 11)]


def fields():
    """Each with what is padded, where in it, how many bytes that takes and how many it needs; or None."""
    for tag, second, contents in SHORTEST:
        yield tag + second + contents, None
        for worse in longer(tag):
            yield worse + second + contents, ("tag", 0, len(worse), len(tag))
        for worse in longer(second) if second else []:
            what = "length" if contents else "value"
            yield tag + worse + contents, (what, len(tag), len(worse), len(second))


def around(field):
    """Models with a field at its end in each kind of message, and its path there."""
    attribute = part(1, "a") + number(20, 1)
    yield model(graph("g"), more=field), ""
    yield model(graph("g"), imports=part(8, number(2, 13) + field)), "opset_import[0] > "
    yield model(graph("g", field)), "graph > "
    yield model(graph("g", part(5, number(2, 1) + part(8, "w") + field))), 'graph > initializer[0] "w" > '
    yield model(graph("g", part(1, part(2, "y") + part(4, "X") + field))), "graph > node[0] (X) > "
    yield model(graph("g", node("X", [], ["y"], attribute + field))), 'graph > node[0] (X) > attribute[0] "a" > '
    body = part(1, "a") + part(6, graph("h", field)) + number(20, 5)
    yield model(graph("g", node("X", [], ["y"], body))), 'graph > node[0] (X) > attribute[0] "a" > g > '
    yield model(graph("g", part(11, typed("x") + field))), 'graph > input[0] "x" > '
    dim = part(1, number(1, 4) + field)
    shaped = part(1, "x") + part(2, part(1, number(1, 1) + part(2, dim)))
    yield model(graph("g", part(11, shaped))), 'graph > input[0] "x" > type > tensor_type > shape > dim[0] > '
    yield model(graph("g"), of_function(field)), 'functions[0] "f" > '
    of_import = part(9, part(1, "ai.onnx.ml") + number(2, 1) + field)
    yield model(graph("g"), of_function(of_import)), 'functions[0] "f" > opset_import[1] "ai.onnx.ml" > '
    yield model(graph("g"), of_function(part(7, part(2, "y") + part(4, "X") + field))), 'functions[0] "f" > node[0] (X) > '
    yield model(graph("g"), of_function(part(11, attribute + field))), 'functions[0] "f" > attribute_proto[0] "a" > '


def of_function(field):
    return part(25, part(1, "f") + used() + field)


def unopened():
    """Models with padding in what the first walk does not open."""
    two = padded(1, 2) + padded(0, 10)
    yield model(graph("g", node("X", [], ["y"], part(1, "a") + part(8, two) + number(20, INTS))))
    yield model(graph("g", node("X", [], ["y"], part(1, "a") + part(4, two) + number(20, 3))))
    yield model(graph("g", node("X", [], ["y"], part(1, "a") + part(14, two) + number(20, 13))))
    # dims and data of a tensor, and fields that no row names
    yield model(graph("g", part(5, part(1, two) + number(2, 7) + part(7, two) + part(8, "w") + part(9, two))))
    yield model(graph("g"), more=part(6, two) + part(14, two) + part(99, two))
    # of a function what only people read, its value_info, and numbers that it had once
    yield model(graph("g"), of_function(b"".join(part(field, two) for field in (2, 3, 8, 12, 14))))


def answers(path, contents):
    """As text and as JSON."""
    with open(path, "wb") as file:
        file.write(contents)
    for option in [[], ["--json"]]:
        done = subprocess.run([command, "check", *option, path], capture_output=True, text=True, timeout=60, check=False)
        assert done.stderr == "" and done.returncode in (0, 1), done
        yield done


def refused(path, made, place, where, note):
    text, answer = answers(path, made)
    lines = text.stdout.splitlines()
    assert lines[0] == f"{path}: refused 9 at {place}" and text.returncode == 1, (lines, place)
    assert lines[1].startswith("  rule   padded: ") and lines[2] == f"  where  {where}", (lines, where)
    assert lines[3] == f"  note   {note}" and lines[4].startswith("  bytes  "), (lines, note)
    found = json.loads(answer.stdout)
    assert (found["refusal"], found["place"], found["rule"]) == (9, place, "padded"), found
    assert (found["path"], found["notes"], found["name"]) == (where, [note], None), found
    assert (found["bytes"]["field_start"], answer.returncode) == (place, 1), found


def accepted(path, made):
    text, answer = answers(path, made)
    assert ": accepted nodes " in text.stdout and text.returncode == answer.returncode == 0, text
    assert json.loads(answer.stdout)["accepted"] is True, answer


with tempfile.TemporaryDirectory() as folder:
    file = os.path.join(folder, "m.onnx")
    for field, fault in fields():
        for made, path in around(field):
            if fault is None:
                accepted(file, made)
                continue
            what, offset, takes, needs = fault
            at = made.index(field)
            told = f"its {what}, at {at + offset}, takes {takes} bytes and needs {needs}"
            refused(file, made, at, f"{path}field 99", told)
    for made in unopened():
        accepted(file, made)
print("as expected")
