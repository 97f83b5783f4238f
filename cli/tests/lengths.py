"""Lengths that no model has, in fields of each depth: an answer at the right place, whatever 32 or 64 bits make of them.

lengths.py COMMAND EXAMPLES
"""
import os
import subprocess
import sys
import tempfile

command, examples = map(os.path.abspath, sys.argv[1:])
sys.dont_write_bytecode = True
sys.path.insert(0, examples)
from make import imported, number, part, varint  # noqa: E402

LEFT = 5  # bytes that follow the length
LENGTHS = [2**31 - 1, 2**31, 2**31 + LEFT, 2**32 - 1, 2**32, 2**32 + LEFT, 2**33 + LEFT, 2**63 - 1, 2**63, 2**64 - 1]
# what added to the place comes out at or before it, in 32 bits and in 64
LENGTHS += [2**bits - n for bits in (32, 64) for n in (2, 7, 9, 20, 40)]


def models(field):
    """Each with its place: in the model, the graph, a node of it, an attribute, a tensor and a type; and in a function."""
    start = number(1, 8) + imported()
    yield start + field, len(start)
    of_function = [(25,), (25, 7), (25, 7, 5, 6), (25, 9), (25, 11)]
    for around in [(7,), (7, 1), (7, 1, 5), (7, 1, 5, 6), (7, 5), (7, 11, 2, 1), *of_function]:
        inner = field
        for number_around in reversed(around):
            inner = part(number_around, inner)
        yield start + inner, len(start + inner) - len(field)


def answer(path):
    done = subprocess.run([command, "check", path], capture_output=True, text=True, timeout=60, check=False)
    assert done.returncode == 1 and done.stderr == "", done
    return done.stdout


with tempfile.TemporaryDirectory() as folder:
    path = os.path.join(folder, "m.onnx")
    for length in LENGTHS:
        # one that no row names, so that nothing but its length is at fault
        for model, place in models(varint(99 << 3 | 2) + varint(length) + bytes(LEFT)):
            with open(path, "wb") as file:
                file.write(model)
            said = answer(path)
            assert said.startswith(f"{path}: refused 1 at {place}\n"), (length, said)
            assert f"the field says {length} bytes, and {LEFT} are left in its message" in said, (length, said)
print("as expected")
