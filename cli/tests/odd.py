"""The names that --odd lists are those that a walk of its own finds here, in examples whose names are spelled anew.

odd.py COMMAND EXAMPLES
"""
import json
import random
import re
import subprocess
import sys
import tempfile
from pathlib import Path

command, examples = sys.argv[1:]
sys.dont_write_bytecode = True
sys.path.insert(0, examples)
from make import part  # noqa: E402

# the fields that are opened and those that are tested, by the message that they stand in
OPENED = {
    "model": {7: "graph", 25: "function"},
    "function": {7: "node", 11: "attribute"},
    "graph": {1: "node", 5: "tensor", 11: "value", 12: "value"},
    "node": {5: "attribute"},
    "attribute": {6: "graph", 11: "graph"},
    "value": {2: "type"},
    "type": {1: "tensor type"},
    "tensor type": {2: "shape"},
    "shape": {1: "dim"},
}
TESTED = {"graph": {2}, "node": {1, 2, 3, 4}, "attribute": {1}, "tensor": {8}, "value": {1}, "dim": {2}, "function": {1, 4, 5, 6}}
# what is spelled with them and not tested: the name that an attribute refers to
REFERRING = {"attribute": {21}}
# what is added to a name, before and after it; none of it is a letter or a digit, so that no two names become one
SPELLINGS = [("", ""), ("/", ""), ("", "::"), ("/-", "."), ("", "\u2192\u6a21"), ("\0", "\x1b["), (" ", "\\\"")]


def read_varint(data, at):
    value = shift = 0
    while True:
        value |= (data[at] & 0x7F) << shift
        shift, at = shift + 7, at + 1
        if data[at - 1] < 0x80:
            return value, at


def fields(data, at, end):
    """Of each field its tag's place and number, and where its contents begin and end if it has a length."""
    while at < end:
        place = at
        tag, at = read_varint(data, at)
        start = None
        if tag & 7 == 2:
            length, start = read_varint(data, at)
            at = start + length
        else:
            at = {0: lambda: read_varint(data, at)[1], 1: lambda: at + 8, 5: lambda: at + 4}[tag & 7]()
        yield place, tag >> 3, start, at


def spelled(data, kind, spelling):
    """The message with each name in it spelled anew."""
    out = b""
    for place, number, start, end in fields(data, 0, len(data)):
        inner = OPENED.get(kind, {}).get(number)
        if inner:
            out += part(number, spelled(data[start:end], inner, spelling))
        elif (number in TESTED.get(kind, ()) or number in REFERRING.get(kind, ())) and start != end:
            before, after = spelling[data[start:end]]
            out += part(number, before.encode() + data[start:end] + after.encode())
        else:
            out += data[place:end]
    return out


def odd(data, at, end, kind="model", main=True):
    """The places and names that count, in the order of the bytes."""
    for place, number, start, end_of_field in fields(data, at, end):
        name = data[start:end_of_field] if number in TESTED.get(kind, ()) else b""
        if name and not re.fullmatch(rb"[A-Za-z_][A-Za-z0-9_]*", name):
            yield place, name
        inner = OPENED.get(kind, {}).get(number)
        if inner and (main or inner != "type"):
            yield from odd(data, start, end_of_field, inner, main and kind != "attribute")


def run(*words):
    return subprocess.run([command, "check", "--odd", *words], capture_output=True, timeout=60, check=True).stdout


class Spelling(dict):
    """Another spelling for each name, and the same wherever it stands."""

    def __init__(self, choose):
        super().__init__()
        self.choose = choose

    def __missing__(self, name):
        self[name] = self.choose(SPELLINGS)
        return self[name]


counts = []
with tempfile.TemporaryDirectory() as folder:
    path = Path(folder, "m.onnx")
    for example in sorted(Path(examples).glob("ok-*.onnx")):
        for seed in range(12):
            made = spelled(example.read_bytes(), "model", Spelling(random.Random(seed).choice))
            path.write_bytes(made)
            expected = list(odd(made, 0, len(made)))
            found = json.loads(run("--json", path))
            listed = [(each["place"], bytes.fromhex(each["name_hex"])) for each in found["odd_names"]]
            assert listed == expected and found["odd"] == len(expected) and found["error"] is None, (example, seed, found)
            verdict, *lines = run(path).splitlines()
            assert verdict.endswith(b" odd %d" % len(expected)) and len(lines) == len(expected), (verdict, lines)
            for line, each in zip(lines, found["odd_names"]):
                assert line.startswith(b"  odd    " + each["path"].encode() + b': "'), (line, each)
            counts.append(len(expected))
assert len(set(counts)) > 10 and max(counts) > 30, counts
print("as expected")
