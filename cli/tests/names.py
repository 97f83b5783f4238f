"""Names of any bytes, of files and in models: none reaches a terminal raw, none is lost, and JSON stays JSON.

names.py COMMAND EXAMPLES
"""
import json
import os
import re
import subprocess
import sys
import tempfile
from pathlib import Path

command, examples = map(os.path.abspath, sys.argv[1:])
sys.path.insert(0, examples)
from make import function, graph, initializer, integer, model, node, own_node, part, reference  # noqa: E402

HOSTILE = [
    # controls, alone and in sequences, and what looks like an answer
    b"\x1b[2J\x1b]0;title\x07", b"\r accepted", b"a\nb: accepted nodes 1 names 1 odd 0", b"\x7f\x08", b"\x9b31m",
    # not UTF-8
    b"\xff\xfe", b"\xc3\x28", b"\xed\xa0\x80",
    # controls of Unicode, of no width, of direction, line ends, marks, blanks, what has no meaning yet
    "\u0085".encode(), "\u009b".encode(), "\u00ad\u200b\u200e\u2060\ufeff".encode(), "\u202e\u2066\u2069".encode(),
    "\u2028\u2029".encode(), "\u0301e\u034f".encode(), "\u115f\u3164\uffa0\u2800".encode(),
    "\U000e0041\U0010ffff".encode(), "Û é א 模".encode(),
    # escapes of others, and a long one
    b"\\u001b \"quoted\" 'single' \\", b"%s %n {} $(x) `x`", b"n " * 100,
]  # fmt: skip
KEYS = []


def run(*words):
    done = subprocess.run([command, *words], capture_output=True, timeout=60, stdin=subprocess.DEVNULL, check=False)
    both = done.stdout + done.stderr
    assert re.fullmatch(rb"[ -~\n]*", both), (words, both)
    return done


def objects(*words):
    """The lines of --json, which have the same keys in every object and every run."""
    found = [json.loads(line) for line in run("check", "--json", *words).stdout.splitlines()]
    for each in found:
        KEYS[:] = KEYS or list(each)
        assert list(each) == KEYS, each
    return found


def files(folder):
    """Every name as that of a good file, a bad one and none."""
    good, bad = Path(examples, "ok-network.onnx").read_bytes(), Path(examples, "30-undefined.onnx").read_bytes()
    for name in HOSTILE:
        path = os.path.join(os.fsencode(folder), name + b".onnx")
        file = Path(os.fsdecode(path))
        for contents, status, accepted in [(good, 0, True), (bad, 1, False), (None, 2, None)]:
            file.unlink(missing_ok=True)
            if contents is not None:
                file.write_bytes(contents)
            done = run("check", path)
            assert done.returncode == status, (path, done)
            # one line for the answer, and those of an explanation are indented
            assert len(re.findall(rb"^(?!  )", done.stdout + done.stderr, re.MULTILINE)) == 2, done
            (found,) = objects(path)
            assert (bytes.fromhex(found["file_hex"]), found["accepted"]) == (path, accepted), found
            assert found["file"] == path.decode(errors="replace"), found


def words():
    """Every name in every place of a command line where it is wrong."""
    good = os.fsencode(Path(examples, "ok-network.onnx"))
    for name in HOSTILE:
        for line in [
            [b"\x1b" + name],
            ["check", name],
            ["check", b"--" + name],
            ["check", good, b"-" + name],
            ["check", "--cells", name, good],
            ["check", "--allow", name, good],
            ["check", "--allow", name + b":0", good],
            ["check", "--operators", name, good],
            ["operators", "show", name],
            ["operators", "write", b"/no/" + name, "--allow=:1"],
            ["rules", name],
            ["pass", name],
        ]:
            assert run(*line).returncode == 2, line


def is_text(name):
    try:
        return name.decode() != ""
    except UnicodeDecodeError:
        return False


def models(name):
    """A name in each place of a model where one may stand, and whether it is accepted there."""
    text = is_text(name)
    for fields, accepted in [
        (node("Relu", [name], ["y"]), False),
        (node("Relu", [], [name]), text),
        (node("Relu", [], ["y"], name=name), text),
        (node(name, [], ["y"]), text),
        (node("Relu", [], ["y"], domain=name), False),
        (node("Relu", [], ["y"], part(1, name)), False),
        (initializer(name), text),
    ]:
        yield model(graph("g", fields)), accepted
    yield model(graph(name)), text
    yield model(graph("g"), imports=part(8, part(1, name))), False
    bare = {"inputs": (), "outputs": ()}
    for functions, accepted in [
        (function(name, **bare), text),
        (function("f", inputs=[name], outputs=()), text),
        (function("f", attributes=[name], inputs=(), outputs=()), text),
        (function("f", defaults=[integer(name, 1)], **bare), text),
        (function("f", inputs=(), outputs=[name]), False),
        (function("f", attributes=[name, name], **bare), False),
        (function("f", own_node("X", [], ["y"], reference("a", name)), **bare), False),
        (function("f", own_node("X", [], ["y"], domain=name), **bare), False),
        (2 * function(name, **bare), False),
        (2 * function("f", domain=name, **bare), False),
        (function("f", **bare) + function("f", overload=name, **bare), False),
    ]:
        yield model(graph("g"), functions), accepted


def names(folder):
    """Every name in models and in a list."""
    path, list_path = Path(folder, "m.onnx"), Path(folder, "l")
    for name in HOSTILE:
        for made, accepted in models(name):
            path.write_bytes(made)
            done = run("check", "--odd", path)
            assert done.returncode == 1 - accepted, done
            (found,) = objects("--odd", path)
            assert found["accepted"] == accepted and (found["refusal"] != 21 or len(found["notes"]) == 1), found
            if accepted:
                (odd,) = found["odd_names"]
                assert bytes.fromhex(odd["name_hex"]) == name, found
                _, line = done.stdout.splitlines()
                assert line.startswith(b"  odd    " + odd["path"].encode() + b": "), done
            if found["name"] is not None:
                assert bytes.fromhex(found["name_hex"]) in made and found["name_length"] > 0, found
        entry = name + bytes(8)
        body = b"\1" + len(entry).to_bytes(2, "big") + entry
        list_path.write_bytes(len(body).to_bytes(4, "big") + body)
        assert run("check", "--operators", list_path, path).returncode == 1
        (found,) = objects("--operators", list_path, path)
        assert (found["refusal"], len(found["notes"])) == (8, 1), found
        assert run("operators", "show", list_path).returncode == 1


with tempfile.TemporaryDirectory() as place:
    os.chdir(place)
    files(place)
    words()
    names(place)
print("as expected")
