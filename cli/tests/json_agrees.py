"""Says whether the lines of --json are JSON and say what the text says: json_agrees.py JSON TEXT."""
import json
import re
import sys
from pathlib import Path

KEYS = ["file", "file_hex", "accepted", "nodes", "names", "odd", "refusal", "place", "first", "rule", "explanation", "path"]
KEYS += ["name", "name_hex", "name_length", "notes", "bytes", "odd_names", "error"]
ALWAYS = {"file", "file_hex", "notes"}
ACCEPTED = ALWAYS | {"accepted", "nodes", "names", "odd"}
REFUSED = ALWAYS | {"accepted", "refusal", "place", "rule", "explanation"}


def line(answer):
    """The answer as the text has it."""
    assert list(answer) == KEYS, answer
    assert bytes.fromhex(answer["file_hex"]) == answer["file"].encode(), answer
    given = {key for key in answer if answer[key] is not None}
    if answer["accepted"]:
        assert given == ACCEPTED and answer["notes"] == [], answer
        return f"accepted nodes {answer['nodes']} names {answer['names']} odd {answer['odd']}"
    assert REFUSED <= given <= set(KEYS) - {"nodes", "names", "odd", "odd_names", "error"}, answer
    window = answer["bytes"]
    if window and window["hex"]:
        model = Path(answer["file"]).read_bytes()
        shown = bytes.fromhex(window["hex"])
        assert model[window["start"] :].startswith(shown), answer
        assert window["field_start"] == answer["place"] <= window["field_end"] <= len(model), answer
    if answer["name"] is not None:
        assert bytes.fromhex(answer["name_hex"]).decode(errors="replace") == answer["name"], answer
    assert (answer["first"] is not None) == (answer["refusal"] == 23), answer
    first = f" first {answer['first']}" if answer["refusal"] == 23 else ""
    return f"refused {answer['refusal']} at {answer['place']}{first}"


answers = [json.loads(text) for text in open(sys.argv[1])]
missing = answers.pop()
assert list(missing) == KEYS, missing
given = {key: value for key, value in missing.items() if value is not None}
assert given == {"file": "no-such.onnx", "file_hex": b"no-such.onnx".hex(), "notes": [], "error": "no such file"}
found = {Path(a["file"]).name: line(a) for a in answers}
text = Path(sys.argv[2]).read_text()
expected = dict(re.findall(r"^\./(.*\.onnx): (.*)$", text, re.MULTILINE))
paths = re.findall(r"^  where  (.*)$", text, re.MULTILINE)
assert found == expected, (found, expected)
assert [a["path"] for a in answers if a["path"] is not None] == paths
print("agrees")
