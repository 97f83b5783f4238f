"""Colours and the progress line, on a terminal and off it: terminal.py COMMAND EXAMPLES."""
import os
import pty
import re
import shutil
import subprocess
import sys
import tempfile

command, examples = sys.argv[1:]
files = [f"{examples}/ok-network.onnx", f"{examples}/30-undefined.onnx"]
empty = f"{examples}/10-empty.onnx"


def on_terminal(*more, status=1, **changed):
    """What the command writes where both its outputs are a terminal."""
    ours, theirs = pty.openpty()
    environment = {k: v for k, v in os.environ.items() if k != "NO_COLOR"} | {"TERM": "xterm"} | changed
    done = subprocess.Popen([command, "check", *files, *more], stdout=theirs, stderr=theirs, stdin=theirs, env=environment)
    os.close(theirs)
    out = b""
    try:
        while part := os.read(ours, 65536):
            out += part
    except OSError:  # how Linux tells that the other end is closed
        pass
    assert done.wait(60) == status
    return out


def shown(written):
    """What is left without the sequences that the command itself writes."""
    return re.sub(rb"\x1b\[(?:0|2|32|1;31|1;33)m|\r\x1b\[K", b"", written).replace(b"\r\n", b"\n")


coloured = on_terminal()
assert b"\x1b[32maccepted" in coloured and b"\x1b[1;31mrefused" in coloured, coloured
assert b"[2/2]" in coloured, coloured
assert b"\r\x1b[Konnx-gate: " in on_terminal(empty)
with tempfile.TemporaryDirectory() as folder:
    # ESC, a C1 control by itself and in UTF-8, and a letter whose UTF-8 holds the byte of one
    hostile = [os.path.join(os.fsencode(folder), name) for name in (b"\x1b[31m\x9b2J\xc2\x9b", "\u202eÛ\n\r".encode())]
    shutil.copy(files[0], hostile[0])
    written = shown(on_terminal(*hostile, status=2))
    assert re.fullmatch(rb"[ -~\n]*", written) and b"[31m\\x9b2J\\u{9b}: accepted" in written, written
plain = on_terminal(NO_COLOR="1")
assert b"m" not in plain.split(b"accepted")[0].split(b"\x1b[K")[-1].replace(files[0].encode(), b""), plain
assert b"\x1b[1;31m" not in plain and b"\x1b[32m" not in plain, plain
piped = subprocess.run([command, "check", *files], capture_output=True, check=False)
assert b"\x1b" not in piped.stdout + piped.stderr and piped.stderr == b"", piped
print("as expected")
