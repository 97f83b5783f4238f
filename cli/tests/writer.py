"""A file that is cut while it is judged: the answer and all that explains it are those of the bytes before.

writer.py COMMAND MODEL: the model is refused, and large enough to be mapped.
"""
import fcntl
import os
import re
import subprocess
import sys
import time

command, model = sys.argv[1:]
F_SETPIPE_SZ = 1031
words = [command, "check", model]
expected = subprocess.run(words, capture_output=True, timeout=60, check=False).stdout
assert b": refused " in expected and b"  where  " in expected, expected

# a pipe that is full: the command cannot tell its answer, and the explanation is still to be found
ours, theirs = os.pipe()
full = bytes(fcntl.fcntl(theirs, F_SETPIPE_SZ, 4096))
os.write(theirs, full)
process = subprocess.Popen(words, stdout=theirs)
os.close(theirs)


def waits():
    """Whether the command sleeps, which it does for the pipe alone, and has its lease."""
    state = open(f"/proc/{process.pid}/stat").read().rsplit(")")[-1].split()[0]
    return state == "S" and re.search(rf"LEASE +ACTIVE +READ +{process.pid} ", open("/proc/locks").read())


start = time.monotonic()
while not waits():
    assert process.poll() is None and time.monotonic() < start + 30, "there is no lease"
    time.sleep(0.01)
start = time.monotonic()
with open(model, "wb") as file:
    file.write(b"other bytes")
waited = time.monotonic() - start
assert waited < 20, f"the writer waited for {waited} s"
found = b""
while part := os.read(ours, 65536):
    found += part
assert process.wait(60) == 1 and found == full + expected, found[len(full) :]
print("as expected")
