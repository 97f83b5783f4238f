"""`pass` writes nothing to a terminal: pass_terminal.py COMMAND MODEL."""
import os
import pty
import subprocess
import sys

ours, theirs = pty.openpty()
done = subprocess.run([sys.argv[1], "pass", sys.argv[2]], stdout=theirs, stderr=subprocess.PIPE, timeout=60, check=False)
os.close(theirs)
try:
    written = os.read(ours, 65536)
except OSError:  # how Linux tells that the other end is closed
    written = b""
assert (done.returncode, written) == (2, b""), (done, written)
assert b"is a terminal" in done.stderr, done
print("as expected")
