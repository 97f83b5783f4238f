"""A verdict is written by itself, before what explains it: verdict_first.py COMMAND MODEL."""
import os
import subprocess
import sys

# a pipe of packets: each read gives what one write wrote
ours, theirs = os.pipe2(os.O_DIRECT)
process = subprocess.Popen([sys.argv[1], "check", sys.argv[2]], stdout=theirs)
os.close(theirs)
writes = [os.read(ours, 4096) for _ in range(2)]
assert process.wait(60) == 1
assert writes[0].count(b"\n") == 1 and b": refused 30 at " in writes[0], writes
assert writes[1].startswith(b"  rule "), writes
print("as expected")
