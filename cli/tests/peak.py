"""Runs a command and ends as it does, or with 99 where more than so many kB of it were in memory at once: peak.py KB WORDS...

Its own memory, some 10 MB, counts until the command starts.
"""
import os
import sys

most, words = int(sys.argv[1]), sys.argv[2:]
child = os.posix_spawn(words[0], words, os.environ)
_, status, usage = os.wait4(child, 0)
if usage.ru_maxrss > most:
    print(f"{usage.ru_maxrss} kB, and not {most}, for {words}", file=sys.stderr)
    sys.exit(99)
sys.exit(os.waitstatus_to_exitcode(status))
