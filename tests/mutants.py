#!/usr/bin/env python3
"""Would the tests notice a wrong library? Inverts one conditional jump of its code at a time, and runs the tests until one fails.

    tests/run                                  # builds what is changed here
    tests/mutants.py                           # 100 jumps, chosen with seed 1
    tests/mutants.py --sample 0                # every jump
    tests/mutants.py --at 'schema::walks::walk+0x1f' --at ...   # these again

The jump is inverted in copies of the linked test programs, at the place where the linker put it: that is what linking a changed
archive gives, without linking. A test that fails, crashes or takes too long has noticed. Those that no test notices are listed with
the code around the jump, for people to say whether the change matters: inverted, some jumps still lead to the same answers.
Not part of the gate.
"""

import argparse
import os
import random
import re
import signal
import subprocess
import sys
import tempfile
import time
from dataclasses import dataclass
from pathlib import Path

ROOT = Path(__file__).resolve().parent.parent
ARCHIVE = ROOT / "target/staticlib/libgate_c.a"


@dataclass(frozen=True)
class Program:
    """A test: the file that holds the library's code, the command, where it is run, and its limit in seconds."""

    file: str
    command: tuple
    folder: str
    limit: int


# The quick ones first. `{}` is the changed file, which Python's tests load and the others are.
PROGRAMS = [
    Program("target/c/samples-c99", ("{}",), ".", 30),
    Program("tests/target/release/gate_tests", ("{}",), ".", 240),
    Program("bindings/python/onnx_gate/libonnx_gate.so", ("python3", "-m", "unittest", "-f"), "bindings/python", 150),
]


@dataclass(frozen=True)
class Jump:
    function: str
    offset: int
    code: bytes

    def __str__(self):
        return f"{self.function}+{self.offset:#x}"

    @property
    def inverted(self):
        """The lowest bit of the condition: `je` and `jne` differ in nothing else. It is in the last byte of the opcode."""
        last = 1 if self.code[0] == 0x0F else 0
        return self.code[:last] + bytes([self.code[last] ^ 1]) + self.code[last + 1 :]


def said(*command):
    return subprocess.run(command, check=True, capture_output=True, text=True).stdout


def jumps():
    """Every conditional jump of the archive, in its order."""
    found, function = [], None
    for line in said("objdump", "-d", "-w", str(ARCHIVE)).splitlines():
        start = re.fullmatch(r"[0-9a-f]+ <(.+)>:", line)
        function = start[1] if start else function
        code = re.match(r"\s*([0-9a-f]+):\t((?:[0-9a-f]{2} )+)", line)
        if code:
            found.append(Jump(function, int(code[1], 16), bytes.fromhex(code[2])))
    return [jump for jump in found if is_conditional(jump.code)]


def is_conditional(code):
    return 0x70 <= code[0] <= 0x7F or (code[0] == 0x0F and 0x80 <= code[1] <= 0x8F)


class Linked:
    """A linked file, and where in it the functions of the library are."""

    def __init__(self, program):
        self.program, self.path = program, ROOT / program.file
        self.bytes = self.path.read_bytes()
        headers = said("objdump", "-h", "-w", str(self.path))
        size, address, place = re.search(r" \.text +(\w+) +(\w+) +\w+ +(\w+)", headers).groups()
        self.shift = int(place, 16) - int(address, 16)
        rows = re.findall(r"^([0-9a-f]+) [tT] (.+)$", said("nm", str(self.path)), re.MULTILINE)
        self.functions = {name: int(address, 16) for address, name in rows}

    def with_inverted(self, jump):
        """The file's bytes with the jump inverted; none where the linker left its function out."""
        if jump.function not in self.functions:
            return None
        at = self.functions[jump.function] + self.shift + jump.offset
        if self.bytes[at : at + len(jump.code)] != jump.code:
            sys.exit(f"{self.path} was linked with another library: tests/run first")
        return self.bytes[:at] + jump.inverted + self.bytes[at + len(jump.code) :]


def passes(linked, changed, folder):
    file = Path(folder) / linked.path.name
    file.write_bytes(changed)
    file.chmod(0o755)
    command = [word.format(file) for word in linked.program.command]
    child = subprocess.Popen(
        command,
        cwd=ROOT / linked.program.folder,
        env={**os.environ, "ONNX_GATE_LIB": str(file)},
        stdin=subprocess.DEVNULL,
        stdout=subprocess.DEVNULL,
        stderr=subprocess.DEVNULL,
        start_new_session=True,
    )
    try:
        return child.wait(linked.program.limit) == 0
    except subprocess.TimeoutExpired:
        return False
    finally:
        if child.poll() is None:
            os.killpg(child.pid, signal.SIGKILL)
            child.wait()


def noticed_by(jump, programs, folder):
    """The first test that does not pass, or none."""
    for linked in programs:
        changed = linked.with_inverted(jump)
        if changed is not None and not passes(linked, changed, folder):
            return linked.program.file
    return None


def code_around(jump):
    listing = said("objdump", "-d", "-w", "--no-show-raw-insn", f"--disassemble={jump.function}", str(ARCHIVE)).splitlines()
    at = next(i for i, line in enumerate(listing) if re.match(rf"\s*{jump.offset:x}:", line))
    return "\n".join("      " + line for line in listing[max(at - 6, 0) : at + 4])


def chosen(args):
    every = jumps()
    if args.at:
        return [jump for jump in every if str(jump) in args.at]
    return random.Random(args.seed).sample(every, args.sample) if args.sample else every


def main():
    parser = argparse.ArgumentParser(description=__doc__.splitlines()[0])
    parser.add_argument("--sample", type=int, default=100, metavar="N", help="how many jumps; 0: all")
    parser.add_argument("--seed", type=int, default=1, metavar="N")
    parser.add_argument("--at", action="append", metavar="FUNCTION+0xOFFSET")
    args = parser.parse_args()
    programs = [Linked(program) for program in PROGRAMS]
    tried = chosen(args)
    survivors = []
    with tempfile.TemporaryDirectory() as folder:
        for linked in programs:
            if not passes(linked, linked.bytes, folder):
                sys.exit(f"{linked.path} does not pass as it is")
        for number, jump in enumerate(tried, 1):
            start = time.monotonic()
            test = noticed_by(jump, programs, folder)
            print(f"{number:4} {jump}: {test or 'NOT NOTICED'} ({time.monotonic() - start:.1f} s)", flush=True)
            survivors += [] if test else [jump]
    print(f"{len(tried)} jumps of {len(jumps())} inverted, {len(survivors)} not noticed")
    for jump in survivors:
        print(f"  {jump}\n{code_around(jump)}")


if __name__ == "__main__":
    main()
