"""How many cells models are lent, what is read of files, and how much memory that takes. Run by `python3 -m unittest` in this folder."""

import contextlib
import os
import random
import subprocess
import sys
import tempfile
import threading
import unittest
from pathlib import Path
from unittest import mock

import onnx_gate
from onnx_gate import _files, _library, _sizing

HERE = Path(__file__).resolve().parent
LIST = onnx_gate.operators([("", 7, 21)])
HEADER = bytes.fromhex("0808 4202100D")
MOST = onnx_gate.LARGEST_MODEL


def varint(value):
    """In its shortest form: another one is refused."""
    return bytes([value]) if value < 0x80 else bytes([value & 0x7F | 0x80]) + varint(value >> 7)


def part(number, contents):
    """A field of bytes."""
    return bytes([number << 3 | 2]) + varint(len(contents)) + contents


def graph(contents):
    return HEADER + part(7, b"\x12\x01g" + contents)


def outputs(count, doc_string=0):
    """A node with so many outputs, and a doc string of so many bytes."""
    return graph(part(1, b"\x22\x01X" + b"".join(b"\x12\x07v%06x" % i for i in range(count)))) + part(6, bytes(doc_string))


def full(model, count):
    """That there is no cell for an output, counted from 0."""
    return f"refused 40 at {model.index(b'v%06x' % count) - 2}"


def tensors(count, last=b""):
    """So many initializers, and what the graph ends with, and the model."""
    return graph(b"".join(b"\x2a\x0b\x42\x07w%06x\x10\x01" % i for i in range(count)) + last)


def lent(model, operators=LIST, **bounds):
    """The answer, and how many cells and extra cells the library was lent for it and before."""
    with mock.patch.object(onnx_gate, "_indexed", wraps=onnx_gate._indexed) as indexed:
        answer = onnx_gate.check(model, operators, **bounds)
    return str(answer), [call.args[2:4] for call in indexed.call_args_list]


def needed(model):
    need = _library.needed(model)
    return need.names, need.lists


class Sizes(unittest.TestCase):
    def test_as_many_as_are_counted(self):
        for doc_string in 0, 5_000_000:
            model = outputs(5000, doc_string)
            self.assertEqual(lent(model), ("accepted nodes 1 names 5000 odd 0", [(10_000, 40_000)]))
            self.assertEqual(lent(model, cells=9999), (full(model, 4999), [(9999, 39_996)]))
            self.assertEqual(lent(model, cells=9998), (full(model, 4999), [(9998, 39_992)]))
            self.assertEqual(lent(model, cells=1), (full(model, 0), [(1, 4)]))
        self.assertEqual(lent(tensors(100)), ("accepted nodes 0 names 100 odd 0", [(200, 400 + 2 + 400)]))
        self.assertEqual(lent(b""), ("refused 10 at 0", [(0, 2)]))

    def test_initializers_of_a_body(self):
        """At IR version 3 they are a list, too, and so they are counted at every version."""
        inside = b"".join(b"\x5a\x09\x0a\x07i%06x\x2a\x0b\x42\x07i%06x\x10\x01" % (i, i) for i in range(100))
        attribute = b"\x0a\x01k\xa0\x01\x05" + part(6, b"\x12\x01h" + inside)
        model = graph(part(1, b"\x12\x00\x22\x01X" + part(5, attribute)))
        for version in 3, 4, 11:
            self.assertEqual(needed(bytes([8, version]) + model[2:]), (200, 101))
        self.assertEqual(str(onnx_gate.check(b"\x08\x03" + model[2:], LIST)), "accepted nodes 1 names 100 odd 0")

    def test_extra_cells(self):
        """Four for each cell, and more only for more lists than names."""
        for cells, lists, extra in (0, 0, 2), (1, 0, 4), (2, 0, 8), (2, 1, 10), (3, 1, 12), (4, 1, 16), (4, 2, 18), (0, 9, 38):
            self.assertEqual(_sizing.extra_cells(cells, lists), extra)

    def test_more_after_a_40(self):
        model = outputs(600_000)
        answer, cells = lent(model)
        self.assertEqual(answer, "accepted nodes 1 names 600000 odd 0")
        self.assertEqual(cells, [(count, 4 * count) for count in (131_072, 1_048_576, 1_200_000)])
        answer, cells = lent(model, cells=200_001)
        self.assertEqual((answer, [count for count, _ in cells]), (full(model, 100_000), [131_072, 200_001]))

    def test_a_count_that_is_too_low(self):
        model = outputs(70_000)
        most = 2 * (len(model) // 3)
        for names, tries in (0, [0, most]), (60_000, [120_000, most]), (69_999, [131_072, 139_998, most]):
            with mock.patch.object(_library, "needed", return_value=_library.Need(names, 0)):
                answer, cells = lent(model)
            self.assertEqual((answer, [count for count, _ in cells]), ("accepted nodes 1 names 70000 odd 0", tries))

    def test_claims(self):
        """A file that claims many names and is refused at the first gets room for few."""
        inputs = graph(b"\x5a\x03\x0a\x01i" * 200_000)
        self.assertEqual(lent(inputs), (f"refused 24 at {inputs.index(0x5A)}", [(131_072, 4 * 131_072)]))
        attributes = graph(part(1, b"\x22\x01X" + b"\x2a\x00" * 200_000))
        self.assertEqual(lent(attributes), (f"refused 22 at {attributes.index(0x2A)}", [(0, 2)]))

    def test_lists_that_are_never_read(self):
        """More than 65,536 names of lists get room only where the library comes so far as to read them."""
        count = 70_000
        self.assertEqual(lent(tensors(count))[1][0], (131_072, 4 * 65_536 + 2 + 4 * count))
        twice, padded, empty = b"\x12\x01g", b"\x52\x80\x00", b"\x00\x00\x00\x01\x01"
        for number, last in (5, twice), (9, padded):
            model = tensors(count, last)
            self.assertEqual(lent(model), (f"refused {number} at {len(model) - 3}", [(0, 2)]))
        self.assertEqual(lent(b"\x08\x02" + tensors(count)[2:]), ("refused 10 at 0", [(0, 2)]))
        self.assertEqual(lent(tensors(count, twice), b""), ("refused 8 at 0", [(0, 2)]))
        self.assertEqual(lent(tensors(count), empty)[0], "refused 14 at 2")
        few = tensors(65_536, twice)
        self.assertEqual(lent(few)[1], [(131_072, 4 * 65_536 + 2 + 4 * 65_536)])

    def test_what_cannot_be_read(self):
        for start in b"\x00", b"\x0b", b"\x3a\xff\xff\xff\xff\x7f", b"\xff" * 11, part(7, b"\x0a\x7f"):
            model = start + tensors(100)
            self.assertEqual(needed(model), (0, 0))
            self.assertNotEqual(onnx_gate.check(model, LIST).refusal, 0)

    def test_any_bytes_are_counted(self):
        source, model, accepted = random.Random(3), outputs(20), 0
        for _ in range(5000):
            changed = bytearray(model[: source.randrange(len(model) + 1)] if source.randrange(2) else model)
            for _ in range(source.randrange(4) if changed else 0):
                changed[source.randrange(len(changed))] = source.randrange(256)
            answer, (names, lists) = onnx_gate.check(changed, LIST, len(changed), 5 * len(changed)), needed(bytes(changed))
            accepted += bool(answer)
            self.assertLessEqual(answer.names, names)
            self.assertLessEqual(3 * max(names, lists), len(changed))
        self.assertGreater(accepted, 500)


class Mapped(unittest.TestCase):
    """More cells than are lent as an array."""

    def test_answers(self):
        with mock.patch.object(_library, "_FEW", 0):
            for count in 1, 100, 5000:
                model = outputs(count)
                self.assertEqual(str(onnx_gate.check(model, LIST)), f"accepted nodes 1 names {count} odd 0")
                for cells in 2 * count - 1, 2 * count - 2:
                    self.assertEqual(str(onnx_gate.check(model, LIST, cells)), full(model, count - 1))
            self.assertEqual(str(onnx_gate.check(outputs(3), LIST, 6, 23)), "refused 65 at 0")
            self.assertEqual(str(onnx_gate.check(outputs(3), LIST, 0, 1)), full(outputs(3), 0))

    def test_no_memory(self):
        for cells, extra in (2**48, 0), (0, 2**60), (2**61, 2**63), (2**63, 0), (2**64 - 1, 2**64 - 1):
            with self.assertRaisesRegex(MemoryError, f"no memory for {cells + extra} cells"):
                onnx_gate.check(outputs(1), LIST, cells, extra)

    def test_they_end_with_the_call(self):
        """Also where it is interrupted, and not only when garbage is collected."""
        rooms, mapped, many = [], _library._mapped, (2, _library._FEW)
        with mock.patch.object(_library, "_mapped", lambda size: rooms.append(mapped(size)) or rooms[-1]):
            self.assertTrue(onnx_gate.check(outputs(1), LIST, *many))
            with mock.patch.object(_library, "_library") as library, self.assertRaises(KeyboardInterrupt):
                library.onnx_gate_check_indexed.side_effect = KeyboardInterrupt
                onnx_gate.check(outputs(1), LIST, *many)
        self.assertEqual([room.closed for room in rooms], [True, True])


class Files(unittest.TestCase):
    def setUp(self):
        held = tempfile.TemporaryDirectory()
        self.addCleanup(held.cleanup)
        self.path = Path(held.name) / "model.onnx"

    def test_around_the_limit(self):
        with mock.patch.object(_files, "LARGEST_MODEL", 3_000_000), mock.patch.object(_files, "_PART", 7_000):
            for size in 0, 1, 2_999_999, 3_000_000:
                model = random.randbytes(size)
                self.path.write_bytes(model)
                self.assertEqual(_files.read(self.path), model)
                self.assertEqual(self.piped(model), model)
            for size in 3_000_001, 4_000_000:
                self.path.write_bytes(b"x" * size)
                self.assertEqual(_files.read(self.path), bytes(3_000_001))
                self.assertEqual(self.piped(b"x" * size), b"x" * 3_000_001)

    def piped(self, model):
        out, into = os.pipe()

        def write():
            with contextlib.suppress(BrokenPipeError), open(into, "wb") as file:
                file.write(model)

        writing = threading.Thread(target=write)
        writing.start()
        read = _files.read(f"/dev/fd/{out}")
        os.close(out)
        writing.join()
        return read

    def test_a_file_that_grows(self):
        self.path.write_bytes(outputs(500))
        for size in 0, 1, 100:
            with mock.patch.object(os, "fstat", return_value=mock.Mock(st_size=size)):
                checked = onnx_gate.check_file(self.path, LIST)
            self.assertEqual((str(checked), checked.model), ("accepted nodes 1 names 500 odd 0", outputs(500)))

    def test_a_file_that_changes_afterwards(self):
        self.path.write_bytes(outputs(500))
        checked = onnx_gate.check_file(self.path, LIST)
        self.path.write_bytes(b"")
        self.assertEqual(checked.model, outputs(500))


# Prints an answer, and how many MB it took beside what Python has before.
MEASURED = """
import sys
from pathlib import Path
import onnx_gate
def peak():
    return int(Path("/proc/self/status").read_text().split("VmHWM:")[1].split()[0]) // 1000
operators, before = onnx_gate.operators([("", 7, 21)]), peak()
answer = {}
print(answer, peak() - before)
"""


class Memory(unittest.TestCase):
    def measured(self, call, **more):
        code = MEASURED.replace("{}", call)
        ran = subprocess.run([sys.executable, "-c", code], cwd=HERE, capture_output=True, check=True, **more)
        *answer, used = ran.stdout.decode().split()
        return " ".join(answer), int(used)

    def test_the_largest_models(self):
        for call, expected in (
            (f"onnx_gate.check(bytes({MOST}), operators)", "refused 3 at 0"),
            (f"onnx_gate.check(bytes({MOST + 1}), operators)", "refused 7 at 0"),
            (f"onnx_gate.check(bytes({MOST + 1}), operators, 1, 3)", "refused 65 at 0"),
            (f"onnx_gate.check(bytes({2**32 + 19}), b'')", "refused 7 at 0"),
        ):
            answer, used = self.measured(call)
            self.assertEqual(answer, expected)
            self.assertLess(used, 50, call)

    def test_files(self):
        """A file is in memory once, from a pipe too, and one that is too long not at all."""
        model, sound = graph(part(5, b"\x42\x01w\x10\x01" + part(9, bytes(100_000_000)))), "accepted nodes 0 names 1 odd 0"
        with tempfile.TemporaryDirectory() as folder:
            path = Path(folder) / "model.onnx"
            path.write_bytes(model)
            self.from_file(path, sound, 95, 120)
            self.from_file("/dev/stdin", sound, 95, 120, input=model)
            for length in MOST + 1, 2**40:
                os.truncate(path, length)
                self.from_file(path, "refused 7 at 0", 0, 20)

    def test_room_that_is_not_used(self):
        """Millions of names of lists get room, 16 bytes each. It is real only where one is kept, and here the second is refused."""
        attributes = b"\x12\x01y\x22\x01X" + b"\x2a\x06\x0a\x01a\xa0\x01\x01" * 7_500_000
        for expected, contents in (
            ("refused 31 at 35", part(1, attributes)),
            ("refused 23 at 23 first 16", b"\x2a\x05\x42\x01w\x10\x01" * 8_570_000),
            ("refused 29 at 28", b"\x0a\x08\x12\x00\x1a\x01n\x22\x01X" * 6_000_000),
        ):
            with tempfile.TemporaryDirectory() as folder:
                path = Path(folder) / "model.onnx"
                path.write_bytes(graph(contents))
                self.from_file(path, expected, 55, 68)

    def from_file(self, path, expected, least, most, **more):
        answer, used = self.measured(f"onnx_gate.check_file({str(path)!r}, operators)", **more)
        self.assertEqual(answer, expected)
        self.assertTrue(least <= used <= most, f"{used} MB for {path}")


if __name__ == "__main__":
    unittest.main()
