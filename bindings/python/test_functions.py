"""Models with functions: their answers, and the cells that they are lent. Run by `python3 -m unittest` in this folder, after build.sh."""

import unittest

import onnx_gate
from test_sizes import LIST, lent, needed, part, varint

M0 = bytes.fromhex("0808 4202100D 3A03 120167")
ACCEPTED = "accepted nodes 0 names 0 odd 0"


def function(contents, name=b"f"):
    """A function with an import. In M0 the first is at 11, its contents at 14, and what is given at 21."""
    inside = part(1, name) + b"\x4a\x02\x10\x0d" + contents
    return b"\xca\x01" + varint(len(inside)) + inside


def attributes(count, number=6):
    return b"".join(part(number, b"a%06x" % i) for i in range(count))


class Answers(unittest.TestCase):
    def line(self, functions, cells=None, version=8):
        return str(onnx_gate.check(bytes([8, version]) + M0[2:] + functions, LIST, cells))

    def test_names(self):
        self.assertEqual(self.line(function(b"")), ACCEPTED)
        self.assertEqual(self.line(function(b"", b"/")), "accepted nodes 0 names 0 odd 1")
        self.assertEqual(self.line(function(b"", b"\x80")), "refused 21 at 14")
        self.assertEqual(self.line(function(b"", b"")), "refused 22 at 14")
        self.assertEqual(self.line(function(b"") + function(b"\x52\x01d")), ACCEPTED)
        for version, answer in (9, "refused 41 at 21"), (10, ACCEPTED), (11, ACCEPTED):
            self.assertEqual(self.line(function(b"") + function(b"\x6a\x01v"), version=version), answer)
        twice = onnx_gate.check(M0 + 2 * function(b""), LIST)
        self.assertEqual((str(twice), twice.rule), ("refused 41 at 21", "function-twice"))

    def test_attributes(self):
        default = part(11, b"\x0a\x01k\x18\x01\xa0\x01\x02")
        for contents, answer in (
            (b"\x32\x01k\x32\x01m", ACCEPTED),
            (b"\x32\x01k\x32\x01k", "refused 42 at 24"),
            (default + default, "refused 42 at 33"),
            (default + b"\x32\x01k", "refused 42 at 23"),
            (part(11, b"\x0a\x01k\xa0\x01\x05" + part(6, b"\x12\x01h")), "refused 32 at 21"),
            (part(11, b"\x0a\x01k\xa0\x01\x01\xaa\x01\x01k"), "refused 33 at 21"),
        ):
            self.assertEqual(self.line(function(contents)), answer)
        twice = onnx_gate.check(M0 + function(b"\x32\x01k\x32\x01k"), LIST)
        self.assertEqual(twice.rule, "function-attribute-twice")

    def test_bodies(self):
        node = part(7, b"\x0a\x01x\x12\x01y\x22\x01X" + part(5, b"\x0a\x01k\xa0\x01\x01\xaa\x01\x01a"))
        body = b"\x22\x01x" + node + b"\x2a\x01y"
        self.assertEqual(self.line(function(body + b"\x32\x01a"), 4), "accepted nodes 1 names 2 odd 0")
        self.assertEqual(self.line(function(body + b"\x32\x01a"), 3), "refused 40 at 29")
        reference = onnx_gate.check(M0 + function(body), LIST)
        self.assertEqual((str(reference), reference.rule), ("refused 33 at 35", "bad-reference"))
        self.assertEqual(self.line(function(node)), "refused 30 at 23")
        self.assertEqual(self.line(function(b"\x22\x01x\x22\x01x")), "refused 23 at 24 first 21")
        self.assertEqual(self.line(function(b"\x2a\x01x")), "refused 35 at 21")
        self.assertEqual(self.line(b"\xca\x01\x03\x0a\x01f"), "refused 12 at 11")


class Sizes(unittest.TestCase):
    def test_what_is_counted(self):
        """The most names and lists of the main graph or a function, and each function and import of the model."""
        inputs = b"\x22\x01x\x22\x01y"
        self.assertEqual(needed(M0 + function(inputs + attributes(5))), (2, 6))
        self.assertEqual(needed(M0 + 3 * function(inputs + attributes(5))), (2, 8))
        self.assertEqual(needed(M0 + function(attributes(7)) + function(inputs)), (2, 9))
        self.assertEqual(needed(M0 + function(b"\x4a\x05\x0a\x01d\x10\x01" + part(11, b"\x0a\x01k\xa0\x01\x01"))), (0, 3))

    def test_many_functions(self):
        count = 20_000
        model = M0 + b"".join(function(b"", b"f%06x" % i) for i in range(count))
        self.assertEqual(lent(model), (ACCEPTED, [(0, 2 + 4 * count)]))
        again = function(b"", b"f000000")
        self.assertEqual(lent(model + again)[0], f"refused 41 at {len(model)}")

    def test_many_attributes(self):
        """And as many references to them, which a node names."""
        count = 70_000
        node = b"\x12\x01y\x22\x01X" + b"".join(
            part(5, b"\x0a\x07a%06x\xa0\x01\x01\xaa\x01\x07a%06x" % (i, i)) for i in range(count)
        )
        inside = attributes(count) + part(7, node)
        self.assertEqual(lent(M0 + function(inside)), ("accepted nodes 1 names 1 odd 0", [(2, 6 + 4 * (1 + 2 * count))]))
        twice = M0 + function(inside + part(6, b"a000000"))
        self.assertEqual(lent(twice)[0], f"refused 42 at {len(twice) - 9}")
        self.assertEqual(needed(b"\x08\x02" + M0[2:] + function(inside)), (0, 0))


if __name__ == "__main__":
    unittest.main()
