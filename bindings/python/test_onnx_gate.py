"""Run by `python3 -m unittest` in this folder, after build.sh."""

import unittest

import onnx_gate

LIST = onnx_gate.operators([("", 7, 21)])
M1 = bytes.fromhex("0808 4202100D 3A0B 120167 0A06 120161 220158")
READER = bytes.fromhex("0808 4202100D 3A0E 120167 0A09 0A0161 120161 220158")
TWICE = bytes.fromhex("0808 4202100D 3A0E 120167 0A09 120161 120161 220158")


class Samples(unittest.TestCase):
    def line(self, model, cells):
        return str(onnx_gate.check(model, LIST, cells))

    def test_samples_of_document_01(self):
        self.assertEqual(LIST.hex(), "0000000b0100080000000700000015")
        self.assertEqual(self.line(b"", 0), "refused 10 at 0")
        self.assertEqual(self.line(b"\x08\x08\x08\x08", 0), "refused 5 at 2")
        for cells in 2, 3, 9, None:
            self.assertEqual(self.line(M1, cells), "accepted nodes 1 names 1 odd 0")
            self.assertEqual(self.line(TWICE, cells), "refused 23 at 16 first 13")
        for cells in 0, 1:
            self.assertEqual(self.line(M1, cells), "refused 40 at 13")
            self.assertEqual(self.line(TWICE, cells), "refused 40 at 13")
            self.assertEqual(self.line(READER, cells), "refused 30 at 13")

    def test_both_definitions(self):
        self.assertEqual(onnx_gate.check(TWICE, LIST), onnx_gate.Answer(23, 16, 0, 0, 13, 0))
        self.assertEqual(repr(onnx_gate.check(TWICE, LIST)), "Answer(refusal=23, place=16, nodes=0, names=0, first=13, odd=0)")
        self.assertEqual(onnx_gate.check(READER, LIST), onnx_gate.Answer(30, 13, 0, 0, 0, 0))
        head, default = "0808 4202100D 3A1E 120167", "2A05 420177 1001"
        entry = "5A0B 0A0177 1206 0A04 0801 1200"
        for fields, answer in (
            (entry + default + default, "refused 23 at 33 first 13"),  # the input's, not the default's
            (default + entry + default, "refused 23 at 33 first 20"),
            (default + default + entry, "refused 23 at 20 first 27"),  # inputs are judged first
        ):
            model = bytes.fromhex(head + fields)
            self.assertEqual(str(onnx_gate.check(model, LIST)), answer)
            for cells in 2, 3, 9:
                self.assertEqual(str(onnx_gate.check(model, LIST, cells, 4 * cells, 7)), answer)
        self.assertEqual(self.line(bytes.fromhex("0808 4202100D 3A17 120167" + default + entry), 2), "accepted nodes 0 names 1 odd 0")

    def test_ir_versions(self):
        """3 to 11; at 3 an initializer bears the name of an input of its own graph, and later a body has no default."""
        for version in range(20):
            answer = "accepted nodes 0 names 0 odd 0" if 3 <= version <= 11 else "refused 10 at 0"
            self.assertEqual(self.line(bytes([8, version]) + bytes.fromhex("4202100D 3A03 120167"), 0), answer)
        default = "2A05 420169 1001"
        body = "0A1E 1200 220158 2A17 0A016B A00105 320F 120168 5A03 0A0169" + default
        own = onnx_gate.check(bytes.fromhex("0803 4202100D 3A0A 120167" + default), LIST)
        self.assertEqual((str(own), own.rule), ("refused 43 at 13", "initializer-not-input"))
        self.assertEqual(own.explanation, "at IR version 3 an initializer must bear the name of an input of its own graph")
        for version, answer in (3, "accepted nodes 1 names 1 odd 0"), (4, "refused 23 at 38 first 33"), (11, "refused 23 at 38 first 33"):
            self.assertEqual(self.line(bytes([8, version]) + bytes.fromhex("4202100D 3A23 120167" + body), 2), answer)

    def test_odd_names(self):
        """Names that are no identifiers are counted where they stand, and only bytes that are no UTF-8 are refused."""
        for output, answer in (
            ("5F", "accepted nodes 1 names 1 odd 0"),
            ("2F", "accepted nodes 1 names 1 odd 1"),
            ("39", "accepted nodes 1 names 1 odd 1"),
            ("00", "accepted nodes 1 names 1 odd 1"),
            ("80", "refused 21 at 13"),
            ("C3", "refused 21 at 13"),
            ("FF", "refused 21 at 13"),
        ):
            self.assertEqual(self.line(bytes.fromhex(f"0808 4202100D 3A0B 120167 0A06 1201 {output} 220158"), 2), answer)
        reading = bytes.fromhex("0808 4202100D 3A15 120167 0A06 12012F 220158 0A08 0A012F 1200 220158")
        self.assertEqual(onnx_gate.check(reading, LIST), onnx_gate.Answer(0, 0, 2, 1, 0, 2))
        empty_dim = bytes.fromhex("0808 4202100D 3A14 120167 5A0F 0A0177 120A 0A08 0801 1204 0A02 1200")
        refused = onnx_gate.check(empty_dim, LIST)
        self.assertEqual((str(refused), refused.rule), ("refused 21 at 26", "not-utf8"))
        self.assertEqual(refused.explanation, "not well-formed UTF-8, or an empty dim_param")

    def test_padded_varints(self):
        """A tag, a value and a length, in what is opened and of fields that no row names; beside each its shortest form."""
        for place, padded, shortest in (
            (0, "8800 08 4202100D 3A03120167", "0808 4202100D 3A03120167"),
            (0, "08 8800 4202100D 3A03120167", "0808 4202100D 3A03120167"),
            (2, "0808 42 8200 100D 3A03120167", "0808 4202100D 3A03120167"),
            (4, "0808 4203 10 8D00 3A03120167", "0808 4202100D 3A03120167"),
            (11, "0808 4202100D 3A03120167 988600 01", "0808 4202100D 3A03120167 9806 01"),
            (11, "0808 4202100D 3A03120167 9806 8100", "0808 4202100D 3A03120167 9806 01"),
            (11, "0808 4202100D 3A03120167 9A06 8100 00", "0808 4202100D 3A03120167 9A06 01 00"),
        ):
            answer = onnx_gate.check(bytes.fromhex(padded), LIST)
            self.assertEqual((str(answer), answer.rule), (f"refused 9 at {place}", "padded"), padded)
            self.assertIn("a varint of more than one byte that ends in 0", answer.explanation)
            self.assertEqual(self.line(bytes.fromhex(shortest), 0), "accepted nodes 0 names 0 odd 0")
        longest = bytes.fromhex("0808 4202100D 3A03120167 9806") + 9 * b"\xff"
        self.assertEqual(self.line(longest + b"\x01", 0), "accepted nodes 0 names 0 odd 0")
        self.assertEqual(self.line(longest + b"\x00", 0), "refused 9 at 11")

    def test_answers(self):
        accepted, refused = onnx_gate.check(M1, LIST), onnx_gate.check(bytearray(M1), b"")
        self.assertTrue(accepted and not refused)
        self.assertEqual((accepted.rule, refused.rule, refused.place), ("", "list-unsound", 0))
        self.assertIn("operator list", refused.explanation)
        for bad in {"cells": -1}, {"cells": 1, "extra": -1}, {"extra": 4}, {"seed": -1}, {"seed": 2**64}:
            with self.assertRaises(ValueError, msg=bad):
                onnx_gate.check(M1, LIST, **bad)
        for bad in {"cells": 1.0}, {"cells": 1, "extra": "4"}, {"seed": 0.5}, {"cells": True}, {"seed": False}:
            with self.assertRaises(TypeError, msg=bad):
                onnx_gate.check(M1, LIST, **bad)

    def test_extra_cells_and_seeds(self):
        for seed in 0, 1, 2**64 - 1:
            self.assertEqual(str(onnx_gate.check(M1, LIST, seed=seed)), "accepted nodes 1 names 1 odd 0")
            for cells in 2, 3, 9:
                lines = [str(onnx_gate.check(M1, LIST, cells, 4 * cells + more, seed)) for more in (-1, 0, 1, 500)]
                self.assertEqual(lines, ["refused 65 at 0"] + 3 * ["accepted nodes 1 names 1 odd 0"])
        for cells in 0, 1:
            self.assertEqual(str(onnx_gate.check(M1, LIST, cells, 4 * cells)), "refused 40 at 13")
        self.assertEqual(onnx_gate.check(M1, LIST, 1, 0).rule, "too-few-extra")

    def test_names(self):
        self.assertEqual(onnx_gate.show_name(b"model", 1, 3), b"ode")
        self.assertEqual(onnx_gate.show_name(b"model", 1, 5), b"")
        self.assertEqual(onnx_gate.show_name(b"model", 2**64 - 1, 2), b"")
        self.assertEqual(onnx_gate.show_name(b"model", -1, 2), b"")

    def test_lists(self):
        twice, long = [("", 1, 1), ("ai.onnx", 1, 1)], [("x" * 65528, 1, 1)]
        for bad in [("a", 0, 1)], [("a", 2, 1)], [("a", -1, 1)], [("a", 1, 2**32)], [("a", 2**32, 2**32)], twice, long:
            with self.assertRaises(ValueError, msg=bad):
                onnx_gate.operators(bad)
        for bad in (5, 1, 1), (True, 1, 1), (None, 1, 1), ("a", True, 1), ("a", 1, True), ("a", 1.0, 2), ("a", "1", 2), (["a"], 1, 1):
            with self.assertRaises(TypeError, msg=bad):
                onnx_gate.operators([bad])
        self.assertEqual(onnx_gate.operators([("x", 1, 0x01020304)]).hex(), "0000000c010009780000000101020304")
        for domain in "x", b"x", bytearray(b"x"), memoryview(b"x"):
            self.assertEqual(onnx_gate.operators([(domain, 1, 2)]).hex(), "0000000c010009780000000100000002")


if __name__ == "__main__":
    unittest.main()
