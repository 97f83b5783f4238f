"""What is lent is copied, and no class decides how much of it there is. Run by `python3 -m unittest` in this folder."""

import array
import inspect
import mmap
import sys
import tempfile
import threading
import typing
import unittest

import onnx_gate

LIST = onnx_gate.operators([("", 7, 21)])
M1 = bytes.fromhex("0808 4202100D 3A0B 120167 0A06 120161 220158")
ACCEPTED = onnx_gate.Answer(0, 0, 1, 1, 0, 0)


def liar(length):
    """Bytes that say to have this length, and to be other ones."""

    class Liar(bytes):
        def __len__(self):
            return length

        def __getitem__(self, at):
            return b"\x00"[at] if isinstance(at, slice) else 0

        def __iter__(self):
            return iter(b"\x00" * length)

        def __bytes__(self):
            return b"\x00" * length

        def __eq__(self, other):
            return True

        __hash__ = bytes.__hash__

    return Liar


class Types(unittest.TestCase):
    def test_every_function_says_its_types(self):
        modules = [onnx_gate, *(sys.modules[f"onnx_gate.{name}"] for name in ("_files", "_library", "_lists", "_sizing", "_values"))]
        members = [member for module in modules for _, member in inspect.getmembers(module, inspect.isfunction)]
        functions = {member for member in members if member.__module__.startswith("onnx_gate")}
        self.assertGreater(len(functions), 12)
        for function in functions:
            hints = typing.get_type_hints(function)
            self.assertEqual(set(hints), {*inspect.signature(function).parameters, "return"}, function)


class Lent(unittest.TestCase):
    def test_classes_made_from_bytes(self):
        for length in 0, 1, 18, 20, 10**9:
            Liar = liar(length)
            self.assertEqual(onnx_gate.check(Liar(M1), LIST), ACCEPTED, length)
            self.assertEqual(onnx_gate.check(M1, Liar(LIST)), ACCEPTED, length)
            self.assertEqual(onnx_gate.show_name(Liar(b"model"), 1, 3), b"ode")
            self.assertEqual(onnx_gate.show_name(Liar(b"model"), 3, 3), b"")
            self.assertEqual(onnx_gate.operators([(Liar(b"x"), 1, 2), (Liar(b"y"), 1, 2)])[7:8], b"x")

    def test_classes_made_from_str(self):
        class Liar(str):
            def encode(self, *_):
                return b"another"

        self.assertEqual(onnx_gate.operators([(Liar("x"), 1, 2)]), onnx_gate.operators([("x", 1, 2)]))

    def test_buffers(self):
        apart = memoryview(bytes(byte for pair in zip(M1, LIST + M1) for byte in pair))
        for model in bytearray(M1), memoryview(M1), apart[::2], memoryview(M1[::-1])[::-1], array.array("b", M1):
            self.assertEqual(onnx_gate.check(model, LIST), ACCEPTED, model)
        for operators in bytearray(LIST), memoryview(LIST[::-1])[::-1]:
            self.assertEqual(onnx_gate.check(M1, operators), ACCEPTED, operators)
        with tempfile.TemporaryFile() as file:
            file.write(M1)
            file.flush()
            with mmap.mmap(file.fileno(), 0) as model:
                self.assertEqual(onnx_gate.check(model, LIST), ACCEPTED)
                self.assertEqual(onnx_gate.show_name(model, 17, 2), b"\x01X")

    def test_what_has_no_bytes(self):
        for wrong in 5, True, None, "model", [8, 8], 1.5, object():
            for arguments in (wrong, LIST), (M1, wrong):
                with self.assertRaises(TypeError, msg=arguments):
                    onnx_gate.check(*arguments)
            with self.assertRaises(TypeError, msg=wrong):
                onnx_gate.show_name(wrong, 0, 0)

    def test_a_bytearray_that_changes(self):
        model, done = bytearray(M1), threading.Event()

        def change():
            while not done.is_set():
                model[:] = M1 * 500
                model[:] = M1

        changing = threading.Thread(target=change)
        changing.start()
        try:
            answers = {str(onnx_gate.check(model, LIST)) for _ in range(2000)}
        finally:
            done.set()
            changing.join()
        self.assertLessEqual(answers, {str(ACCEPTED), "refused 5 at 19"})
        model.append(0)  # nothing holds it any more


if __name__ == "__main__":
    unittest.main()
