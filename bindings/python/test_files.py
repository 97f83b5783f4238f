"""Files: the examples, the command, which library is loaded, and the installation. Run by `python3 -m unittest` in this folder."""

import os
import shutil
import subprocess
import sys
import tempfile
import unittest
from pathlib import Path

import onnx_gate

HERE = Path(__file__).resolve().parent
EXAMPLES = HERE.parent.parent / "examples"
SOUND = EXAMPLES / "ok-tagger.onnx"
OPERATORS = onnx_gate.operators([("ai.onnx", 7, 21), ("ai.onnx.ml", 1, 5)])


def table():
    """Each example with the answer that it is to have."""
    rows = (HERE.parent.parent / "tests/examples.txt").read_text().splitlines()
    return dict(row.split(": ") for row in rows if not row.startswith("#"))


class InFolder(unittest.TestCase):
    def setUp(self):
        held = tempfile.TemporaryDirectory()
        self.addCleanup(held.cleanup)
        self.folder = Path(held.name)

    def python(self, *words, path=HERE, **environment):
        variables = {**os.environ, "PYTHONPATH": str(path), **environment}
        return subprocess.run([sys.executable, *words], cwd=self.folder, env=variables, capture_output=True, text=True)

    def command(self, *names, **environment):
        ran = self.python("-m", "onnx_gate", *names, **environment)
        return ran.returncode, ran.stdout, ran.stderr


class Files(InFolder):
    def test_examples(self):
        self.assertEqual(len(table()), len(list(EXAMPLES.glob("*.onnx"))))
        for name, expected in table().items():
            model = (EXAMPLES / name).read_bytes()
            for lent in model, bytearray(model), memoryview(model[::-1])[::-1]:
                self.assertEqual(str(onnx_gate.check(lent, OPERATORS)), expected, name)
            checked = onnx_gate.check_file(EXAMPLES / name, OPERATORS)
            self.assertEqual((str(checked), bool(checked)), (expected, expected.startswith("accepted")), name)
            self.assertEqual(checked.model, model if checked else b"", name)

    def test_bounds(self):
        for cells in 26, 27:
            self.assertTrue(onnx_gate.check_file(str(SOUND), OPERATORS, cells=cells, seed=7))
        for cells in 25, 24, 1, 0:
            self.assertEqual(onnx_gate.check_file(SOUND, OPERATORS, cells=cells).refusal, 40)
        self.assertNotIn("model", repr(onnx_gate.check_file(SOUND, OPERATORS)))

    def test_both_definitions(self):
        """Each of them is a field that holds the name, and only 23 has a second."""
        for name in table():
            checked, model = onnx_gate.check_file(EXAMPLES / name, OPERATORS), (EXAMPLES / name).read_bytes()
            self.assertEqual(checked.first > 0, name.startswith("23-"), name)
            if checked.first:
                again, before = (model[place + 1 :][: 1 + model[place + 1]] for place in (checked.place, checked.first))
                self.assertEqual(again, before, name)

    def test_no_more_is_read_than_need_be(self):
        large = self.folder / "large.onnx"
        large.touch()
        os.truncate(large, 2**40)
        self.assertEqual(str(onnx_gate.check_file(large, OPERATORS)), "refused 7 at 0")

    def test_what_is_no_file(self):
        for wrong, error in (0, TypeError), (True, TypeError), ("no-such", FileNotFoundError), ("/", IsADirectoryError):
            with self.assertRaises(error):
                onnx_gate.check_file(wrong, OPERATORS)


class Command(InFolder):
    def test_examples(self):
        names = list(table())
        lines = "".join(f"{EXAMPLES / name}: {answer}\n" for name, answer in table().items())
        self.assertEqual(self.command(*(str(EXAMPLES / name) for name in names)), (1, lines, ""))

    def test_status(self):
        accepted, refused = f"{SOUND}: accepted nodes 9 names 13 odd 0\n", f"{EXAMPLES}/11-no-graph.onnx: refused 11 at 0\n"
        self.assertEqual(self.command(str(SOUND)), (0, accepted, ""))
        self.assertEqual(self.command(f"{EXAMPLES}/11-no-graph.onnx", str(SOUND)), (1, refused + accepted, ""))
        self.assertEqual(self.command("no", str(SOUND)), (2, accepted, "onnx_gate: no: No such file or directory\n"))
        self.assertEqual(self.command()[0], 2)
        with open("/dev/full", "w") as full:
            command = [sys.executable, "-m", "onnx_gate", str(SOUND)]
            ran = subprocess.run(command, cwd=HERE, stdout=full, stderr=subprocess.PIPE, text=True)
        self.assertEqual((ran.returncode, ran.stderr), (2, "onnx_gate: No space left on device\n"))

    def test_names_are_no_options(self):
        for name in "-h", "--help", "--", "-", "-v":
            self.assertEqual(self.command(name), (2, "", f"onnx_gate: {name}: No such file or directory\n"))
            shutil.copy(SOUND, self.folder / name)
            self.assertEqual(self.command(name), (0, f"{name}: accepted nodes 9 names 13 odd 0\n", ""))

    def test_nothing_raw_is_printed(self):
        for raw, shown in (b"a\x1b[2J", "a\\x1b[2J"), (b"a\nb", "a\\nb"), (b"\xff", "\\udcff"), ("\u202e".encode(), "\\u202e"):
            self.assertEqual(self.command(os.fsdecode(raw))[1:], ("", f"onnx_gate: {shown}: No such file or directory\n"))
            shutil.copy(SOUND, os.fsencode(self.folder) + b"/" + raw)
            self.assertEqual(self.command(os.fsdecode(raw))[:2], (0, f"{shown}: accepted nodes 9 names 13 odd 0\n"))
        shutil.copy(SOUND, self.folder / "é")
        self.assertEqual(self.command("é", PYTHONIOENCODING="ascii")[1], "\\xe9: accepted nodes 9 names 13 odd 0\n")


class Library(InFolder):
    def imports(self, named):
        ran = self.python("-c", "import onnx_gate; print('loaded', onnx_gate._library._library._name)", ONNX_GATE_LIB=named)
        return ran.stdout.strip() or ran.stderr.splitlines()[-1]

    def test_a_relative_name_is_of_this_folder(self):
        self.assertIn("mine.so is missing", self.imports("mine.so"))
        shutil.copy(HERE / "onnx_gate/libonnx_gate.so", self.folder / "mine.so")
        self.assertEqual(self.imports("mine.so"), f"loaded {self.folder.resolve()}/mine.so")

    def test_nothing_stands_in_for_it(self):
        for named in "", "no-such.so", "libc.so.6", str(self.folder):
            self.assertIn("is missing", self.imports(named))
        (self.folder / "text.so").write_text("no library")
        self.assertIn("is not the gate's library", self.imports("text.so"))


class Installation(InFolder):
    def install(self, source, **environment):
        quiet = "--quiet", "--disable-pip-version-check", "--no-index", "--root-user-action=ignore"
        return self.python("-m", "pip", "install", *quiet, "--target", str(self.folder / "site"), str(source), **environment)

    def test_installed(self):
        self.assertEqual(self.install(HERE).returncode, 0)
        installed = {path.name for path in (self.folder / "site/onnx_gate").iterdir()}
        self.assertLessEqual({"py.typed", "libonnx_gate.so", "__main__.py"}, installed)
        ran = self.python("-m", "onnx_gate", str(SOUND), path=self.folder / "site")
        self.assertEqual(ran.stdout, f"{SOUND}: accepted nodes 9 names 13 odd 0\n")

    def test_not_installed_where_it_cannot_be_built(self):
        copy = self.folder / "repository/bindings/python"
        shutil.copytree(HERE, copy, ignore=shutil.ignore_patterns("*.so", "__pycache__"))
        (self.folder / "rt").write_text("#!/bin/sh\nexit 1\n")
        (self.folder / "rt").chmod(0o755)
        path = f"{self.folder}:{os.environ['PATH']}"
        self.assertNotEqual(self.install(copy, PATH=path).returncode, 0)
        self.assertFalse((self.folder / "site").exists())


if __name__ == "__main__":
    unittest.main()
