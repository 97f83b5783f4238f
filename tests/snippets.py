#!/usr/bin/env python3
"""Runs the three programs of README.md, section "From C, Rust and Python", as they stand there, on a model that is accepted and on one
that is refused: exit status 0 and 1. Needs the archive, and the shared object of bindings/python."""

import os
import re
import subprocess
import sys
import tempfile
from pathlib import Path
from textwrap import dedent

ROOT = Path(__file__).resolve().parent.parent
MODELS = {"ok-network.onnx": 0, "30-undefined.onnx": 1}


def programs():
    """The indented blocks of the section."""
    section = re.search(r"^## From C, Rust and Python$(.*?)^## ", (ROOT / "README.md").read_text(), re.DOTALL | re.MULTILINE)[1]
    blocks = re.findall(r"(?:^(?:    .*)?\n)+", section, re.MULTILINE)
    return [dedent(block).strip() + "\n" for block in blocks if block.strip()]


def run(*command, **more):
    return subprocess.run([str(word) for word in command], check=True, **more)


def build_c(program, folder):
    (folder / "mine.c").write_text(program)
    run("gcc", "-Wall", "-Wextra", "-Werror", "-I", ROOT / "bindings/c", "mine.c", ROOT / "target/staticlib/libgate_c.a", cwd=folder)
    return [folder / "a.out"]


def build_rust(program, folder):
    (folder / "src").mkdir()
    (folder / "src/main.rs").write_text(program)
    dependency = f'onnx_gate = {{ path = "{ROOT}/bindings/rust" }}'
    (folder / "Cargo.toml").write_text(f'[package]\nname = "mine"\nedition = "2021"\n[dependencies]\n{dependency}\n[workspace]\n')
    run("cargo", "build", "--offline", "--quiet", "--target-dir", "target", cwd=folder)
    return [folder / "target/debug/mine"]


def build_python(program, folder):
    (folder / "mine.py").write_text(program)
    return [sys.executable, folder / "mine.py"]


def status(command, folder, model):
    """C reads the model from its standard input, the others from model.onnx."""
    (folder / "model.onnx").write_bytes(model)
    environment = {**os.environ, "PYTHONPATH": str(ROOT / "bindings/python")}
    return subprocess.run(command, cwd=folder, input=model, env=environment, stdout=subprocess.DEVNULL).returncode


def main():
    texts = programs()
    assert len(texts) == 3, f"{len(texts)} programs"
    for build, text in zip((build_c, build_rust, build_python), texts):
        with tempfile.TemporaryDirectory() as name:
            folder = Path(name)
            command = build(text, folder)
            for model, expected in MODELS.items():
                found = status(command, folder, (ROOT / "examples" / model).read_bytes())
                assert found == expected, f"{build.__name__}: status {found} for {model}"
    print("the three programs of README.md accept and refuse")


if __name__ == "__main__":
    main()
