#!/usr/bin/env python3
"""Says whether C, Rust and Python have the same refusals, number, name and explanation, those that the tests look for, the same version, as
many cells for a name, and the same numbers in an answer. Status 1 where not."""

import ast
import re
import sys
from pathlib import Path

BINDINGS = Path(__file__).resolve().parent.parent / "bindings"
HEADER = (BINDINGS / "c/onnx_gate.h").read_text()
PYTHON = BINDINGS / "python/onnx_gate"
RUST = (BINDINGS / "rust/src/lib.rs").read_text()
TESTS = BINDINGS.parent / "tests/src"


def of_c():
    enum = re.search(r"enum onnx_gate_refusal \{(.*?)\};", HEADER, re.DOTALL)[1]
    rows = re.findall(r"ONNX_GATE_(\w+) = (\d+),?\s*/\*(.*?)\*/", enum, re.DOTALL)
    return {int(number): (name.lower().replace("_", "-"), " ".join(text.split())) for name, number, text in rows}


def of_rust():
    rows = re.findall(r'of\(\s*(\d+),\s*"(.*?)",\s*"(.*?)",?\s*\)', (BINDINGS / "rust/src/rules.rs").read_text())
    return {int(number): (name, text) for number, name, text in rows}


def of_python():
    """Read and not imported, since an import needs the shared object."""
    tree = ast.parse((PYTHON / "rules.py").read_text())
    return next(ast.literal_eval(item.value) for item in tree.body if isinstance(item, ast.Assign))


def of_tests():
    """The numbers that the comparison must reach, and the index's own."""
    numbers = re.search(r"REFUSALS: \[u64; \d+\] = \[(.*?)\];", (TESTS / "verdict.rs").read_text(), re.DOTALL)[1]
    return {65, *map(int, re.findall(r"\d+", numbers))}


def versions():
    found = {
        "C": re.search(r'ONNX_GATE_VERSION "(.*)"', HEADER),
        "Rust": re.search(r'^version = "(.*)"', (BINDINGS / "rust/Cargo.toml").read_text(), re.MULTILINE),
        "Python": re.search(r'^__version__ = "(.*)"', (PYTHON / "__init__.py").read_text(), re.MULTILINE),
    }
    return {language: match[1] for language, match in found.items()}


def cells():
    """How wide a record is: each language states it once, and the checker too."""
    found = {
        "C": re.search(r"^#define ONNX_GATE_CELLS_PER_NAME (\d+)", HEADER, re.MULTILINE),
        "Rust": re.search(r"^pub const CELLS_PER_NAME: usize = (\d+);", RUST, re.MULTILINE),
        "Python": re.search(r"^CELLS_PER_NAME = (\d+)", (PYTHON / "_sizing.py").read_text(), re.MULTILINE),
        "the checker": re.search(r"^pub const CELLS_PER_NAME: usize = (\d+);", (TESTS / "checker.rs").read_text(), re.MULTILINE),
    }
    return {language: match and match[1] for language, match in found.items()}


def answers():
    """What crosses, in its order: who has one number fewer than the library writes over what stands behind it."""
    found = {
        "C": (r"struct onnx_gate_answer \{(.*?)\n\};", r"uint64_t (\w+);", HEADER),
        "Rust": (r"struct Answer \{(.*?)\}", r"(\w+): u64", RUST),
        "Python": (r"class Answered.*?in \((.*?)\)", r'"(\w+)"', (PYTHON / "_library.py").read_text()),
        "the tests": (r"struct Answer \{(.*?)\}", r"(\w+): u64", (TESTS / "gate.rs").read_text()),
    }
    return {who: tuple(re.findall(name, re.search(whole, text, re.DOTALL)[1])) for who, (whole, name, text) in found.items()}


def main():
    rust, wrong = of_rust(), []
    for language, table in {"C": of_c(), "Python": of_python()}.items():
        wrong += [f"{language}: {table.get(n)}, Rust: {rust.get(n)} for {n}" for n in rust.keys() | table if table.get(n) != rust.get(n)]
    if rust.keys() != of_tests():
        wrong.append(f"the tests look for other refusals: {sorted(of_tests() ^ rust.keys())}")
    if len(set(versions().values())) != 1:
        wrong.append(f"versions: {versions()}")
    if len(set(cells().values())) != 1:
        wrong.append(f"cells for a name: {cells()}")
    if len(set(answers().values())) != 1:
        wrong.append(f"an answer: {answers()}")
    if wrong or len(rust) < 38:
        sys.exit("\n".join(["same_rules.py: the bindings differ", *wrong]))
    print(f"{len(rust)} refusals, the version, the cells for a name and an answer's numbers are the same in C, Rust and Python")


if __name__ == "__main__":
    main()
