"""Builds the wheel for pip (PEP 517, PEP 427) with what Python itself has, so that an installation needs no network.

The shared object is built first, and the package imported with it: what cannot be built or loaded is not installed.
"""

import base64
import hashlib
import os
import subprocess
import sys
import sysconfig
import zipfile
from pathlib import Path

HERE = Path(__file__).resolve().parent
PACKAGE = HERE / "onnx_gate"


def build_wheel(wheel_directory: str, config_settings: object = None, metadata_directory: str | None = None) -> str:
    subprocess.run([str(HERE / "build.sh")], check=True)
    version, tag = loaded_version(), f"py3-none-{sysconfig.get_platform().replace('-', '_').replace('.', '_')}"
    info = f"onnx_gate-{version}.dist-info"
    files = {f"onnx_gate/{path.name}": path.read_bytes() for path in sorted(PACKAGE.iterdir()) if path.is_file()}
    files[f"{info}/METADATA"] = f"Metadata-Version: 2.1\nName: onnx_gate\nVersion: {version}\nRequires-Python: >=3.10\n".encode()
    files[f"{info}/WHEEL"] = f"Wheel-Version: 1.0\nGenerator: wheel_backend\nRoot-Is-Purelib: false\nTag: {tag}\n".encode()
    files[f"{info}/RECORD"] = record(files, f"{info}/RECORD")
    name = f"onnx_gate-{version}-{tag}.whl"
    with zipfile.ZipFile(Path(wheel_directory) / name, "w", zipfile.ZIP_DEFLATED) as wheel:
        for path, contents in files.items():
            wheel.writestr(path, contents)
    return name


def build_sdist(sdist_directory: str, config_settings: object = None) -> str:
    raise SystemExit("onnx_gate is installed from its repository, where the library is proved and built")


def loaded_version() -> str:
    environment = {name: value for name, value in os.environ.items() if name != "ONNX_GATE_LIB"}
    asked = [sys.executable, "-c", "import onnx_gate; print(onnx_gate.__version__)"]
    return subprocess.run(asked, check=True, cwd=HERE, env=environment, stdout=subprocess.PIPE, text=True).stdout.strip()


def record(files: dict[str, bytes], own: str) -> bytes:
    """Each file with its hash and size, and the record itself with none."""
    rows = []
    for path, contents in files.items():
        digest = base64.urlsafe_b64encode(hashlib.sha256(contents).digest()).rstrip(b"=").decode()
        rows.append(f"{path},sha256={digest},{len(contents)}\n")
    return "".join([*rows, f"{own},,\n"]).encode()
