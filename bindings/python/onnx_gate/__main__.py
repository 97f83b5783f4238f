"""python -m onnx_gate MODEL...: one line for each file, for a runtime that has ai.onnx 7 to 21 and ai.onnx.ml 1 to 5.

Exit status: 0 all accepted, 1 some refused, 2 wrong usage or a file that cannot be read. There are no options: every word is a file.
"""

import io
import sys

from . import check_file, operators

OPERATORS = operators([("ai.onnx", 7, 21), ("ai.onnx.ml", 1, 5)])


def shown(text: str) -> str:
    """On one line, with nothing that a terminal would obey: names of files may be any bytes."""
    return "".join(c if c.isprintable() else c.encode("unicode_escape").decode() for c in text)


def checked(name: str) -> int:
    """Prints the answer for a file; the exit status that it asks for."""
    try:
        answer = check_file(name, OPERATORS)
    except (OSError, MemoryError) as error:
        why = getattr(error, "strerror", None) or str(error) or "no memory for it"
        print(f"onnx_gate: {shown(name)}: {shown(why)}", file=sys.stderr)
        return 2
    print(f"{shown(name)}: {answer}", flush=True)
    return 0 if answer else 1


def main(names: list[str]) -> int:
    if not names:
        print("usage: python -m onnx_gate MODEL...", file=sys.stderr)
        return 2
    for stream in sys.stdout, sys.stderr:
        if isinstance(stream, io.TextIOWrapper):  # none where it is closed
            stream.reconfigure(errors="backslashreplace")
    try:
        return max([checked(name) for name in names])
    except OSError as error:  # nowhere to print to
        sys.stdout = None  # or Python would try again at its end
        print(f"onnx_gate: {error.strerror}", file=sys.stderr)
        return 2


if __name__ == "__main__":
    sys.exit(main(sys.argv[1:]))
