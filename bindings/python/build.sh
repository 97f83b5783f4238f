#!/bin/sh
# Makes onnx_gate/libonnx_gate.so: ctypes loads shared objects, and the kit writes a static library. The count of what a model needs, in
# bindings/c, goes into it as well. What is there already is replaced only by what could be built.
set -eu
unset CDPATH
here=$(cd "$(dirname "$0")" && pwd -P)
root=$(cd "$here/../.." && pwd -P)
archive=$root/target/staticlib/libgate_c.a
made=$here/onnx_gate/libonnx_gate.so
if ! "$root/tools/fresh" "$archive"; then "$root/tools/prove" gate_c >&2; fi
trap 'rm -f "$made.new"' EXIT
gcc -shared -fPIC -O2 -o "$made.new" "$root/bindings/c/sizing.c" -Wl,--no-undefined -Wl,--whole-archive "$archive" -Wl,--no-whole-archive
mv "$made.new" "$made"
