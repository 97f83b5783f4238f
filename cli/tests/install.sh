# shellcheck shell=bash disable=SC2154
# What `./gate install` puts below a folder is found and works from there.

test_install() {
    cp "$root/bindings/c/example.c" . && cp "$good" good.onnx
    expect 0 '*installed *bin/onnx-gate*onnx-gate [0-9]*' '' "$root/cli/install.sh" "the prefix"
    prefix=$PWD/the\ prefix
    expect 0 'good.onnx: accepted*' '' "$prefix/bin/onnx-gate" check good.onnx
    from_c
    from_python
    what_fails
    # again, over what is there
    expect 0 '*' '' "$root/cli/install.sh" "the prefix"
}

from_c() {
    local flags="-I'$prefix/include' -L'$prefix/lib' -lonnx_gate"
    if command -v pkg-config >/dev/null; then
        flags=$(PKG_CONFIG_PATH=$prefix/lib/pkgconfig run pkg-config --cflags --libs onnx_gate)
        same "version" "onnx-gate $(PKG_CONFIG_PATH=$prefix/lib/pkgconfig run pkg-config --modversion onnx_gate)" \
            "$("$gate" --version)"
    fi
    eval "holds 'with the shared library' run gcc -o shared example.c $flags"
    expect 0 'accepted nodes 2 names 4 odd 0' '' env LD_LIBRARY_PATH="$prefix/lib" ./shared good.onnx
    holds "with the static library" run gcc -o static example.c -I"$prefix/include" "$prefix/lib/libonnx_gate.a"
    expect 0 'accepted nodes 2 names 4 odd 0' '' ./static good.onnx
}

from_python() {
    local folder
    folder=$(dirname "$prefix"/lib/python3*/*-packages/onnx_gate*)
    expect 0 'accepted nodes 2 names 4 odd 0' '' env PYTHONPATH="$folder" python3 -c '
import onnx_gate
operators = onnx_gate.operators([("ai.onnx", 7, 21)])
print(onnx_gate.check(open("good.onnx", "rb").read(), operators))'
}

what_fails() {
    expect 2 '' 'gate: usage*' "$root/cli/install.sh"
    expect 2 '' 'gate: usage*' "$root/cli/install.sh" ''
    expect 2 '' 'gate: usage*' "$root/cli/install.sh" --help
    expect 2 '' 'gate: usage*' "$root/cli/install.sh" a b
    expect 2 '' '*gate: not everything was installed*' "$root/cli/install.sh" good.onnx/prefix
    expect 2 '' '*gate: not everything was installed*' env CC=false "$root/cli/install.sh" other
    mkdir -p third/include/onnx_gate.h/in-the-way
    expect 2 '*' '*gate: not everything was installed*' "$root/cli/install.sh" third
}
