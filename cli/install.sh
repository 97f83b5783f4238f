#!/usr/bin/env bash
# Puts the command, the header, the libraries and the Python module below a folder, where they are looked for:
# ./gate install PREFIX, which has built the command and the library before.
set -eu
unset CDPATH
export LC_ALL=C
self=$(readlink -f -- "$0")
root=${self%/cli/*}
archive=$root/target/staticlib/libgate_c.a
command=$root/target/cli/release/onnx-gate

if [ $# -ne 1 ] || [[ ${1-} == -* || -z ${1-} ]]; then
    echo "gate: usage: ./gate install PREFIX, a folder such as /usr/local" >&2
    exit 2
fi

work='' whole=no
ended() {
    rm -rf "$work"
    [ $whole = yes ] && return
    echo "gate: not everything was installed, for the reason above" >&2
    exit 2
}
trap ended EXIT
work=$(mktemp -d)

# put MODE FILE NAME: copies a file to NAME below the prefix
put() {
    install -DT -m "$1" -- "$2" "$prefix/$3"
    printf 'installed %q\n' "$prefix/$3"
}

# Where python3 looks for modules below the prefix, or would if it were its own.
python_folder() {
    python3 -I - "$prefix" <<'END'
import os, site, sys, sysconfig
prefix = sys.argv[1]
looked_into = [path for path in site.getsitepackages() if path.startswith(os.path.join(prefix, "lib"))]
path = looked_into[0] if looked_into else sysconfig.get_path("purelib", "posix_prefix", {"base": prefix})
print(os.path.relpath(path, prefix))
END
}

# The module is a file or a folder of files, and loads the library from beside them.
put_python() {
    local name beside=$modules
    cd "$root/bindings/python"
    if [ -d onnx_gate ]; then beside=$modules/onnx_gate; fi
    for name in onnx_gate{.py,/*.py,/py.typed}; do
        [ ! -e "$name" ] || put 644 "$name" "$modules/$name"
    done
    put 755 "$work/$soname" "$beside/libonnx_gate.so"
}

# The prefix is escaped as for a shell: pkg-config takes flags apart as a shell does.
pkg_config() {
    cat <<END
prefix=$(printf '%s' "$prefix" | sed 's/[^A-Za-z0-9/._@%+,:=\x80-\xff-]/\\&/g')

Name: onnx_gate
Description: A proved check in front of an ONNX runtime
Version: $version
Cflags: -I\${prefix}/include
Libs: -L\${prefix}/lib -lonnx_gate
END
}

mkdir -p -- "$1"
prefix=$(cd -- "$1" && pwd)
version=$("$command" --version)
version=${version#onnx-gate }
soname=libonnx_gate.so.${version%%.*}
modules=$(python_folder)
"${CC:-gcc}" -O2 -fPIC -I"$root/bindings/c" -c "$root/bindings/c/sizing.c" -o "$work/sizing.o"
cp -- "$archive" "$work/libonnx_gate.a"
ar rs "$work/libonnx_gate.a" "$work/sizing.o"
"${CC:-gcc}" -shared -Wl,-soname,"$soname" -Wl,-z,defs -o "$work/$soname" \
    -Wl,--whole-archive "$work/libonnx_gate.a" -Wl,--no-whole-archive
pkg_config >"$work/onnx_gate.pc"

put 755 "$command" bin/onnx-gate
put 644 "$root/bindings/c/onnx_gate.h" include/onnx_gate.h
put 644 "$root/bindings/c/onnx_gate_sizing.h" include/onnx_gate_sizing.h
put 644 "$work/libonnx_gate.a" lib/libonnx_gate.a
put 755 "$work/$soname" "lib/$soname"
ln -sfT "$soname" "$prefix/lib/libonnx_gate.so"
put 644 "$work/onnx_gate.pc" lib/pkgconfig/onnx_gate.pc
put_python

"$prefix/bin/onnx-gate" --version
env -u ONNX_GATE_LIB python3 -I -B -c 'import sys; sys.path.insert(0, sys.argv[1]); import onnx_gate' "$prefix/$modules"
whole=yes
