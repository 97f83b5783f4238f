#!/usr/bin/env bash
# Runs the command on the examples and on bad input, and holds output and exit status to what is expected.
# The library must be there (./gate builds it). `cli/test.sh --accept` writes the expected output anew.
set -u
unset CDPATH GATE_LIB_DIR CARGO_TARGET_DIR CARGO_BUILD_TARGET NO_COLOR POSIXLY_CORRECT ONNX_GATE_LIB PYTHONPATH PKG_CONFIG_PATH \
    LD_LIBRARY_PATH CC
export LC_ALL=C PYTHONDONTWRITEBYTECODE=1
root=$(cd "$(dirname "$0")/.." && pwd)
gate=$root/target/cli/release/onnx-gate
export good=$root/examples/ok-network.onnx refused=$root/examples/30-undefined.onnx
work=$(mktemp -d)
trap 'rm -rf "$work"' EXIT
passed=0 failed=0

timeout 300 cargo build -j1 --offline --release --quiet --manifest-path "$root/cli/Cargo.toml" --target-dir "$root/target/cli" ||
    exit 2

ok() { passed=$((passed + 1)); }
bad() { failed=$((failed + 1)); echo "FAILED: $1"; }
# holds WHAT WORDS...: whether the words succeed
holds() { if "${@:2}"; then ok; else bad "$1"; fi; }
same() { if [ "$2" = "$3" ]; then ok; else bad "$1: expected <$3>, got <$2>"; fi; }

# Nothing may hang: a command that does is ended, with 124.
run() { timeout 60 "$@"; }
# "${within[@]}" KILOBYTES WORDS...: with no more memory than that
# shellcheck disable=SC2016,SC2034
within=(bash -c 'ulimit -v "$0" && exec "$@"')
script() { run python3 "$root/cli/tests/$1.py" "${@:2}" 2>&1; }

# expect STATUS OUT ERR WORDS...: runs the words; OUT and ERR are patterns of bash, whole
expect() {
    local status=$1 out=$2 err=$3 found
    shift 3
    run "$@" >"$work/out" 2>"$work/err" </dev/null
    found=$?
    same "status of $*" "$found" "$status"
    # shellcheck disable=SC2053
    if [[ $(cat "$work/out") == $out ]]; then ok; else bad "output of $*: $(head -3 "$work/out")"; fi
    # shellcheck disable=SC2053
    if [[ $(cat "$work/err") == $err ]]; then ok; else bad "messages of $*: $(head -3 "$work/err")"; fi
}
# the same of the command
try() { expect "$1" "$2" "$3" "$gate" "${@:4}"; }

for part in answers versions sizes words files pass gate install; do
    # shellcheck source=/dev/null
    . "$root/cli/tests/$part.sh"
done

in_folder() { mkdir "$work/$1" && cd "$work/$1" && "$@"; }
in_folder test_answers "$@"
for part in versions sizes words files pass gate install; do in_folder "test_$part"; done
echo "$passed passed, $failed failed"
[ "$failed" -eq 0 ]
