#!/usr/bin/env bash
# Real models through the command: what onnx-gate answers to each *.onnx below a folder, as a histogram. Not part of the gate.
#
#   tests/real.sh [FOLDER] [-- OPTIONS of onnx-gate check]
#
# FOLDER: by default that of Debian's libonnx-testdata (apt-get install libonnx-testdata).
# ONNX_GATE names the command; by default it is the one that ./gate builds.
set -eu
unset CDPATH
root=$(cd "$(dirname "$0")/.." && pwd)
command=${ONNX_GATE:-$root/target/cli/release/onnx-gate}

fail() {
    echo "real.sh: $1" >&2
    exit 2
}

# Where the package's models are; empty where it is not installed.
testdata() {
    dpkg -L libonnx-testdata 2>/dev/null | grep -m 1 '/data$' || true
}

# The command's answers. Status 1 says that some were refused, which is no failure here.
answers() {
    local folder=$1
    shift
    find "$folder" -name '*.onnx' -print0 | sort -z |
        xargs -0 -r -n 200 bash -c '"$@" || [ $? -eq 1 ]' _ "$@"
}

# One line for each answer: how often, what, the rule, and the first file that had it.
histogram() {
    awk -v folder="$1/" '
        match($0, /: accepted nodes [0-9]+ names [0-9]+ odd [0-9]+$/) { note("accepted"); if ($NF > 0) odd++; next }
        match($0, /: refused [0-9]+ at [0-9]+( first [0-9]+)?$/) { split(substr($0, RSTART + 2), words, " "); note("refused " words[2]); next }
        /^  rule / && !(last in rule) { sub(/^  rule +/, ""); rule[last] = $0 }
        function note(answer,   file) {
            last = answer; total++
            if (count[answer]++) return
            file = substr($0, 1, RSTART - 1)
            if (index(file, folder) == 1) file = substr(file, length(folder) + 1)
            first[answer] = file
        }
        END {
            for (answer in count)
                printf "%6d  %-11s %s%s\n", count[answer], answer, (answer in rule ? rule[answer] "; " : ""), "first: " first[answer] | "sort -rn"
            close("sort -rn")
            printf "%6d  models; %d are accepted with names that are no identifiers\n", total, odd
        }'
}

folder=
case ${1:---} in --) ;; *) folder=$1; shift ;; esac
[ "${1:-}" != -- ] || shift
folder=${folder:-$(testdata)}
[ -n "$folder" ] || fail "no folder given, and libonnx-testdata is not installed (apt-get install libonnx-testdata)"
[ -d "$folder" ] || fail "$folder: no such folder"
[ -x "$command" ] || fail "$command: no such command (./gate builds it, or ONNX_GATE names another)"
[ -n "$(find "$folder" -name '*.onnx' -print -quit)" ] || fail "no *.onnx below $folder"
answers "$folder" "$command" check "$@" | histogram "$folder"
[ "${PIPESTATUS[0]}" = 0 ] || fail "some models could not be read"
