# shellcheck shell=bash disable=SC2154
# `pass` writes the bytes that were checked, and only if they are accepted.

# passes STATUS NAME ERR WORDS...: what comes out is the file of that name, whole, or nothing where the name is empty
passes() {
    run "$gate" pass "${@:4}" >"$work/out" 2>"$work/err" </dev/null
    same "status of pass ${*:4}" $? "$1"
    holds "bytes of pass ${*:4}" cmp -s "${2:-/dev/null}" "$work/out"
    # shellcheck disable=SC2053
    if [[ $(cat "$work/err") == $3 ]]; then ok; else bad "messages of pass ${*:4}: $(head -3 "$work/err")"; fi
}

test_pass() {
    passes 0 "$good" "$good: accepted nodes 2 names 4 odd 0" "$good"
    passes 0 "$good" '*: accepted*' --seed 3 --cells 8 --allow ai.onnx:7-21 "$good"
    passes 1 '' '*: refused 30 at *  where  *' "$refused"
    passes 1 '' '*: refused 40 at *' --cells 7 "$good"
    passes 1 '' '*: refused 23 at 159 first 135'$'\n*' "$root/examples/23-defined-twice.onnx"
    passes 1 '' '*: refused 14 at *' --allow ai.onnx:1-2 "$good"
    passes 2 '' 'onnx-gate: no-such: no such file' no-such
    passes 2 '' '*no.lst: no such file' --operators no.lst "$good"
    passes 2 '' '*one model*'
    passes 2 '' '*one model*' "$good" "$good"
    passes 2 '' '*no option "--json"*' --json "$good"
    passes 2 '' '*no option "-q"*' -q "$good"
    run "$gate" pass - <"$good" >copy 2>/dev/null
    same "status of standard input" $? 0
    holds "bytes of standard input" cmp -s copy "$good"
    run "$gate" pass - <"$refused" >copy 2>/dev/null
    same "status of standard input, refused" $? 1
    same "bytes of standard input, refused" "$(wc -c <copy)" 0
    where_nothing_can_be_written
    while_the_file_changes
    same "pass on a terminal" "$(script pass_terminal "$gate" "$good")" "as expected"
}

where_nothing_can_be_written() {
    run "$gate" pass "$good" 2>"$work/err" >/dev/full
    same "status of a full device" $? 2
    same "message of a full device" "$(tail -1 "$work/err" | cut -d: -f1-2)" "onnx-gate: cannot write"
    run "$gate" pass "$good" 2>/dev/null 1</dev/null
    same "status of a descriptor for reading" $? 2
    # with a doc_string of a megabyte, more than a pipe holds
    { cat "$good" && printf '\x32\x80\x80\x40' && head -c 1048576 /dev/zero; } >large.onnx
    passes 0 large.onnx '*: accepted*' large.onnx
    run "$gate" pass large.onnx 2>/dev/null | head -c 9 >/dev/null
    same "status of a reader that stops" "${PIPESTATUS[0]}" 2
    run "$gate" pass "$good" 2>/dev/full >copy
    same "status where the verdict cannot be told" $? 2
    same "bytes where the verdict cannot be told" "$(wc -c <copy)" 0
}

# A file that another one replaces again and again: what comes out was accepted, or nothing does.
while_the_file_changes() {
    local found=0 swapper
    cp "$good" m.onnx
    (for _ in $(seq 2000); do cp "$refused" other && mv other m.onnx && cp "$good" other && mv other m.onnx; done) &
    swapper=$!
    for _ in $(seq 100); do
        if run "$gate" pass m.onnx >copy 2>/dev/null; then cmp -s copy "$good" || found=1; else [ ! -s copy ] || found=1; fi
    done
    kill "$swapper" && wait "$swapper" 2>/dev/null
    same "while the file changes" "$found" 0
}
