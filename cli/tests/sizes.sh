# shellcheck shell=bash disable=SC2154
# Models of up to 2 GiB and files that are longer. All are mostly holes, and only what is copied takes memory.

# "${small[@]}" WORDS...: with no more in memory than a program of this size and its cells
small=(python3 "$root/cli/tests/peak.py" 16000)

test_sizes() {
    too_large
    if leases; then
        one_initializer
        late_faults
        in_a_folder
        under_a_writer
        same "while the file is cut" "$(sparse 20000000 late >/dev/null && script writer "$gate" late.onnx)" "as expected"
        rm -f late.onnx
    else
        echo "no leases on files in $work: what is mapped is not tried"
    fi
    copies
    repeated_names
    same "lengths" "$(script lengths "$gate" "$root/examples")" "as expected"
    largest_numbers
}

sparse() { script sparse "$root/examples" . "$@"; }

# Whether this user gets a lease on a file of this folder, and the command asks for one.
leases() {
    case $(stat -f -c %T .) in ext* | xfs | btrfs | f2fs | zfs | tmpfs | overlayfs) ;; *) return 1 ;; esac
    : >leased
    run python3 -c 'import fcntl; fcntl.fcntl(open("leased"), 1024, fcntl.F_RDLCK)' 2>/dev/null
}

too_large() {
    truncate -s 5G large.onnx && truncate -s 2147483648 above.onnx && truncate -s 2147483647 largest.onnx
    # a sound model of 19 bytes, if 32 bits were all that is counted
    printf '\x08\x08\x42\x02\x10\x0D\x3A\x0B\x12\x01g\x0A\x06\x12\x01a\x22\x01X' >wraps.onnx
    try 0 'wraps.onnx: accepted nodes 1 names 1 odd 0' '' check wraps.onnx
    truncate -s $((4294967296 + 19)) wraps.onnx
    for file in large above wraps; do
        expect 1 "$file.onnx: refused 7 at 0*" "*$file.onnx is larger than any model*" "${small[@]}" "$gate" check "$file.onnx"
        expect 1 '' "*$file.onnx: refused 7 at 0*" "${small[@]}" "$gate" pass "$file.onnx"
    done
    expect 1 '*"accepted":false,*"refusal":7,"place":0,*' '*' "${small[@]}" "$gate" check --json large.onnx
    expect 1 'largest.onnx: refused 3 at 0*  where  model > (unreadable tag)*' '' "${small[@]}" "$gate" check largest.onnx
    expect 1 '*above.onnx: refused 7 at 0*0 accepted, 4 refused, 0 not judged' '*' "${small[@]}" "$gate" check -q .
    rm ./*.onnx
}

# 1.9 GB of weights, and as many as a model may have: pages that nobody reads are not in memory.
one_initializer() {
    sparse 2147483647 accepted
    expect 0 'accepted.onnx: accepted nodes 1 names 2 odd 0' '' "${small[@]}" "$gate" check accepted.onnx
    sparse 2147483648 accepted
    expect 1 'accepted.onnx: refused 7 at 0*' '*' "${small[@]}" "$gate" check accepted.onnx
    sparse 1900000000 accepted
    expect 0 'accepted.onnx: accepted nodes 1 names 2 odd 0' '' "${small[@]}" "$gate" check accepted.onnx
    expect 0 'accepted.onnx: accepted nodes 1 names 2 odd 0' '' "${small[@]}" "$gate" check --odd accepted.onnx
    expect 0 '*"accepted":true,"nodes":1,"names":2,"odd":0,*' '' "${small[@]}" "$gate" check --json accepted.onnx
    expect 0 '' '' "${small[@]}" "$gate" check -q accepted.onnx
    rm accepted.onnx
}

# The fault is in the last bytes of nearly 2 GiB.
late_faults() {
    local file answer path
    sparse 2147483647 late past wraps again >expected
    same "models with late faults" "$(wc -l <expected)" 4
    while IFS=: read -r file answer path; do
        run "${small[@]}" "$gate" check "$file" >"$work/out" 2>&1
        same "status of $file" $? 1
        same "answer to $file" "$(head -1 "$work/out")" "$file:$answer"
        same "path in $file" "$(sed -n 's/^  where  //p' "$work/out")" "${path# }"
        run "$gate" check --json "$file" >"$work/out"
        same "places of $file in JSON" "$(sed 's/.*"place":\([0-9]*\),"first":\(.*\),"rule":.*/\1 first \2/' "$work/out")" \
            "$(sed 's/.* at //; / first /! s/$/ first null/' <<<"$answer")"
    done <expected
    rm ./*.onnx
}

in_a_folder() {
    mkdir models && cp "$good" models/a.onnx
    (cd models && sparse 1900000000 accepted late >/dev/null)
    expect 1 "models/late.onnx: refused 30 at *"$'\n''2 accepted, 1 refused, 0 not judged' '' \
        "${small[@]}" "$gate" check -q models
    same "JSON of a folder with large models" "$(run "$gate" check --json models | grep -c '"accepted":\(true\|false\)')" 3
    rm -r models
}

# Under a writer, and where the user may have no lease, a copy is judged.
under_a_writer() {
    sparse 20000000 accepted
    exec 7>>accepted.onnx
    try 0 'accepted.onnx: accepted nodes 1 names 2 odd 0' '' check accepted.onnx
    run "${small[@]}" "$gate" check accepted.onnx >/dev/null 2>&1
    same "a copy under a writer" $? 99
    exec 7>&-
    expect 0 'accepted.onnx: accepted nodes 1 names 2 odd 0' '' "${small[@]}" "$gate" check accepted.onnx
    if [ "$(id -u)" = 0 ] && command -v setpriv >/dev/null; then
        chown 65534 accepted.onnx
        expect 0 'accepted.onnx: accepted nodes 1 names 2 odd 0' '' setpriv --bounding-set=-lease "$gate" check accepted.onnx
        run "${small[@]}" "$(command -v setpriv)" --bounding-set=-lease "$gate" check accepted.onnx >/dev/null 2>&1
        same "a copy of another user's file" $? 99
    fi
    rm accepted.onnx
}

# The model and 20 MB where it is copied: from a pipe, from standard input, and to be written out.
copies() {
    local most=$((200000000 / 1024 + 20000))
    sparse 200000000 accepted
    run python3 "$root/cli/tests/peak.py" "$most" "$gate" check - <accepted.onnx >"$work/out"
    same "standard input" "$?: $(cat "$work/out")" "0: -: accepted nodes 1 names 2 odd 0"
    run cat accepted.onnx | run python3 "$root/cli/tests/peak.py" "$most" "$gate" check - >"$work/out"
    same "a pipe" "$?: $(cat "$work/out")" "0: -: accepted nodes 1 names 2 odd 0"
    run python3 "$root/cli/tests/peak.py" "$most" "$gate" pass accepted.onnx 2>"$work/err" | cmp - accepted.onnx
    same "pass" "${PIPESTATUS[*]}: $(cat "$work/err")" "0 0: accepted.onnx: accepted nodes 1 names 2 odd 0"
    rm accepted.onnx
}

# Room for millions of names is real only where one is kept: 10 MB beside the model, mapped or copied.
repeated_names() {
    local file answer most=$((70000000 / 1024))
    script repeated "$root/examples" . >expected
    same "models that repeat a name" "$(wc -l <expected)" 6
    while IFS=: read -r file answer; do
        expect 1 "$file:$answer"$'\n*' '' python3 "$root/cli/tests/peak.py" "$most" "$gate" check "$file"
        run python3 "$root/cli/tests/peak.py" "$most" "$gate" check - <"$file" >"$work/out" 2>"$work/err"
        same "a copy of $file" "$?: $(head -1 "$work/out")$(cat "$work/err")" "1: -:$answer"
    done <expected
    rm ./*.onnx
}

largest_numbers() {
    expect 0 '*: accepted nodes 2 names 4 odd 0' '' "${within[@]}" 32000 "$gate" check --cells 2147483647 "$good"
    try 2 '' '*"2147483648" is not a number from 0 to 2147483647' check --cells 2147483648 "$good"
    truncate -s 67108864 longest.lst && truncate -s 67108865 longer.lst
    try 1 '*: refused 8 at 0*' '*longest.lst is not a sound operator list*' check --operators longest.lst "$good"
    try 2 '' 'onnx-gate: longer.lst: has more than 67108864 bytes, too many for an operator list' \
        check --operators longer.lst "$good"
    try 2 '' 'onnx-gate: longer.lst: has more than *' operators show longer.lst
    rm ./*.lst
}
