# shellcheck shell=bash disable=SC2154
# Folders, what is in them that is no model, --quiet, and the count at the end.

test_files() {
    a_folder
    what_is_no_model
    quiet
}

a_folder() {
    mkdir -p models/deep/er models/.hidden
    cp "$good" models/b.onnx && cp "$good" models/.hidden/c.Onnx && cp "$good" models/note.txt
    cp "$refused" models/deep/er/A.ONNX
    ln -s ../note.txt models/deep/link.onnx
    ln -s .. models/deep/loop
    expect 1 'models/.hidden/c.Onnx: accepted*models/b.onnx: accepted*models/deep/er/A.ONNX: refused 30*
models/deep/link.onnx: accepted*
3 accepted, 1 refused, 0 not judged' 'onnx-gate: models/deep/loop: is a link to a folder, and not followed' "$gate" check models
    try 1 '*4 accepted, 1 refused, 0 not judged' '*' check models "$good"
    try 1 'models/deep/er/A.ONNX: refused*1 accepted, 1 refused, 0 not judged' '*' check models/deep/
    try 1 '*1 accepted, 1 refused*' '*' check models/deep/loop/deep
    rm models/deep/er/A.ONNX
    try 0 '*3 accepted, 0 refused, 0 not judged' '*' check models
    same "JSON of a folder" "$(run "$gate" check --json models 2>/dev/null | grep -c '^{.*}$')" 3
    rm -r models
}

# Each of these is told, counted, and does not keep the others from being checked. None is waited for.
what_is_no_model() {
    mkdir none models && : >none/a.txt
    try 2 '0 accepted, 0 refused, 1 not judged' 'onnx-gate: none: holds no .onnx file; nothing was checked' check none
    try 2 '{"file":"none"*"accepted":null*"error":"holds no .onnx file; nothing was checked"}' '*' check --json none
    try 2 '*1 accepted, 0 refused, 1 not judged' '*none: holds no*' check none "$good"
    cp "$good" models/good.onnx
    mkfifo models/fifo.onnx && ln -s /dev/zero models/device.onnx && ln -s ../none models/folder.onnx && ln -s gone models/gone.onnx
    mkdir models/inner.onnx && cp "$good" models/inner.onnx/x.onnx
    try 2 'models/good.onnx: accepted*models/inner.onnx/x.onnx: accepted*2 accepted, 0 refused, 4 not judged' \
        '*device.onnx: is not a reg*fifo.onnx: is not a reg*folder.onnx: is not a reg*gone.onnx: no such file' check models
    try 2 '' 'onnx-gate: models/fifo.onnx: is not a regular file' check models/fifo.onnx
    try 2 '' 'onnx-gate: models/fifo.onnx: is not a regular file' pass models/fifo.onnx
    try 2 '' 'onnx-gate: models: is a directory' pass models
    # shellcheck disable=SC2016
    expect 0 '/dev/fd/*: accepted*' '' bash -c '"$1" check <(cat "$2")' - "$gate" "$good"
    rm models/*.onnx 2>/dev/null
    mkdir models/closed && chmod 0 models/closed
    if ! ls models/closed >/dev/null 2>&1; then
        try 2 '*1 accepted, 0 refused, 1 not judged' 'onnx-gate: models/closed: permission denied' check models
    else # root may read it all the same; a folder whose path is too long to open serves as well
        too_long
    fi
    chmod 755 models/closed && rm -r models none
}

too_long() {
    local part
    part=$(printf '%0200d' 0)
    (cd models/closed && for _ in $(seq 25); do mkdir "$part" && cd "$part" || exit; done)
    try 2 '*1 accepted, 0 refused, 1 not judged' 'onnx-gate: models/closed/0*File name too long*' check models
}

quiet() {
    try 0 '' '' check -q "$good"
    try 0 '2 accepted, 0 refused, 0 not judged' '' check --quiet "$good" "$good"
    try 1 "$refused: refused 30 at 159"$'\n''1 accepted, 1 refused, 0 not judged' '' check -q "$good" "$refused"
    try 2 '' '*no such file' check -q no-such
}
