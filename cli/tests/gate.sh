# shellcheck shell=bash disable=SC2154,SC2035
# The script ./gate, in a copy whose path has a space in it. `rt` is one of our own, which works in crates/gate_c: nothing is proved here.

test_gate() {
    copy="$work/a copy"
    mkdir -p "$copy/target/staticlib" "$copy/bindings" bin "in between"
    cp -r "$root"/{gate,tools,crates.txt,examples} "$copy"
    # without the folders in which rt keeps its work
    tar -C "$root" --anchored --no-wildcards-match-slash --exclude='crates/*/out' -c crates | tar -C "$copy" -x
    copied_rust
    cp "$root/target/staticlib/libgate_c.a" "$copy/target/staticlib"
    cp "$root/target/staticlib/libgate_c.a" proved.a
    touch "$copy/target/staticlib/libgate_c.a"
    printf '#!/bin/sh\necho rt is not to be called\nexit 1\n' >bin/rt && chmod +x bin/rt
    local PATH=$PWD/bin:$PATH
    ln -s "$copy/gate" "in between/first" && ln -s "in between/first" linked
    cp "$good" good.onnx && cp "$refused" refused.onnx
    built_in_any_environment
    commands
    stale_command
    stale_library
}

# without what was built
copied_rust() {
    mkdir "$copy/cli" "$copy/bindings/rust"
    cp -r "$root"/cli/{src,tests,Cargo.toml,Cargo.lock,install.sh} "$copy/cli"
    cp -r "$root"/bindings/rust/{src,*.rs,Cargo.toml,Cargo.lock} "$copy/bindings/rust"
    cp -r "$root"/bindings/{c,python} "$copy/bindings"
}

# As variables and as a link to a link, all at once.
built_in_any_environment() {
    mkdir elsewhere copy
    expect 0 'good.onnx: accepted nodes 2 names 4 odd 0' '' env CDPATH="$work:/:." GATE_LIB_DIR="$PWD/elsewhere" CARGO_BUILD_JOBS=1 \
        CARGO_TARGET_DIR="$PWD/elsewhere" CARGO_BUILD_TARGET=x86_64-unknown-none ./linked good.onnx
    same "what was built elsewhere" "$(ls elsewhere)" ""
    expect 1 'refused.onnx: refused 30*' '' bash linked refused.onnx
    expect 0 '*: accepted*' '' env CDPATH=/ "../a copy/gate" good.onnx
    expect 0 '*"accepted":true*' '' env POSIXLY_CORRECT=1 "$copy/gate" --json good.onnx
}

commands() {
    expect 0 ' 1  past-end*' '' ./linked rules
    expect 0 '' '' ./linked operators write l --allow :7-21
    expect 0 'ai.onnx:7-21' '' ./linked operators show l
    expect 0 'good.onnx: accepted*' '' ./linked check --operators l good.onnx
    expect 1 'refused.onnx: refused 30 at 159' '' ./linked -q refused.onnx
    run ./linked pass good.onnx 2>/dev/null >passed
    holds "./gate pass" cmp -s passed good.onnx
    expect 0 'Checks ONNX models*' '' ./linked --help
    expect 0 'Checks ONNX models*' '' ./linked help
    expect 0 'onnx-gate [0-9]*' '' ./linked -V
    expect 2 '' '*' ./linked --help good.onnx
    expect 2 '' '*no such file' ./linked ''
    expect 2 '' 'gate: usage*' ./linked install
    expect 0 '*installed *onnx-gate [0-9]*' '' ./linked install "a prefix"
    expect 1 "*$(find "$root/examples" -name '[0-9]*.onnx' | wc -l) refused, 0 not judged" '*these were the examples*' ./linked
    : >rules && ln -s nowhere check
    expect 2 '' 'gate: rules is a command, and a file here as well: for the file write ./rules*' ./linked rules
    expect 2 '' 'gate: check is a command*' ./linked check good.onnx
    expect 1 './rules: refused 10*' '*' ./linked ./rules
    rm rules check
    mkdir glob && cd glob || exit 2
    cp "$good" a.onnx && cp "$good" ./--help=.onnx
    expect 2 '' '*write ./--help=.onnx*' ../linked *.onnx
    rm ./*.onnx && : >--help
    expect 2 '' '*' ../linked *
    cd .. || exit 2
}

# A command that is older than its sources is never run, whatever cargo says.
stale_command() {
    printf '#!/bin/sh\nexit %s\n' 0 >bin/cargo && chmod +x bin/cargo
    touch "$copy/cli/src/main.rs"
    expect 2 '' 'gate: cargo put the command elsewhere*' ./linked good.onnx
    printf '#!/bin/sh\nexit %s\n' 1 >bin/cargo
    expect 2 '' 'gate: the command is not built' ./linked good.onnx
    # in place of a build
    printf '#!/bin/sh\ncp %q "%s"\n' "$gate" "$copy/target/cli/release/onnx-gate" >bin/cargo
    expect 0 '*: accepted*' '' ./linked good.onnx
}

stale_library() {
    local made
    made="cp $(printf %q "$PWD/proved.a") out/libgate_c.a"
    touch "$copy/crates/gate/src/checks.rt"
    # what rt wrote before a proof failed
    mkdir "$copy/crates/gate_c/out" && (cd "$copy/crates/gate_c" && eval "$made")
    printf '#!/bin/sh\nseq 1000\nexit 1\n' >bin/rt
    expect 2 '' $'gate: proving the library*five minutes*\n981\n*1000\ngate: the library is not proved*' ./linked good.onnx
    # one line and no progress, once
    printf '#!/bin/sh\nseq 1000\n%s\n' "$made" >bin/rt
    expect 0 '*: accepted*' 'gate: proving the library*five minutes on two cores, once' ./linked good.onnx
    expect 0 '*: accepted*' '' ./linked good.onnx
    # what rt keeps is no source
    touch "$copy/crates/gate_c/out/kept"
    expect 0 '*: accepted*' '' ./linked good.onnx
    # a source that changes while it is proved is proved again
    printf '#!/bin/sh\nsleep 0.1\ntouch ../gate/src/checks.rt\n%s\n' "$made" >bin/rt && touch "$copy/crates.txt"
    expect 0 '*: accepted*' 'gate: proving*' ./linked good.onnx
    expect 0 '*: accepted*' 'gate: proving*' ./linked good.onnx
    printf '#!/bin/sh\nexit 0\n' >bin/rt && touch "$copy/crates.txt"
    expect 2 '' '*rt wrote no library*' ./linked good.onnx
}
