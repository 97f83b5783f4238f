# shellcheck shell=bash disable=SC2154,SC2035
# No file's name acts as an option, and none reaches a terminal raw.

test_words() {
    options_from_a_glob
    other_rules_from_a_glob
    late_options
    same "names" "$(script names "$gate" "$root/examples")" "as expected"
}

# A folder with a good model, a bad one, and a good one of a name that is an option: all are checked, or none is.
options_from_a_glob() {
    local name number=0
    for name in --help --version -h -V --json --odd -q --quiet --seed=1 --cells=9 --allow=ai.onnx:7-21 --operators=z -- - \
        --help=.onnx --version.onnx -h.onnx --json.onnx --odd.onnx -q.ONNX --seed=1.onnx --operators=z.onnx --=.onnx -.onnx; do
        number=$((number + 1))
        mkdir "$number" && cd "$number" || exit 2
        cp "$good" "./$name" && cp "$good" a.onnx && cp "$good" z && cp "$refused" zz.onnx
        try 2 '' "onnx-gate: *write ./$name*" check *
        try 2 '' "onnx-gate: *write ./$name*" check "$name"
        try 1 '*3 accepted, 1 refused, 0 not judged' '' check ./*
        expect 2 '' "onnx-gate: *write ./$name*" "$gate" pass "$name"
        cd .. || exit 2
    done
    # two words that make one option
    mkdir two && cd two || exit 2
    cp "$refused" z.onnx
    : >--operators && : >--seed
    try 2 '' '*' check -*
    rm -- --operators --seed && : >./7
    try 2 '' '*"7" may be a file: if none is meant, write --seed=7' check --seed 7 z.onnx
    try 1 'z.onnx: refused*' '' check --seed=7 z.onnx
    cd .. || exit 2
}

# A list that allows what the default one does not, under the name of an option and of a model.
other_rules_from_a_glob() {
    mkdir rules && cd rules || exit 2
    run "$gate" operators write list --allow ai.onnx:1-99 --allow com.example:1-99
    cp "$root/examples/14-opset-too-new.onnx" m.onnx
    cp list ./--operators=z.onnx && cp list z.onnx
    try 2 '' 'onnx-gate: "--operators=z.onnx" ends as the name of a model does*' check *.onnx
    rm -- --operators=z.onnx
    try 2 '' '*that is the name of a model*' check --operators z.onnx *.onnx
    try 0 'm.onnx: accepted*' '' check --operators list m.onnx
    try 1 'm.onnx: refused 14 *' '' check *.onnx
    cd .. || exit 2
}

late_options() {
    for word in --json --odd -q --help --version --operators=l -- --allow=:1-2; do
        try 2 '' "onnx-gate: \"$word\" stands behind a model*" check "$good" "$word"
        try 2 '' "onnx-gate: \"$word\" stands behind a model*" check "$good" "$word" "$good"
    done
    try 2 '' '*stands alone*' check --help "$good"
    try 2 '' '*stands alone*' check --version --json
    try 2 '' '*stands alone*' check --help --help
    try 2 '' '*there is no command "--help"*' --help "$good"
    try 2 '' '*takes no value*' check --json=1 "$good"
    try 2 '' '*takes no value*' check --odd=1 "$good"
    cp "$good" ./--b
    try 0 '*accepted*--b: accepted*' '' check -- "$good" --b
    try 2 '' '*is the name of a file here as well*' check --b
    rm ./--b
}
