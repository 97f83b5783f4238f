# shellcheck shell=bash disable=SC2154
# IR versions: which are taken, and what an initializer may be called at version 3 and later.

test_versions() {
    edges
    defaults_only
    overloads
}

# M0 with the version in two hex digits, before its graph and behind it.
edges() {
    local rest='\x42\x02\x10\x0D\x3A\x03\x12\x01g' version
    for version in 03 04 0A 0B; do
        # shellcheck disable=SC2059
        printf "\x08\x$version$rest" >first.onnx && printf "$rest\x08\x$version" >last.onnx
        try 0 $'first.onnx: accepted*\nlast.onnx: accepted*\n2 accepted, *' '' check first.onnx last.onnx
    done
    for version in 02 0C; do
        # shellcheck disable=SC2059
        printf "\x08\x$version$rest" >first.onnx && printf "$rest\x08\x$version" >last.onnx
        try 1 "*: refused 10 at 0"$'\n'"*ir_version must be 3 to 11"$'\n  where  ir_version\n'"  note   ir_version is $((16#$version))"$'\n*' '' \
            check first.onnx
        try 1 $'*: refused 10 at 9\n*' '' check last.onnx
    done
}

# The example at another version, a hex digit, which is its second byte.
at() {
    # shellcheck disable=SC2059
    { printf "\x08\x0$1" && tail -c +3 "$root/examples/$2.onnx"; } >"$2.onnx"
}

defaults_only() {
    local body='node?0? "over_words" > attribute?0? "body" > g' json='*"refusal":43,"place":329,"first":null,*"name":"decay",*'
    at 3 ok-ir-3-defaults && at 3 43-outer-name
    for more in --cells=20 --cells=21 --seed=0 --seed=7; do
        try 0 'ok-ir-3-defaults.onnx: accepted nodes 5 names 10 odd 1' '' check $more ok-ir-3-defaults.onnx
        try 1 '43-outer-name.onnx: refused 43 at 329' '' check -q $more 43-outer-name.onnx
    done
    try 1 '*: refused 40 at *' '' check --cells 19 ok-ir-3-defaults.onnx
    try 1 "$json"'"notes":\["the inputs of its graph are *","the name is also that of graph > input?3? *"\]*' '' check --json 43-outer-name.onnx
    try 1 '' $'43-outer-name.onnx: refused 43 at 329\n*the name is also that of graph > input?3? "decay"\n*' pass 43-outer-name.onnx
    # later both are names that are visible, whichever graph has the input
    for version in 4 A B; do
        at $version ok-ir-3-defaults && at $version 43-outer-name
        try 1 "*: refused 23 at 329 first *defined first at *, graph > $body > input?3? \"gain\" > name*" '' check ok-ir-3-defaults.onnx
        try 1 '*: refused 23 at 329 first *defined first at *, graph > input?3? "decay" > name*' '' check 43-outer-name.onnx
    done
    at 3 ok-network && at 4 43-initializer-not-input
    try 1 $'ok-network.onnx: refused 43 at 58\n*the input of its graph is "x"\n*' '' check ok-network.onnx
    try 0 '*: accepted nodes 2 names 4 odd 0' '' check 43-initializer-not-input.onnx
    rm ./*.onnx
}

# An overload tells functions apart from version 10 on. The example has two of one name.
overloads() {
    for version in A B; do
        at $version ok-overloads
        try 0 'ok-overloads.onnx: accepted*' '' check ok-overloads.onnx
    done
    for version in 4 9; do
        at $version ok-overloads
        try 1 $'*: refused 41 at *first at *, functions?0? "aten_add"\n*apart from IR version 10 on, and ir_version is '"$version"$'\n*' '' \
            check ok-overloads.onnx
    done
    rm ok-overloads.onnx
}
