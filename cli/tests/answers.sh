# shellcheck shell=bash disable=SC2154
# Answers, explanations and their limits; `expect`, `try` and `same` are those of cli/test.sh.

test_answers() {
    examples "$@"
    as_json
    both_places
    odd_names
    not_text
    bad_input
    padding
    dear_explanations
    many_names
    operator_lists
    said
    same "functions" "$(script functions "$gate" "$root/examples")" "as expected"
    same "terminal" "$(script terminal "$gate" "$root/examples")" "as expected"
}

examples() {
    local file number answer
    cd "$root/examples" || exit 2
    mkdir "$work/made" && run python3 make.py "$work/made" >/dev/null
    same "examples made again" "$(diff -rq "$work/made" . | grep -v 'Only in .: make.py')" ""
    run "$gate" check ./*.onnx >"$work/examples.txt" 2>/dev/null
    same "status of the examples" $? 1
    if [ "${1:-}" = --accept ]; then cp "$work/examples.txt" "$root/cli/tests/examples.txt"; fi
    same "output for the examples" "$(diff "$root/cli/tests/examples.txt" "$work/examples.txt")" ""
    for file in ./*.onnx; do
        number=$(basename "$file" | cut -d- -f1 | sed 's/^0//')
        answer=$(grep -F "$file: " "$work/examples.txt" | cut -d: -f2)
        case $answer in
        " accepted nodes "*) same "$file" "$number" ok ;;
        *) same "$file" "$(cut -d' ' -f2-3 <<<"$answer")" "refused $number" ;;
        esac
    done
    try 0 '*: accepted nodes 9 names 13 odd 0' '' check ok-tagger.onnx
    for cells in 26 27; do try 0 '*: accepted nodes 9 names 13 odd 0' '' check --cells $cells ok-tagger.onnx; done
    for cells in 25 24 1 0; do
        try 1 "*: refused 40 at *there are $cells cells, 2 for each name*" '' check --cells $cells ok-tagger.onnx
    done
    try 1 '*: refused 14 at *list allows 7 to 12*' '' check --allow ai.onnx:7-12 ok-tagger.onnx
    try 0 '*accepted*accepted*'$'\n''2 accepted, 0 refused, 0 not judged' '' check ok-tagger.onnx ok-network.onnx
    for seed in 0 1 18446744073709551615 0xfedcba9876543210; do
        run "$gate" check --seed "$seed" ./*.onnx >"$work/out" 2>/dev/null
        same "examples with seed $seed" "$(diff "$root/cli/tests/examples.txt" "$work/out")" ""
    done
    cd "$work/test_answers" || exit 2
}

as_json() {
    run "$gate" check --json "$root"/examples/*.onnx no-such.onnx 2>/dev/null >"$work/json"
    same "status with --json" $? 2
    same "JSON" "$(script json_agrees "$work/json" "$root/cli/tests/examples.txt")" "agrees"
    # without its list no model is judged, and each has a line all the same
    try 2 '{"file":"a"*"accepted":null*no.lst: no such file"}'$'\n''{"file":"b"*}' '*' check --json --operators no.lst a b
}

# A name that is defined twice: the line, JSON and the explanation show where it was defined first, as the library says.
both_places() {
    local twice=$root/examples/23-defined-twice.onnx default=$root/examples/23-default-twice.onnx file
    local line=': refused 23 at 159 first 135' json='*"refusal":23,"place":159,"first":135,*'
    local note='  note   defined first at 135, graph > node?0? "dense1" > output?0?'
    for more in --cells=26 --cells=27 --seed=0 --seed=7; do
        try 1 "$twice$line"$'\n*\n'"$note"$'\n*' '' check $more "$twice"
        try 1 "$json" '' check --json $more "$twice"
    done
    try 1 "$twice$line" '' check -q "$twice"
    try 1 "$twice$line"$'\n''1 accepted, 1 refused, 0 not judged' '' check -q "$good" "$twice"
    try 1 "$good: accepted*$twice$line*$refused: refused 30 at 159"$'\n*1 accepted, 2 refused, 0 not judged' '' \
        check "$good" "$twice" "$refused"
    try 1 $'*"accepted":true,*"first":null,*\n'"$json"$'\n*"refusal":30,"place":159,"first":null,*' '' \
        check --json "$good" "$twice" "$refused"
    try 1 '' "$twice$line"$'\n*defined first at 135, graph > *' pass "$twice"
    run "$gate" check -q - <"$twice" >"$work/out"
    same "a second definition in standard input" "$(cat "$work/out")" "-$line"
    # the input's place, and not that of its default; and one behind the refusal's, as inputs are judged first
    try 1 '*: refused 23 at 156 first 52*defined first at 52, graph > input?1? "w" > name*' '' check "$default"
    file=$root/examples/23-inputs-last.onnx
    try 1 '*: refused 23 at 109 first 130*defined first at 130, graph > input?0? "x" > name*' '' check "$file"
    try 1 '*"refusal":23,"place":109,"first":130,*' '' check --json "$file"
    printf '\x08\x08\x42\x02\x10\x0D\x3A\x1E\x12\x01g\x2A\x05\x42\x01w\x10\x01\x2A\x05\x42\x01w\x10\x01' >defaults.onnx
    printf '\x5A\x0B\x0A\x01w\x12\x06\x0A\x04\x08\x01\x12\x00' >>defaults.onnx
    try 1 'defaults.onnx: refused 23 at 20 first 27*' '' check defaults.onnx
    # with no room for the first there is no second
    printf '\x08\x08\x42\x02\x10\x0D\x3A\x0E\x12\x01g\x0A\x09\x12\x01a\x12\x01a\x22\x01X' >twice.onnx
    for cells in 2 3; do try 1 'twice.onnx: refused 23 at 16 first 13' '' check -q --cells $cells twice.onnx; done
    for cells in 0 1; do try 1 'twice.onnx: refused 40 at 13' '' check -q --cells $cells twice.onnx; done
    rm ./*.onnx
}

# Names that are not identifiers: how many is the library's to say, and --odd lists as many.
odd_names() {
    local exported=$root/examples/ok-exported-names.onnx line=': accepted nodes 2 names 5 odd 8' list
    list=$(printf '\n  odd    graph > %s' \
        'input?0? "x" > type > tensor_type > shape > dim?0? > dim_param: "batch-size"' \
        'initializer?1? "encoder.bias" > name: "encoder.bias"' \
        'node?0? "/encoder/MatMul" > output?0?: "/encoder/MatMul_output_0"' \
        'node?0? "/encoder/MatMul" > name: "/encoder/MatMul"' \
        'node?1? "/encoder/Add" > input?0?: "encoder.bias"' \
        'node?1? "/encoder/Add" > input?1?: "/encoder/MatMul_output_0"' \
        'node?1? "/encoder/Add" > name: "/encoder/Add"' \
        'output?0? "y" > type > tensor_type > shape > dim?0? > dim_param: "batch-size"')
    same "odd names" "$(script odd "$gate" "$root/examples")" "as expected"
    try 0 "$exported$line" '' check "$exported"
    try 0 "$exported$line$list" '' check --odd "$exported"
    try 0 "$good: accepted nodes 2 names 4 odd 0"$'\n'"$exported$line$list"$'\n2 accepted, 0 refused, 0 not judged' '' \
        check --odd "$good" "$exported"
    try 0 '*"odd":8,*,"odd_names":null,"error":null}' '' check --json "$exported"
    try 0 '*"odd":8,*,"odd_names":\[{"place":*,"path":"*","name":"batch-size",*},{*"/encoder/Add",*}\],"error":null}' '' \
        check --odd --json "$exported"
    try 0 '*"odd":0,*,"odd_names":\[\],"error":null}' '' check --odd --json "$good"
    # a model that is refused has no list, and one that is not there neither
    run "$gate" check --odd "$refused" >"$work/out"
    same "a refused model with --odd" "$(cat "$work/out")" "$(run "$gate" check "$refused")"
    try 1 '*"odd":null,*,"odd_names":null,"error":null}' '' check --odd --json "$refused"
    try 2 '*"odd":null,*,"odd_names":null,"error":"no such file"}' '*' check --odd --json no-such.onnx
    run "$gate" check --odd "$exported" >/dev/full 2>/dev/null
    same "status where no list can be written" $? 2
    many_odd_names
}

# A list is as quick as the file is long, and takes no memory.
many_odd_names() {
    script large "$root/examples" . odd
    run python3 "$root/cli/tests/peak.py" 20000 "$gate" check --odd odd.onnx >"$work/out"
    same "status of many odd names" $? 0
    same "many odd names" "$(head -1 "$work/out"), $(grep -c '^  odd    ' "$work/out")" \
        "odd.onnx: accepted nodes 1 names 300000 odd 300001, 300001"
    run "$gate" check --odd --json odd.onnx >"$work/out"
    same "many odd names in JSON" "$(grep -o '"name_hex"' "$work/out" | wc -l)" 300002
    rm odd.onnx "$work/out"
}

# What is not UTF-8, and where that begins.
not_text() {
    local start='\x08\x08\x42\x02\x10\x0D\x3A\x05\x12\x03' name why
    while read -r name why; do
        # shellcheck disable=SC2059
        printf "$start$name" >name.onnx
        try 1 "name.onnx: refused 21 at 8"$'\n*\n'"  where  graph > name"$'\n*\n'"  note   not UTF-8 at $why"$'\n*' '' \
            check name.onnx
    done <<'END'
a\xC3/ 11, offset 1 in the name: a character that is cut off
ab\xE2 12, offset 2 in the name: a character that is cut off
ab\xA9 12, offset 2 in the name: a tail with no lead before it
a\xC0\x80 11, offset 1 in the name: an overlong form
\xE0\x9F\xBF 10, offset 0 in the name: an overlong form
\xED\xA0\x80 10, offset 0 in the name: a surrogate
\xF4\x90\x80 10, offset 0 in the name: above U+10FFFF
a\xFFb 11, offset 1 in the name: a byte that no character has
END
    for name in 'a/b' '\xE0\xA0\x80' '\xED\x9F\xBF' '\x00\x1B\x7F' '\xEF\xBB\xBF'; do
        # shellcheck disable=SC2059
        printf "$start$name" >name.onnx
        try 0 'name.onnx: accepted nodes 0 names 0 odd 1' '' check name.onnx
    done
    printf '\x08\x08\x42\x02\x10\x0D\x3A\x14\x12\x01g\x5A\x0F\x0A\x01x\x12\x0A\x0A\x08\x08\x01\x12\x04\x0A\x02\x12\x00' >name.onnx
    try 1 $'name.onnx: refused 21 at 26\n*\n  where  graph > input?0? "x" > type > *\n  note   the dim_param is empty\n*' '' \
        check name.onnx
    rm name.onnx
}

bad_input() {
    try 2 '' 'onnx-gate: which command*'
    try 2 '' 'onnx-gate: there is no command "chek"*' chek
    try 2 '' 'onnx-gate: which model*' check
    try 2 '' 'onnx-gate: no-such.onnx: no such file' check no-such.onnx
    try 2 $'*: accepted*\n1 accepted, 0 refused, 1 not judged' 'onnx-gate: no-such.onnx: no such file' check no-such.onnx "$good"
    : >empty.onnx
    try 1 'empty.onnx: refused 10 at 0*' 'onnx-gate: empty.onnx is empty*' check empty.onnx
    try 2 '' '*--allow "nonsense" is not of the form*' check --allow nonsense "$good"
    try 2 '' '*stands twice*' check --allow :7-21 --allow ai.onnx:7-21 "$good"
    try 2 '' '*starts at version 0*' check --allow ai.onnx:0-21 "$good"
    try 2 '' '*exclude each other' check --allow ai.onnx:7-21 --operators l "$good"
    try 2 '' '*exclude each other*' check --json --quiet "$good"
    try 2 '' '*exclude each other*' check --odd --quiet "$good"
    try 2 '' '*is not a number*' check --cells -5 "$good"
    for seed in '' -1 +1 x 0x 0xg 0X1 1e3 ' 1' 18446744073709551616 0x10000000000000000; do
        try 2 '' '*is not a number below 2^64*' check --seed "$seed" "$good"
    done
    try 2 '' '*--seed needs a value' check --seed
    try 2 '' '*--seed stands twice' check --seed 1 --seed 2 "$good"
    try 2 '' '*no option "--jason"*' check --jason "$good"
    try 2 '' '*can be read once*' check - -
    try 2 '' 'onnx-gate: no.lst: no such file' check --operators no.lst "$good"
    try 2 '' 'onnx-gate: /tmp: is a directory' check --operators /tmp "$good"
    printf '\0\0\0\5\1' >unsound.lst
    try 1 '*: refused 8 at 0*' '*unsound.lst is not a sound operator list: its first four bytes count 5, and 1 follow them' \
        check --operators unsound.lst "$good"
    try 1 '' '*unsound.lst is not a sound operator list: *' operators show unsound.lst
    # a name that would clear the screen
    printf '\x08\x08\x42\x02\x10\x0D\x3A\x11\x12\x01g\x0A\x0C\x0A\x04\x1B[2J\x12\x01a\x22\x01X' >escape.onnx
    try 1 '*: refused 30 at 13*"\\u{1b}\[2J"*' '' check escape.onnx
    run "$gate" check "$good" >/dev/full 2>/dev/null
    same "status where nothing can be written" $? 2
    run "$gate" check "$good" 1</dev/null 2>/dev/null
    same "status where nothing may be written" $? 2
    run "$gate" check - <"$good" >"$work/out"
    same "standard input" "$(cat "$work/out")" "-: accepted nodes 2 names 4 odd 0"
    run "$gate" check "$root"/examples/*.onnx 2>/dev/null | head -1 >"$work/out"
    same "a reader that stops" "$(cut -d: -f2 "$work/out" | cut -d' ' -f2-4)" "refused 1 at"
}

padding() {
    local sound='\x42\x02\x10\x0D\x3A\x03\x12\x01g' note='  note   its tag, at 0, takes 2 bytes and needs 1'
    same "padded varints" "$(script padded "$gate" "$root/examples")" "as expected"
    # shellcheck disable=SC2059
    printf "\x88\x00\x08$sound" >padded.onnx && printf "\x08\x08$sound" >shortest.onnx
    try 1 $'padded.onnx: refused 9 at 0\n  rule   padded: *\n  where  ir_version\n'"$note*" '' check padded.onnx
    try 1 $'padded.onnx: refused 9 at 0\n1 accepted, 1 refused, 0 not judged' '' check -q padded.onnx shortest.onnx
    try 1 '' 'padded.onnx: refused 9 at 0*' pass padded.onnx
    # 9 comes before 3, and after 1 and 2
    printf '\x80\x00' >padded.onnx
    try 1 $'*: refused 9 at 0\n*\n  where  model > (unreadable tag)\n'"$note*" '' check padded.onnx
    printf '\x08\x88\x80' >padded.onnx
    try 1 '*: refused 1 at 0*' '' check padded.onnx
    printf '\x08\x80\x80\x80\x80\x80\x80\x80\x80\x80\x02' >padded.onnx
    try 1 '*: refused 2 at 0*' '' check padded.onnx
    rm ./*.onnx
}

# Models of 64 MB that are dear to explain, within 10 MB more, and too little memory for any explanation.
dear_explanations() {
    script hostile "$root/examples" .
    for file in nodes outputs defaults values names fields functions references; do
        expect 1 "$file.onnx: refused *  where  *: accepted*1 accepted, 1 refused, 0 not judged" '' \
            "${within[@]}" 75536 "$gate" check "$file.onnx" "$good"
    done
    expect 1 "nodes.onnx: refused 30 at 22*  note   no explanation: there is no memory for one*: accepted*" '' \
        "${within[@]}" 70000 "$gate" check nodes.onnx "$good"
    expect 1 '*"accepted":false,*"refusal":30,"place":22,*"path":null,*"notes":\["no explanation: *"accepted":true*' '' \
        "${within[@]}" 70000 "$gate" check --json nodes.onnx "$good"
    same "verdict and explanation" "$(script verdict_first "$gate" "$refused")" "as expected"
    rm -f ./*.onnx
}

# Whether the best of three runs on an accepted model takes less than a tenth of a second.
quick() {
    local start took best=999999999
    for _ in 1 2 3; do
        start=${EPOCHREALTIME/./}
        run "$gate" check "$1" >"$work/out" || bad "status for $1"
        took=$((${EPOCHREALTIME/./} - start))
        best=$((took < best ? took : best))
    done
    if [ "$best" -lt 100000 ]; then ok; else bad "$1 took $best microseconds"; fi
}

many_names() {
    script large "$root/examples" .
    try 0 '*: accepted nodes 20000 names 20001 odd 0' '' check unnamed.onnx
    try 0 '*: accepted nodes 20000 names 20001 odd 0' '' check --cells 40002 --seed 7 unnamed.onnx
    try 1 '*: refused 40 at *there are 40001 cells*' '' check --cells 40001 unnamed.onnx
    try 0 '*: accepted nodes 20000 names 20001 odd 0' '' check named.onnx
    try 1 '*: refused 29 at *"node0"*first at 50, graph > node?0? "node0"*' '' check named-twice.onnx
    try 0 '*: accepted nodes 0 names 20000 odd 0' '' check defaults.onnx
    try 0 '*: accepted nodes 1 names 1 odd 0' '' check attributes.onnx
    try 0 '*: accepted nodes 0 names 0 odd 0' '' check functions.onnx
    try 0 '*: accepted nodes 1 names 1 odd 0' '' check references.onnx
    quick unnamed.onnx
    quick named.onnx
    quick defaults.onnx
    quick attributes.onnx
    quick functions.onnx
    quick references.onnx
    try 0 '*: accepted nodes 1 names 1500000 odd 0' '' check outputs.onnx
    # with no memory for them it is not judged, and the next one is
    expect 2 $'unnamed.onnx: accepted nodes 20000 names 20001 odd 0\n1 accepted, 0 refused, 1 not judged' \
        'onnx-gate: outputs.onnx: there is no memory for * cells' "${within[@]}" 32000 "$gate" check outputs.onnx unnamed.onnx
    rm -f ./*.onnx
}

operator_lists() {
    try 0 '' '' operators write l.lst --allow :7-21
    same "list L" "$(od -An -tx1 l.lst | tr -d ' \n')" "0000000b0100080000000700000015"
    try 0 'ai.onnx:7-21' '' operators show l.lst
    try 0 '' '' operators write two.lst --allow ai.onnx:7-21 --allow ai.onnx.ml:1-5
    try 0 $'ai.onnx:7-21\nai.onnx.ml:1-5' '' operators show two.lst
    try 0 '*: accepted*' '' check --operators two.lst "$root/examples/ok-classifier.onnx"
    try 1 '*: refused 14*' '' check --operators l.lst "$root/examples/ok-classifier.onnx"
    try 2 '' '*' operators write /no/such/folder.lst --allow ai.onnx:7-21
    try 2 '' '*Give --allow*' operators write x.lst
}

said() {
    try 0 'Checks ONNX models*Exit status: 0*' '' --help
    try 0 'Checks ONNX models*' '' help
    try 0 $'Accepts or refuses*Options:\n      --operators FILE*' '' check --help
    try 0 $'Writes the bytes*Options:\n      --operators FILE*' '' pass -h
    try 0 'Makes and prints operator lists*' '' operators --help
    try 0 'onnx-gate [0-9]*' '' --version
    try 0 'onnx-gate [0-9]*' '' check -V
    try 0 ' 1  past-end*'$'\n'' 9  padded  *14  *16  *40  cells-full*41  function-twice*42  *43  initializer-not-input*65  too-few-extra*' '' rules
    try 0 'Prints every refusal number*65 is for programs*' '' rules --help
    run "$gate" rules >"$work/rules"
    same "the rules in Python" "$(script same_rules "$work/rules" "$(grep -rl '^RULES = {' "$root/bindings/python")")" "same"
    same "versions" "$(versions)" "$(run "$gate" --version | cut -d' ' -f2)"
}

# The version as each part says it, where it does.
versions() {
    grep -rhE '^(version|__version__|#define ONNX_GATE_VERSION) ' "$root"/{cli/Cargo.toml,bindings/{rust/Cargo.toml,c,python}} |
        cut -d'"' -f2 | sort -u
}
