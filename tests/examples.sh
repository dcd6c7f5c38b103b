#!/bin/sh
# Tries the examples of docs/SHEETS.md. Each block is named by its kind: a `sheet` is assembled, and
# the `run`, `tape`, `trace`, `divisions` or `refusal` behind it must be what the tool prints for it, on
# a memory of 256 bytes in which byte i holds i; `hex` must be the bytes of the sheet before it that has
# a run. A `recorded` is a card's trace in hex, and the `replay` behind it what the tool says of it. A `where`
# names its step, and the element if it is the way of one, each line of `touched` both. `masks` are those of the
# first steps in hex; the others are zeros.
#
#   tests/examples.sh FOLDER      FOLDER has the programs moonbleat and unhex

# shellcheck source=tests/common.sh
. "$(dirname "$0")/common.sh"

# Each block into a file NUMBER.KIND.
awk '/^```[a-z]+$/ { file = sprintf("%02d.%s", ++count, substr($0, 4)); next }
     /^```$/ { file = ""; next }
     file != "" { print > file }' "$root/docs/SHEETS.md"
i=0
while [ "$i" -lt 256 ]; do
    # shellcheck disable=SC2059
    printf "\\$(printf %03o "$i")"
    i=$((i + 1))
done > memory

# gives NAME COMMAND..: the command must print the block.
gives() {
    name=$1
    shift
    "$@" > printed 2>&1
    same "docs/SHEETS.md, block $name" printed "$name"
}

# assembles NAME: the block must be a text without errors; a warning may come.
assembles() {
    if "$bin/moonbleat" asm "$1" -o sheet > printed 2>&1; then
        pass
    else
        fail "docs/SHEETS.md, block $1: $(head -n 5 printed)"
    fi
}

# places NAME: where, asked for the step and the element that the block names, must print it.
places() {
    # shellcheck disable=SC2046
    gives "$1" "$bin/moonbleat" where sheet --memory 256 \
        $(sed -n 's/^step \([0-9]*\): .*/\1/p;s/^element \([0-9]*\): .*/--element \1/p' "$1")
}

# answers NAME: touched, asked for the step and the element that each line of the block names, must print the block.
answers() {
    while read -r line; do
        question=$(echo "$line" | sed 's/.*touched: step \([0-9]*\), element \([0-9]*\): .*/\1 \2/')
        # shellcheck disable=SC2086
        "$bin/moonbleat" touched sheet --memory 256 $question
    done < "$1" > touched_lines 2>&1
    gives "$1" cat touched_lines
}

# masks NAME: tape must write the block's bytes, and zeros behind them: 1088 bytes.
masks() {
    "$bin/unhex" < "$1" > steps || fail "docs/SHEETS.md, block $1: hex"
    zeros rest 1088
    cat steps rest | head -c 1088 > expected
    "$bin/moonbleat" tape sheet --memory 256 --masks written > printed
    same "docs/SHEETS.md, block $1" written expected
}

for block in [0-9]*; do
    case $block in
        *.sheet) assembles "$block" ;;
        *.run) gives "$block" "$bin/moonbleat" run sheet memory ;;
        *.tape) gives "$block" "$bin/moonbleat" tape sheet ;;
        *.trace) gives "$block" "$bin/moonbleat" trace sheet --memory 256 ;;
        *.divisions) gives "$block" "$bin/moonbleat" divisions sheet --memory 256 ;;
        *.where) places "$block" ;;
        *.masks) masks "$block" ;;
        *.touched) answers "$block" ;;
        *.recorded) "$bin/unhex" < "$block" > recorded || fail "docs/SHEETS.md, block $block: hex" ;;
        *.replay) gives "$block" "$bin/moonbleat" replay sheet recorded --memory 256 ;;
        *.hex) "$bin/unhex" < "$block" > bytes && gives bytes cat sheet ;;
        *.refusal) sed 's/^/moonbleat: /' "$block" > line && gives line "$bin/moonbleat" check sheet --memory 256 ;;
        *) fail "docs/SHEETS.md, block $block: of no known kind" ;;
    esac
done

echo "examples of docs/SHEETS.md: $passed passed, $failed failed"
[ "$failed" -eq 0 ] && [ "$passed" -gt 0 ]
