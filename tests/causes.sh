#!/bin/sh
# Tests of what a night says about causes: faults that are planted, one and two to a card, are named by the headlines,
# in every form of the report.
#
#   tests/causes.sh FOLDER      FOLDER has the programs moonbleat and unhex

# shellcheck source=tests/common.sh
. "$(dirname "$0")/common.sh"
tests=$root/tests

# The earliest step leads, not the lowest byte: step 1 gives what is stored last and highest.
cat > text << 'END_TEXT'
edition 1
layout L0 Constant
  dim size 64 stride 1 span 64
view V0 permutation 0
  clip columns 0 3
fill r0 1x4 u8 0
load r1 object r0 L0 base 0
fill r2 1x4 u8 7
store r2 L0 base 16
store r1 L0 base 32
store r1 L0 V0 base 48
END_TEXT
tool asm text -o sheet || fail 'the sheet'
zeros memory 64
tool run sheet memory -o wanted > stdout

# spoiled BYTE..: what is found if a card has 85 at these bytes.
spoiled() {
    cp wanted after
    for byte in "$@"; do
        printf '\125' | dd of=after bs=1 seek="$byte" conv=notrunc status=none
    done
    call 1 diff sheet memory --card card=after
}
says_first() {
    case $(cat stdout) in
        "card differs: $1"*) pass ;;
        *) fail "'$(cat stdout)' does not begin with '$1'" ;;
    esac
}
spoiled 17 34
says_first 'step 1 load r1, element 2 (0, 2), which a load reads inside its tensor; byte 17 wants 07, has 55; step 3 store r2'
spoiled 17
says_first 'step 2 fill r2, element 1 (0, 1); byte 17 wants 07, has 55'
# Byte 51 is where the last store must skip an element; nothing would go to byte 60.
spoiled 51
says_first 'step 5 store r1, element 3 (0, 3), which it must skip; byte 51 wants 00, has 55; no step writes there'
spoiled 60
says_first 'byte 60 wants 00, has 55; no step writes there; 1 byte differs in 1 run'
spoiled 60 51
says_first 'step 5 store r1, element 3 (0, 3), which it must skip; byte 51'

# Faults that are planted are named by the headlines.
python3 "$tests/causes_plant.py" make planted || fail 'the planted faults'
call 1 night planted --json -o planted.json
if python3 "$tests/causes_plant.py" check planted.json > problems 2>&1; then
    pass
else
    fail "$(cat problems)"
fi
call 1 night planted --html planted.html
cp stdout planted.txt
call 1 night planted --csv
cp stdout planted.csv
if python3 "$tests/night_check.py" planted.txt planted.json planted.csv planted.html > problems 2>&1; then
    pass
else
    fail "$(tail -n 1 problems)"
fi

echo "tests of causes: $passed passed, $failed failed"
[ "$failed" -eq 0 ]
