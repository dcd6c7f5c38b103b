#!/bin/sh
# Tests of masks: those that `moonbleat tape` writes, by hand, and that `touched` and `where` say the same.
#
#   tests/masks.sh FOLDER      FOLDER has the programs moonbleat and unhex

# shellcheck source=tests/common.sh
. "$(dirname "$0")/common.sh"

# text: makes a sheet of the text on standard input.
text() {
    cat > text
    call 0 asm text -o sheet
}

# area STEP:BITS:COUNT ..: makes the file expected: of these steps the bytes that have set bits and those of the
# count, in hex, and zeros.
area() {
    step=0
    while [ "$step" -lt 32 ]; do
        mask=
        for each in "$@"; do
            case $each in "$step":*) mask=${each#*:} ;; esac
        done
        printf '%-64s%-4s\n' "${mask%:*}" "${mask#*:}" | tr ' ' 0
        step=$((step + 1))
    done | "$bin/unhex" > expected || fail "hex of $*"
}

# masked STEP:BITS:COUNT ..: tape writes these masks, beside its tape, and their counts add up to the answer's.
masked() {
    area "$@"
    call 0 tape sheet
    mv stdout tape
    rm -f masks
    call 0 tape sheet --masks masks
    same 'the tape beside masks' stdout tape
    same "masks $*" masks expected
    od -An -v -tu1 -w34 masks | awk '{ sum += $33 + 256 * $34 } END { print "accepted, byte-elements: " sum }' > sum
    call 0 check sheet
    same "the counts of $*" stdout sum
}

# -- The worked examples -------------------------------------------------------------------------

# by_touched STEP ELEMENT: prints both if touched says yes, and the answer if it is neither yes nor no.
by_touched() {
    tool touched sheet "$1" "$2" > answer
    case $?-$(head -c 11 answer) in
        0-touched:*) echo "$1 $2" ;;
        1-not\ touched) ;;
        *) echo "touched $1 $2: $(cat answer)" ;;
    esac
}

# by_where STEP ELEMENT: prints both if where says so of the element.
by_where() {
    tool where sheet "$1" --element "$2" --json | jq -r 'select(.touched) | "\(.step) \(.outcome.element)"'
}

# elements STEP: of a load or a store, how many elements it has, of another step 0.
elements() {
    jq '(.rows // 0) * (.columns // 0)' "map_$1"
}

# agree NAME: of the sheet's masks, their JSON, where's maps and what where and touched say of one element, each has the
# same elements. touched is also asked for a step past the last, and of each step for an element past its matrix.
agree() {
    bits masks > wanted_elements
    call 0 tape sheet --json
    jq -r '.masks | to_entries[] | "\(.key) \(.value[])"' stdout > tape_elements
    steps=$(tool show sheet | grep -c '^step')
    for step in $(seq 0 "$steps"); do
        tool where sheet "$step" --json > "map_$step"
    done
    for step in $(seq 0 "$steps"); do
        jq -r 'select(.accepted) | "\(.step) \(.mask[])"' "map_$step"
    done > mask_elements
    for step in $(seq 0 "$steps"); do
        jq -r 'select(.accepted) | "\(.step) \(.outcomes[] | select(.sort == "byte").element)"' "map_$step"
    done > outcome_elements
    for step in $(seq 0 "$steps"); do
        for element in $(seq 0 $(($(elements "$step") - 1))); do by_where "$step" "$element"; done
    done > where_elements
    for step in $(seq 0 "$steps"); do
        for element in $(seq 0 "$(elements "$step")"); do by_touched "$step" "$element"; done
    done > touched_elements
    for each in tape mask outcome where touched; do
        same "$1: the elements of $each" "${each}_elements" wanted_elements
    done
}

# strip NAME STEP:BITS:COUNT ..: the masks of a strip.
strip() {
    name=$1
    shift
    call 0 asm "$root/strips/$name/sheet.txt" -o sheet
    masked "$@"
    agree "$name"
}

# Of eight elements 2 to 5 lie inside the tensor; outside, a load fills, clamps to a byte, repeats or mirrors, and a store
# discards.
strip 01-constant 1:3C:04
strip 02-clamp-to-edge 1:FF:08
strip 03-repeat 1:FF:08
strip 04-mirror-repeat 1:FF:08
strip 04-mirror-repeat-of-one 1:FF:08
strip 06-clamped-store 1:FF:08 2:3C:04
strip 07-permuted-view 1:3F:06
# Of 2 by 4 the columns from 2 on: elements 2, 3, 6 and 7.
strip 08-clip 1:CC:04
strip 10-stride-zero-single 1:01:01
strip 11-two-by-two-add 1:0F:04
strip 12-blocks-of-two 1:FF:08
# A load of two words, two vector steps, which touch nothing, and a store of three.
strip 13-two-layer-network 1:03:02 4:07:03
strip 14-spans-of-one 1:FF:08
# What a load starts from is not what it touches.
strip 15-no-object-kept 1:CC:04
strip 15-no-object-zeros 1:CC:04

# -- Other masks ---------------------------------------------------------------------------------

# Every sort, in every byte of a mask but its last: of each row of 16, the first is skipped, -1 to 13 follow, of a tensor
# of 12. So elements 2 to 13 of each row are touched, but for the last row, which is skipped.
text << 'END'
edition 1
layout L0 Constant value 9
  dim size 15 stride 12 span 15
  dim size 12 stride 1 offset -1 span 15
view V0 permutation 0
  dim size 4096 stride 1
  clip rows 0 15 columns 1 15
fill r0 16x16 u8 0
load r0 L0 V0 base 0
store r0 L0 V0 base 256
END
row=FC3F
bits=
for _ in 0 1 2 3 4 5 6 7 8 9 10 11 12 13 14; do bits=$bits$row; done
masked "1:$bits:B4" "2:$bits:B4"
bits masks | awk '$1 == 2 && ($2 % 16 < 2 || $2 % 16 > 13 || $2 > 239)' > wrong_bits
if [ -s wrong_bits ]; then fail "bits that must not be set: $(head -n 1 wrong_bits)"; else pass; fi

# The largest masks: 31 loads of 256 elements; a count of 256 is 00 01.
{
    printf '%s\n' 'edition 3' 'layout L0 Undefined' '  dim size 256 stride 1 span 256' 'fill r0 16x16 u8 0'
    yes 'load r0 L0 base 0' | head -n 31
} > many
text < many
full=$(printf '%064d' 0 | tr 0 F)
steps=
step=1
while [ "$step" -lt 32 ]; do
    steps="$steps $step:$full:0001"
    step=$((step + 1))
done
# shellcheck disable=SC2086
masked $steps
for question in '1 0' '31 255'; do
    # shellcheck disable=SC2086
    call 0 touched sheet $question
done
json '.masks[31] == [range(256)] and .masks[0] == []' call 0 tape sheet
call 0 where sheet 31
tail -n 1 stdout > part
echo "mask, bytes 1054 to 1085:$(yes ' FF' | head -n 32 | tr -d '\n'); 256 set" > line
same 'the largest mask in words' part line

# Steps that touch nothing: all elements are skipped, filled or discarded; no step is a load or a store; no steps.
text << 'END'
edition 2
layout L0 Constant
  dim size 1 stride 1 offset 1 span 1
view V0 permutation 0
  clip rows 1 65535
fill r0 1x4 u8 0
load r0 L0 base 0
load r0 L0 V0 base 0
store r0 L0 base 0
store r0 L0 V0 base 0
transpose r1 of r0
reduce r2 of r0 1x1 both add
fill r3 1x1 u32 0
multiply-add r3 A r0 B r1 C r3
vector r2 u32 of r1 as u8 matrix u8 1x4 row-major stride 0 offset 0
END
masked
agree 'steps that touch nothing'
text << 'END'
edition 1
END
masked
agree 'no steps'

# -- What touched prints -------------------------------------------------------------------------

# says_touched LINE STEP ELEMENT ..: the answer is yes.
says_touched() {
    echo "touched: $1" > line
    shift
    call 0 touched sheet "$@"
    same "touched $*" stdout line
    if [ -s stderr ]; then fail "touched: standard error is '$(head -c 100 stderr)'"; else pass; fi
}

# says_untouched LINE STEP ELEMENT ..: the answer is no.
says_untouched() {
    echo "not touched: $1" > line
    shift
    call 1 touched sheet "$@"
    same "touched $*" stdout line
    if [ -s stderr ]; then fail "touched: standard error is '$(head -c 100 stderr)'"; else pass; fi
}

text << 'END'
edition 2
layout L0 Constant value 9
  dim size 2 stride 1 offset -1 span 4
view V0 permutation 0
  clip columns 1 65535
fill r0 1x4 u16 0
load r1 object r0 L0 base 16
load r1 L0 V0 base 0
reduce r2 of r1 1x1 both add
store r1 L0 base 32
END
masked 1:06:02 2:0C:02 4:06:02
all='loads and stores: 1 (load), 2 (load), 4 (store)'
says_touched 'step 1, element 1: byte 16' 1 1
says_touched 'step 1, element 2: byte 18' 1 0x2
says_touched 'step 4, element 2: byte 34' 4 2
says_untouched 'step 1, element 0: filled' 1 0
says_untouched 'step 2, element 0: skipped' 2 0
says_untouched 'step 4, element 3: discarded' 4 3
says_untouched "step 0, element 0: fill is no load or store; $all" 0 0
says_untouched "step 3, element 1: reduce is no load or store; $all" 3 1
says_untouched "step 5, element 1: the sheet has 5 steps, from 0 on; $all" 5 1
says_untouched "step 32, element 1: the sheet has 5 steps, from 0 on; $all" 32 1
says_untouched "step 4294967295, element 4294967295: the sheet has 5 steps, from 0 on; $all" 4294967295 4294967295
says_untouched 'step 1, element 4: load: the matrix is 1 by 4, elements 0 to 3' 1 4
says_untouched 'step 4, element 256: store: the matrix is 1 by 4, elements 0 to 3' 4 256
says_touched 'step 4, element 2: byte 34' 4 2 --memory 36
says_touched 'step 4, element 2: byte 34' -- 4 2
call 0 touched - 4 2 < sheet
same 'touched -' stdout line
call 4 touched sheet 1 1 --memory 35
silent
echo 'moonbleat: refusal 14 at step 4, element 2: store: row 0, column 2: bytes 34 to 35 do not all lie in the memory of 35 bytes' > line
same 'the refusal of touched' stderr line

json '. == {command: "touched", accepted: true, refusal: null, memory: 36, step: 4, element: 2, touched: true,
    reason: "byte 34"}' call 0 touched sheet 4 2 --memory 36
json '.touched == false and .reason == "discarded"' call 1 touched sheet 4 3
json ".accepted and .refusal == null and .step == 7 and .element == 9 and .touched == false and
    .reason == \"the sheet has 5 steps, from 0 on; $all\"" call 1 touched sheet 7 9
json '. == {command: "touched", accepted: false, refusal: {number: 14, place: 4, second_place: 2, at: "step 4, element 2",
    sentence: "store: row 0, column 2: bytes 34 to 35 do not all lie in the memory of 35 bytes"}}' \
    call 4 touched sheet 4 2 --memory 35
json '.masks == [[], [1, 2], [2, 3], [], [1, 2]] + [range(27) | []] and .byte_elements == 6' call 0 tape sheet
json '.mask == [2, 3] and .touched == false' call 0 where sheet 2 --element 0
json '.mask == [2, 3] and .touched' call 0 where sheet 2 --element 3

# -- The file ------------------------------------------------------------------------------------

# To standard output, which then has nothing else; beside JSON; in place of a file, whose mode stays.
call 0 tape sheet --masks masks
call 0 tape sheet --masks -
same 'tape --masks -' stdout masks
rm masks
json '.records | length == 9' call 0 tape sheet --masks=masks
call 0 tape sheet --masks -
same 'masks beside JSON' stdout masks
head -c 2000 /dev/zero > old
cp old out
chmod 600 out
ln -s out link
call 0 tape - --masks link --memory 36 < sheet
same 'masks in place of a file' out masks
if [ -h link ] && [ "$(stat -c %a out)" = 600 ]; then pass; else fail 'a link or a mode was lost'; fi

# unwritten STATUS WORD..: the file stays as it was.
unwritten() {
    cp old out
    call "$@"
    same "a file of masks after $*" out old
}
unwritten 1 tape sheet --masks out --memory 35
unwritten 1 tape sheet --masks out --memory 65537
unwritten 2 tape sheet --masks out --masks out
unwritten 3 tape nowhere --masks out
mkdir folder
for name in folder:'not a regular file' nowhere/out:'No such file or directory' sheet/out:'Not a directory'; do
    call 3 tape sheet --masks "${name%%:*}"
    silent
    echo "moonbleat: ${name%%:*}: ${name#*:}" > line
    same "masks to ${name%%:*}" stderr line
done
rm out link
for words in '--memory 35' '--memory 65537' '--json --memory 35'; do
    # shellcheck disable=SC2086
    call 1 tape sheet --masks out $words
    absent out
done

# A tape that is too long has no masks: 1 + 8 * 128 records. where, which needs no tape, says so.
{
    printf '%s\n' 'edition 1' 'layout L0 Repeat' '  dim size 2 stride 1 span 4096' 'fill r0 16x16 u8 0'
    yes 'load r0 L0 base 0' | head -n 8
} > long
text < long
long='the tape has more than 1024 records'
unwritten 1 tape sheet --masks out
echo "moonbleat: refusal 16: $long" > line
same 'the refusal of too long a tape' stderr line
call 4 touched sheet 1 0
silent
same 'touched of too long a tape' stderr line
json ".refusal == {number: 16, place: 0, second_place: 0, at: \"\", sentence: \"$long\"}" call 4 touched sheet 1 0
echo "mask: none, refusal 16: $long" > line
for words in 8 '8 --element 255'; do
    # shellcheck disable=SC2086
    call 0 where sheet $words
    tail -n 1 stdout > part
    same "where $words of too long a tape" part line
done
json '.mask == null and (.outcomes | length) == 256' call 0 where sheet 8
json '.mask == null and .touched == null and .outcome.byte == 1' call 0 where sheet 8 --element 255
sed -i '$d' long
text < long
call 0 where sheet 7 --element 255
tail -n 1 stdout > part
echo 'mask: byte 34 * 7 + 255 / 8 = 269, bit 255 mod 8 = 7: set' > line
same 'where of a tape that is not too long' part line

echo "tests of masks: $passed passed, $failed failed"
[ "$failed" -eq 0 ]
