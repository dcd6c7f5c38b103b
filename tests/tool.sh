#!/bin/sh
# Tests of the command-line tool: the strips, every refusal that each subcommand can give, wrong
# uses, standard input, files that cannot be read or written, and what is printed.
#
#   tests/tool.sh FOLDER      FOLDER has the programs moonbleat, example, readme and unhex
#
# (Refusal 19 is given only for too short a room, and those of the tool are long enough.)

# shellcheck source=tests/common.sh
. "$(dirname "$0")/common.sh"
strips=$root/strips

# place_of NUMBER FIRST SECOND: the words for a refusal's place.
place_of() {
    case $1 in
        1 | 2 | 3 | 4 | 5 | 6) echo " at byte $2" ;;
        7 | 8 | 9 | 10 | 11) echo " at step $2" ;;
        12 | 13 | 14 | 15) echo " at step $2, element $3" ;;
        17) echo " at record $2" ;;
    esac
}

# refuses 'NUMBER FIRST SECOND' CAUSE: standard error must be the line of that refusal, and nothing
# else.
refuses() {
    # shellcheck disable=SC2086
    echo "moonbleat: refusal ${1%% *}$(place_of $1): $2" > line
    same "the line of refusal ${1%% *}" stderr line
}

# -- The strips ----------------------------------------------------------------------------------

# The files run.txt and tape.txt are what the sheet gives.
accepted_strip() {
    call 0 run sheet memory -o out
    same "$1: run" stdout run.txt
    same "$1: memory" out after
    call 0 tape sheet --masks masks
    same "$1: tape" stdout tape.txt
    rm -f out
    call 0 run-tape sheet tape.txt memory -o out
    same "$1: run-tape" stdout run.txt
    same "$1: memory of run-tape" out after
    call 0 check sheet --memory "$(wc -c < memory)"
    tail -n 1 run.txt > last
    same "$1: check" stdout last
    rm -f out
    call 0 trace sheet --memory "$(wc -c < memory)" -o out
    silent
    if [ -e "$strips/$1/trace.hex" ]; then
        "$bin/unhex" < "$strips/$1/trace.hex" > trace || fail "$1: trace"
        same "$1: trace" out trace
    fi
    if [ -e "$strips/$1/divisions.txt" ]; then
        call 0 divisions sheet --memory "$(wc -c < memory)"
        grep -v '^#' "$strips/$1/divisions.txt" > expected
        same "$1: divisions" stdout expected
    fi
    # The outcomes of where are those of the trace, and the masks have those of its elements that have a byte.
    call 0 trace sheet --memory "$(wc -c < memory)" --json
    jq -r '.accesses[] | select(.sort == "byte") | "\(.step) \(.element)"' stdout > expected
    bits masks > elements
    same "$1: masks" elements expected
    jq -c '.accesses[] | [.step, .element, .sort, .byte]' stdout > expected
    for step in $(jq '[.accesses[].step] | unique | .[]' stdout); do
        tool where sheet "$step" --memory "$(wc -c < memory)" --json
    done | jq -c '.step as $step | .outcomes[] | [$step, .element, .sort, .byte]' > outcomes
    same "$1: where" outcomes expected
    call 0 replay sheet out --memory "$(wc -c < memory)"
    echo "agrees, $(($(wc -c < out) / 12)) accesses" | sed 's/ 1 accesses/ 1 access/' > expected
    same "$1: replay" stdout expected
    rm -f out
}

refused_strip() {
    sed 's/^/moonbleat: /' "$strips/$1/refusal.txt" > line
    call 1 tape sheet --masks out
    same "$1: tape" stdout tape.txt
    same "$1: the refusal of tape" stderr line
    call 1 check sheet --memory "$(wc -c < memory)"
    silent
    same "$1: the refusal of check" stderr line
    call 1 divisions sheet --memory "$(wc -c < memory)"
    silent
    same "$1: the refusal of divisions" stderr line
    call 1 where sheet 1 --memory "$(wc -c < memory)"
    silent
    same "$1: the refusal of where" stderr line
    call 1 run sheet memory -o out
    silent
    same "$1: the refusal of run" stderr line
    call 1 trace sheet --memory "$(wc -c < memory)" -o out
    silent
    same "$1: the refusal of trace" stderr line
    absent out
    call 4 replay sheet memory --memory "$(wc -c < memory)"
    silent
    same "$1: the refusal of replay" stderr line
    call 4 touched sheet 1 0 --memory "$(wc -c < memory)"
    silent
    same "$1: the refusal of touched" stderr line
}

carried_strip() {
    if [ -e "$strips/$1/run.txt" ]; then
        accepted_strip "$1"
    else
        refused_strip "$1"
    fi
}

# refused_line STRIP: the line of the step that its refusal names.
refused_line() {
    step=$(sed 's/.* at step \([0-9]*\)[,:].*/\1/' "$strips/$1/refusal.txt")
    grep -n -E '^(fill|load|store|reduce|transpose|multiply-add|vector) ' "$strips/$1/sheet.txt" |
        sed -n "$((step + 1))s/:.*//p"
}

# put_edition NUMBER: makes the sheet one of this edition.
put_edition() {
    printf '%b' "\\000$1" | dd of=sheet bs=1 seek=3 conv=notrunc status=none
}

# put_zeros STRIP: makes run.txt and tape.txt what an accepted strip gives in edition 3. A load without an object, of
# these strips always step 1, of register 0, starts from zeros: the tape has a record of them more, and what the
# load skips is 0.
put_zeros() {
    sed -n 's/^step 0: fill register 0, \([0-9]*\) by \([0-9]*\) of .*/\1 \2/p' "$strips/$1/show.txt" > sides
    read -r rows columns < sides
    sed "1a 3 0 0 $((rows * columns)) 0 0" "$strips/$1/tape.txt" > tape.txt
    case $1 in
        08-clip) sed 's/^ 99 99  \([0-9]\)  \([0-9]\)$/ 0 0 \1 \2/' "$strips/$1/run.txt" > run.txt ;;
        15-no-object-kept) cp "$strips/15-no-object-zeros/run.txt" run.txt ;;
    esac
}

for folder in "$strips"/*/; do
    strip=$(basename "$folder")
    "$bin/unhex" < "$folder/sheet.hex" > sheet || fail "$strip: sheet"
    "$bin/unhex" < "$folder/memory.hex" > memory || fail "$strip: memory"
    cp memory after
    if [ -e "$folder/after.hex" ]; then
        "$bin/unhex" < "$folder/after.hex" > after || fail "$strip: after"
    fi
    rm -f run.txt
    cp "$folder"/*.txt .
    call 0 show sheet
    same "$strip: show" stdout "$folder/show.txt"
    call 0 asm "$folder/sheet.txt" -o assembled
    same "$strip: asm" assembled sheet
    : > expected
    if [ -e "$folder/refusal.txt" ]; then
        sed "s|^|$folder/sheet.txt:$(refused_line "$strip"): warning: |" "$folder/refusal.txt" > expected
    fi
    same "$strip: the warnings of asm" stderr expected
    call 0 show --asm sheet
    grep -v '^#' "$folder/sheet.txt" > expected
    same "$strip: show --asm" stdout expected
    carried_strip "$strip"
    # The same sheet in later editions, which have all that its own has.
    for later in 2 3; do
        if [ "$later" -gt "$(sed -n 's/^edition //p' show.txt)" ]; then
            put_edition "$later"
            if [ "$later" -eq 3 ] && [ -e run.txt ] && grep -q ', its own object,' show.txt; then
                put_zeros "$strip"
            fi
            carried_strip "$strip"
        fi
    done
done
# The two strips of a load without an object differ in the edition alone, and a tape does what its records say.
kept=$strips/15-no-object-kept
zeroed=$strips/15-no-object-zeros
"$bin/unhex" < "$zeroed/sheet.hex" > expected || fail 'strip 15: sheet'
"$bin/unhex" < "$kept/sheet.hex" > sheet || fail 'strip 15: sheet'
"$bin/unhex" < "$kept/memory.hex" > counted || fail 'strip 15: memory'
call 0 run-tape sheet "$zeroed/tape.txt" counted
same 'the tape of edition 3 in edition 2' stdout "$zeroed/run.txt"
put_edition 3
same 'the steps of strip 15' sheet expected
call 0 run-tape sheet "$kept/tape.txt" counted
same 'the tape of edition 2 in edition 3' stdout "$kept/run.txt"

# -- Refusals ------------------------------------------------------------------------------------

# refused 'NUMBER FIRST SECOND' CAUSE WORD..: the call must be refused so, and print nothing.
refused() {
    three=$1
    cause=$2
    shift 2
    call 1 "$@"
    silent
    refuses "$three" "$cause"
}

# refused_input 'NUMBER FIRST SECOND' CAUSE WORD..: the same with exit status 4, since 1 says that a card
# differs, or that an element was not touched.
refused_input() {
    three=$1
    cause=$2
    shift 2
    call 4 "$@"
    silent
    refuses "$three" "$cause"
}

# refused_tape 'NUMBER FIRST SECOND' CAUSE WORD..: the same with 1, and the three numbers on standard output.
refused_tape() {
    three=$1
    cause=$2
    shift 2
    call 1 "$@"
    refuses "$three" "$cause"
    echo "$three" > numbers
    same "$*" stdout numbers
}

# shows_refused 'NUMBER FIRST SECOND' CAUSE: show prints a mark with the refusal.
shows_refused() {
    call 1 show sheet
    refuses "$1" "$2"
    sed 's/^moonbleat: /^ /' line > mark
    grep '^\^' stdout > marks
    same "the mark of refusal $1" marks mark
}

# unreadable 'NUMBER FIRST SECOND' CAUSE HEX..: every subcommand refuses the sheet when it reads it.
unreadable() {
    wanted_place=$1
    wanted_cause=$2
    shift 2
    bytes sheet "$@"
    shows_refused "$wanted_place" "$wanted_cause"
    refused "$wanted_place" "$wanted_cause" check sheet --memory 64
    refused "$wanted_place" "$wanted_cause" run sheet memory -o out
    refused "$wanted_place" "$wanted_cause" run-tape sheet tape memory -o out
    refused_tape "$wanted_place" "$wanted_cause" tape sheet --masks out
    refused "$wanted_place" "$wanted_cause" trace sheet -o out
    refused_input "$wanted_place" "$wanted_cause" replay sheet no_trace
    refused "$wanted_place" "$wanted_cause" divisions sheet
    refused "$wanted_place" "$wanted_cause" where sheet 0
    refused_input "$wanted_place" "$wanted_cause" touched sheet 0 0
    absent out
}

# misstepped 'NUMBER FIRST SECOND' CAUSE HEX..: the sheet is read, and refused for 64 bytes of memory.
misstepped() {
    wanted_place=$1
    wanted_cause=$2
    shift 2
    bytes sheet "$@"
    call 0 show sheet
    refused "$wanted_place" "$wanted_cause" check sheet --memory 64
    refused "$wanted_place" "$wanted_cause" run sheet memory -o out
    refused_tape "$wanted_place" "$wanted_cause" tape sheet --memory 64 --masks out
    refused "$wanted_place" "$wanted_cause" trace sheet --memory 64 -o out
    refused_input "$wanted_place" "$wanted_cause" replay sheet no_trace --memory 64
    refused "$wanted_place" "$wanted_cause" divisions sheet --memory 64
    refused "$wanted_place" "$wanted_cause" where sheet 1 --element 1 --memory 64
    refused_input "$wanted_place" "$wanted_cause" touched sheet 1 1 --memory 64
    absent out
}

zeros memory 64
: > tape
zeros no_trace 1
edition='01 0100 01'
layout='10 1000 01 00 00000000 0100 0800 0100 0000 0800'
view='11 0B00 01 00 00 0000 FFFF 0000 FFFF'
own_view='11 0F00 01 01 00 0800 0100 0000 FFFF 0000 FFFF'
fill='20 0800 00 01 08 00 00000000'
load='21 0800 00 FF 00 FF 00000000'
store='22 0700 00 00 FF 00000000'
reduce='23 0600 01 00 01 01 03 00'
transpose='24 0200 01 00'
multiply='25 0400 03 00 01 02'
edition_2='01 0100 02'
edition_3='01 0100 03'
column='20 0800 00 08 01 00 00000000'
vector='26 1300 01 05 00 00 01 02 08 00 0800 00000000 00 00000000'

unreadable '1 0 0' "a field's head has 3 bytes, the sheet ends after 1" \
    01
unreadable '1 0 0' "a field's head has 3 bytes, the sheet ends after 2" \
    01 01
unreadable '1 0 0' 'edition: length 1 runs past the end of the sheet by 1' \
    01 0100
unreadable '1 0 0' 'edition: length 2 runs past the end of the sheet by 1' \
    01 0200 01
unreadable '1 4 0' "a field's head has 3 bytes, the sheet ends after 2" \
    "$edition" 10 10
unreadable '1 23 0' 'step 0 (fill): length 8 runs past the end of the sheet by 4' \
    "$edition $layout" 20 0800 00 01 08 00
unreadable '1 4 0' 'a field with tag 0xFF: length 65535 runs past the end of the sheet by 65535' \
    "$edition" FF FFFF
unreadable '2 0 0' 'tag 0x00 is none of 0x01, 0x10, 0x11, 0x20, 0x21, 0x22, 0x23, 0x24, 0x25, 0x26' \
    00 0000
unreadable '2 4 0' 'tag 0x12 is none of 0x01, 0x10, 0x11, 0x20, 0x21, 0x22, 0x23, 0x24, 0x25' \
    "$edition" 12 0000
unreadable '2 23 0' 'tag 0x26 (vector) comes with edition 2, and the sheet has edition 1' \
    "$edition $layout" 26 0000
unreadable '2 4 0' 'tag 0x26 (vector) comes with edition 2, and the sheet has edition 1' \
    "$edition $vector"
for newer in "$edition_2" "$edition_3"; do
    unreadable '2 4 0' 'tag 0x27 is none of 0x01, 0x10, 0x11, 0x20, 0x21, 0x22, 0x23, 0x24, 0x25, 0x26' \
        "$newer" 27 0000
done
unreadable '2 0 0' 'tag 0x27 is none of 0x01, 0x10, 0x11, 0x20, 0x21, 0x22, 0x23, 0x24, 0x25, 0x26' \
    27 0200 01 00 "$edition_3"
unreadable '3 0 0' 'the sheet has no edition' \
    ''
unreadable '3 0 0' 'layout 0 comes before the edition' \
    "$layout"
unreadable '3 0 0' 'step 0 (vector) comes before the edition' \
    "$vector $edition_2"
unreadable '3 0 0' 'step 0 (vector) comes before the edition' \
    26 0000
unreadable '3 4 0' 'edition is repeated' \
    "$edition $edition"
unreadable '3 4 0' 'edition is repeated' \
    "$edition $edition_2"
unreadable '3 4 0' 'edition is repeated' \
    "$edition_3 $edition_2"
unreadable '3 18 0' 'layout 0 comes after a view' \
    "$edition $view $layout"
unreadable '3 15 0' 'view 0 comes after a step' \
    "$edition $fill $view"
unreadable '3 15 0' 'edition is repeated' \
    "$edition $fill $edition"
unreadable '3 80 0' 'layout 4 is one too many: a sheet has at most 4' \
    "$edition $layout $layout $layout $layout $layout"
unreadable '3 60 0' 'view 4 is one too many: a sheet has at most 4' \
    "$edition $view $view $view $view $view"
eight="$fill $fill $fill $fill $fill $fill $fill $fill"
bytes sheet "$edition $eight $eight $eight $eight"
call 0 show sheet
unreadable '3 356 0' 'step 32 (fill) is one too many: a sheet has at most 32' \
    "$edition $eight $eight $eight $eight $fill"
unreadable '4 0 0' 'edition: length 0 is not 1' \
    01 0000
unreadable '4 0 0' 'edition: length 2 is not 1' \
    01 0200 01 01
unreadable '4 4 0' 'layout 0: length 6 is not 16 or 26 or 36 or 46 or 56' \
    "$edition" 10 0600 01 00 00000000
unreadable '4 4 0' 'view 0: length 10 is not 11 or 12 or 13 or 14 or 15 or 20 or 25 or 30 or 35' \
    "$edition" 11 0A00 01 00 0000 FFFF 0000 FFFF
unreadable '4 23 0' 'step 0 (transpose): length 3 is not 2' \
    "$edition $layout" 24 0300 01 00 00
for newer in "$edition_2" "$edition_3"; do
    unreadable '4 4 0' 'step 0 (vector): length 18 is not 19' \
        "$newer" 26 1200 01 05 00 00 01 02 08 00 0800 00000000 00 000000
done
for number in 0 4 255; do
    unreadable '6 0 0' "edition $number is not within 1 to 3" \
        01 0100 "$(printf %02X "$number")"
done
# 5: dimension count, clamp mode, block size, dimension, offset, span.
unreadable '5 4 0' 'layout 0: dimension count 0 is not within 1 to 5' \
    "$edition" 10 1000 00 00 00000000 0100 0800 0100 0000 0800
unreadable '5 4 0' 'layout 0: dimension count 2 gives a length of 26, not 16' \
    "$edition" 10 1000 02 00 00000000 0100 0800 0100 0000 0800
unreadable '5 4 0' 'layout 0: clamp mode 5 is not within 0 to 4' \
    "$edition" 10 1000 01 05 00000000 0100 0800 0100 0000 0800
unreadable '5 4 0' 'layout 0, dimension 0: block 0 is not within 1 to 4096' \
    "$edition" 10 1000 01 00 00000000 0000 0800 0100 0000 0800
unreadable '5 4 0' 'layout 0, dimension 0: block 4097 is not within 1 to 4096' \
    "$edition" 10 1000 01 00 00000000 0110 0800 0100 0000 0800
unreadable '5 4 0' 'layout 0, dimension 0: size 0 is not within 1 to 4096' \
    "$edition" 10 1000 01 00 00000000 0100 0000 0100 0000 0800
unreadable '5 4 0' 'layout 0, dimension 0: size 4097 is not within 1 to 4096' \
    "$edition" 10 1000 01 00 00000000 0100 0110 0100 0000 0800
unreadable '5 4 0' 'layout 0, dimension 0: offset 4096 is not within -4096 to 4095' \
    "$edition" 10 1000 01 00 00000000 0100 0800 0100 0010 0800
unreadable '5 4 0' 'layout 0, dimension 0: offset -4097 is not within -4096 to 4095' \
    "$edition" 10 1000 01 00 00000000 0100 0800 0100 FFEF 0800
unreadable '5 4 0' 'layout 0, dimension 0: span 0 is not within 1 to 4096' \
    "$edition" 10 1000 01 00 00000000 0100 0800 0100 0000 0000
unreadable '5 23 0' 'layout 1, dimension 0: span 4097 is not within 1 to 4096' \
    "$edition $layout" 10 1000 01 00 00000000 0100 0800 0100 0000 0110
# 5: a view's dimension count, has-dimensions, permutation and view dimension.
unreadable '5 4 0' 'view 0: dimension count 2 gives a length of 12, not 11' \
    "$edition" 11 0B00 02 00 00 0000 FFFF 0000 FFFF
unreadable '5 4 0' 'view 0: has-dimensions 2 is not within 0 to 1' \
    "$edition" 11 0B00 01 02 00 0000 FFFF 0000 FFFF
unreadable '5 4 0' 'view 0: permutation 1 does not name each of 0 to 0 once' \
    "$edition" 11 0B00 01 00 01 0000 FFFF 0000 FFFF
unreadable '5 4 0' 'view 0: permutation 0 0 does not name each of 0 to 1 once' \
    "$edition" 11 0C00 02 00 00 00 0000 FFFF 0000 FFFF
unreadable '5 4 0' 'view 0, dimension 0: size 4097 is not within 1 to 4096' \
    "$edition" 11 0F00 01 01 00 0110 0100 0000 FFFF 0000 FFFF
# 5: steps.
unreadable '5 4 0' 'step 0 (fill): register 4 is not within 0 to 3' \
    "$edition" 20 0800 04 01 08 00 00000000
unreadable '5 4 0' 'step 0 (fill): rows 0 is not within 1 to 16' \
    "$edition" 20 0800 00 00 08 00 00000000
unreadable '5 4 0' 'step 0 (fill): columns 17 is not within 1 to 16' \
    "$edition" 20 0800 00 01 11 00 00000000
unreadable '5 4 0' 'step 0 (fill): kind 6 is not within 0 to 5' \
    "$edition" 20 0800 00 01 08 06 00000000
unreadable '5 4 0' 'step 0 (fill): value 256 is not within 0 to 255' \
    "$edition" 20 0800 00 01 08 00 00010000
unreadable '5 15 0' 'step 1 (load): layout 0 is not given: the sheet has no layout' \
    "$edition $fill $load"
for each in "$edition" "$edition_2" "$edition_3"; do
    unreadable '5 34 0' 'step 1 (load): object 4 is not within 0 to 3' \
        "$each $layout $fill" 21 0800 00 04 00 FF 00000000
    unreadable '5 34 0' 'step 1 (load): object 254 is not within 0 to 3' \
        "$each $layout $fill" 21 0800 00 FE 00 FF 00000000
done
unreadable '5 34 0' 'step 1 (load): view 0 is not given: the sheet has no view' \
    "$edition $layout $fill" 21 0800 00 FF 00 00 00000000
unreadable '5 34 0' 'step 1 (store): layout 1 is not 0' \
    "$edition $layout $fill" 22 0700 00 01 FF 00000000
unreadable '5 4 0' 'step 0 (reduce): mode 0 is not within 1 to 4' \
    "$edition" 23 0600 01 00 01 01 00 00
unreadable '5 4 0' 'step 0 (reduce): mode 5 is not within 1 to 4' \
    "$edition" 23 0600 01 00 01 01 05 00
unreadable '5 4 0' 'step 0 (reduce): combine 6 is not within 0 to 5' \
    "$edition" 23 0600 01 00 01 01 03 06
unreadable '5 4 0' 'step 0 (transpose): source 4 is not within 0 to 3' \
    "$edition" 24 0200 01 04
unreadable '5 4 0' 'step 0 (multiply-add): C 4 is not within 0 to 3' \
    "$edition" 25 0400 03 00 01 04
# 5: each number of a vector step.
unreadable '5 4 0' 'step 0 (vector): result 4 is not within 0 to 3' \
    "$edition_2" 26 1300 04 05 00 00 01 02 08 00 0800 00000000 00 00000000
unreadable '5 4 0' 'step 0 (vector): result kind 3 is not within 4 to 5' \
    "$edition_2" 26 1300 01 03 00 00 01 02 08 00 0800 00000000 00 00000000
unreadable '5 4 0' 'step 0 (vector): result kind 6 is not within 4 to 5' \
    "$edition_2" 26 1300 01 06 00 00 01 02 08 00 0800 00000000 00 00000000
unreadable '5 4 0' 'step 0 (vector): input 4 is not within 0 to 3' \
    "$edition_2" 26 1300 01 05 04 00 01 02 08 00 0800 00000000 00 00000000
for interpretation in 6 7 10; do
    unreadable '5 4 0' "step 0 (vector): input interpretation $interpretation is not within 0 to 5 or 8 to 9" \
        "$edition_2" 26 1300 01 05 00 "$(printf %02X $interpretation)" 01 02 08 00 0800 00000000 00 00000000
done
unreadable '5 4 0' 'step 0 (vector): matrix interpretation 6 is not within 0 to 5' \
    "$edition_2" 26 1300 01 05 00 00 06 02 08 00 0800 00000000 00 00000000
unreadable '5 4 0' 'step 0 (vector): matrix interpretation 8 is not within 0 to 5' \
    "$edition_2" 26 1300 01 05 00 00 08 02 08 00 0800 00000000 00 00000000
unreadable '5 4 0' 'step 0 (vector): M 0 is not within 1 to 16' \
    "$edition_2" 26 1300 01 05 00 00 01 00 08 00 0800 00000000 00 00000000
unreadable '5 4 0' 'step 0 (vector): M 17 is not within 1 to 16' \
    "$edition_2" 26 1300 01 05 00 00 01 11 08 00 0800 00000000 00 00000000
unreadable '5 4 0' 'step 0 (vector): K 0 is not within 1 to 16' \
    "$edition_2" 26 1300 01 05 00 00 01 02 00 00 0800 00000000 00 00000000
unreadable '5 4 0' 'step 0 (vector): K 17 is not within 1 to 16' \
    "$edition_2" 26 1300 01 05 00 00 01 02 11 00 0800 00000000 00 00000000
unreadable '5 4 0' 'step 0 (vector): memory layout 2 is not within 0 to 1' \
    "$edition_2" 26 1300 01 05 00 00 01 02 08 02 0800 00000000 00 00000000
unreadable '5 4 0' 'step 0 (vector): bias 2 is not within 0 to 1' \
    "$edition_2" 26 1300 01 05 00 00 01 02 08 00 0800 00000000 02 00000000
for newer in "$edition_2" "$edition_3"; do
    unreadable '5 4 0' 'step 0 (vector): bias offset 16777216 is not 0, and there is no bias' \
        "$newer" 26 1300 01 05 00 00 01 02 08 00 0800 00000000 00 00000001
done

for each in "$edition" "$edition_2"; do
    misstepped '7 0 0' 'load: register 0 is empty, and without an object the load starts from it' \
        "$each $layout $load"
done
misstepped '7 0 0' 'load: register 0 is empty, and without an object the load starts from zeros of its type' \
    "$edition_3 $layout $load"
misstepped '7 1 0' 'load: register 2 is empty, and without an object the load starts from zeros of its type' \
    "$edition_3 $layout $fill" 21 0800 02 FF 00 FF 00000000
misstepped '7 0 0' 'store: register 0 is empty' \
    "$edition $layout $store"
for each in "$edition" "$edition_3"; do
    misstepped '7 1 0' 'load: register 1 is empty' \
        "$each $layout $fill" 21 0800 00 01 00 FF 00000000
    misstepped '7 1 0' 'load: register 1 is empty' \
        "$each $layout $fill" 21 0800 01 01 00 FF 00000000
done
misstepped '7 1 0' 'reduce: register 1 is empty' \
    "$edition $fill" 23 0600 00 01 01 01 03 00
misstepped '7 1 0' 'transpose: register 3 is empty' \
    "$edition $fill" 24 0200 00 03
misstepped '7 1 0' 'multiply-add: register 1 is empty' \
    "$edition $fill $multiply"
misstepped '8 1 0' "reduce: a result of 2x1 of register 0 (1x8 u8): the rows must be the source's" \
    "$edition $fill" 23 0600 01 00 02 01 01 00
misstepped '8 1 0' "reduce: a result of 1x7 of register 0 (1x8 u8): the columns must be the source's" \
    "$edition $fill" 23 0600 01 00 01 07 02 00
misstepped '8 1 0' "reduce: a result of 1x4 of register 0 (1x8 u8): rows and columns must be half the source's" \
    "$edition $fill" 23 0600 01 00 01 04 04 00
misstepped '8 3 0' 'multiply-add: A register 0 (1x8 u8), B register 1 (8x1 u8), C register 0 (1x8 u8): the sides must be MxK, KxN and MxN' \
    "$edition $fill $reduce $transpose" 25 0400 03 00 01 00
misstepped '8 1 0' 'multiply-add: A register 0 (1x1 s16), B register 0 (1x1 s16), C register 0 (1x1 s16): C must be u32 or s32' \
    "$edition" 20 0800 00 01 01 03 00000000 25 0400 03 00 00 00
for newer in "$edition_2" "$edition_3"; do
    misstepped '7 0 0' 'vector: register 0 is empty' \
        "$newer $vector"
    misstepped '8 1 0' 'vector: input register 0 (1x8 u8) as u8: with K 8 it must be 8x1' \
        "$newer $fill $vector"
done
misstepped '8 1 0' 'vector: input register 0 (8x1 u8) as s32: with K 7 it must be 7x1' \
    "$edition_2 $column" 26 1300 01 05 00 05 01 02 07 00 0800 00000000 00 00000000
misstepped '8 1 0' 'vector: input register 0 (2x1 s32) as packed-s8: with K 8 it must be 2x1 u32' \
    "$edition_2" 20 0800 00 02 01 05 00000000 26 1300 01 05 00 08 01 02 08 00 0800 00000000 00 00000000
misstepped '8 1 0' 'vector: input register 0 (2x1 u32) as packed-u8: with K 9 it must be 3x1 u32' \
    "$edition_2" 20 0800 00 02 01 04 00000000 26 1300 01 05 00 09 01 02 09 00 0800 00000000 00 00000000
misstepped '8 1 0' 'vector: input register 0 (2x1 u32) as packed-u8: with K 4 it must be 1x1 u32' \
    "$edition_2" 20 0800 00 02 01 04 00000000 26 1300 01 05 00 09 01 02 04 00 0800 00000000 00 00000000
misstepped '8 1 0' 'vector: input register 0 (1x2 u32) as packed-u8: with K 4 it must be 1x1 u32' \
    "$edition_2" 20 0800 00 01 02 04 00000000 26 1300 01 05 00 09 01 02 04 00 0800 00000000 00 00000000
misstepped '9 1 0' 'load: base 8 is not a multiple of 16' \
    "$edition $layout $fill" 21 0800 00 FF 00 FF 08000000
misstepped '9 1 0' 'store: base 1 is not a multiple of 16' \
    "$edition $layout $fill" 22 0700 00 00 FF 01000000
two='11 0C00 02 00 00 01 0000 FFFF 0000 FFFF'
misstepped '10 1 0' 'load: view 0 has no dimensions of its own and permutes 2, layout 0 has 1' \
    "$edition $layout $two $fill" 21 0800 00 FF 00 00 00000000
blocks='10 1000 01 00 00000000 0200 0800 0100 0000 0800'
misstepped '11 1 0' 'store: layout 0, dimension 0: block 2 is above 1' \
    "$edition $blocks $fill $store"
wide='10 2E00 04 02 00000000 0100 0010 0000 0000 0010 0100 0010 0000 0000 0010
      0100 0010 0000 0000 0010 0100 0010 0000 0000 0010'
outer_first='11 0E00 04 00 01 02 03 00 0000 FFFF 0000 FFFF'
misstepped '12 1 1' 'load: row 0, column 1: the index after the view is 68719476736, not below 4294967296' \
    "$edition $wide $outer_first $fill" 21 0800 00 FF 00 00 00000000
past='10 1000 01 00 00000000 0100 0400 0100 0000 0800'
misstepped '13 1 4' 'load: row 0, column 4: coordinate 4 of dimension 0 is not within 0 to 3, and the clamp mode is Undefined' \
    "$edition $past $fill $load"
misstepped '13 1 4' 'store: row 0, column 4: coordinate 4 of dimension 0 is not within 0 to 3, and the clamp mode is Undefined' \
    "$edition $past $fill $store"
misstepped '14 1 0' 'load: row 0, column 0: byte 64 does not lie in the memory of 64 bytes' \
    "$edition $layout $fill" 21 0800 00 FF 00 FF 40000000
far='10 1000 01 00 00000000 0100 0800 1500 0000 0800'
misstepped '14 1 4' 'load: row 0, column 4: byte 84 does not lie in the memory of 64 bytes' \
    "$edition $far $fill $load"
misstepped '14 2 4' 'store: row 0, column 4: byte 84 does not lie in the memory of 64 bytes' \
    "$edition $far $fill $fill $store"
# 14: elements of a vector step's matrix go by row, whatever the memory layout, then those of its bias.
for newer in "$edition_2" "$edition_3"; do
    misstepped '14 1 7' 'vector: matrix row 0, column 7: byte 64 does not lie in the memory of 64 bytes' \
        "$newer $column" 26 1300 01 05 00 00 01 02 08 00 0800 39000000 00 00000000
done
misstepped '14 1 15' 'vector: matrix row 1, column 7: byte 64 does not lie in the memory of 64 bytes' \
    "$edition_2 $column" 26 1300 01 05 00 00 01 02 08 00 0900 30000000 00 00000000
misstepped '14 1 6' 'vector: matrix row 0, column 6: bytes 66 to 69 do not all lie in the memory of 64 bytes' \
    "$edition_2 $column" 26 1300 01 05 00 00 05 02 08 01 0B00 00000000 00 00000000
misstepped '14 1 8' 'vector: matrix row 1, column 0: bytes 63 to 64 do not all lie in the memory of 64 bytes' \
    "$edition_2 $column" 26 1300 01 05 00 00 02 02 08 01 0000 3D000000 00 00000000
misstepped '14 1 0' 'vector: matrix row 0, column 0: bytes 4294967295 to 4294967298 do not all lie in the memory of 64 bytes' \
    "$edition_2 $column" 26 1300 01 05 00 00 04 02 08 01 FFFF FFFFFFFF 00 00000000
misstepped '14 1 17' 'vector: bias 1: bytes 61 to 64 do not all lie in the memory of 64 bytes' \
    "$edition_2 $column" 26 1300 01 05 00 00 01 02 08 00 0800 30000000 01 39000000
misstepped '14 1 16' 'vector: bias 0: bytes 4294967295 to 4294967298 do not all lie in the memory of 64 bytes' \
    "$edition_2 $column" 26 1300 01 05 00 00 01 02 08 00 0800 30000000 01 FFFFFFFF
bytes sheet "$edition_2 $column" 26 1300 01 05 00 00 01 02 08 00 0800 30000000 01 38000000
call 0 check sheet --memory 64
call 0 asm "$strips/13-two-layer-network/sheet.txt" -o sheet
refused '14 2 17' 'vector: matrix row 2, column 5: byte 30 does not lie in the memory of 30 bytes' check sheet --memory 30
refused '14 3 14' 'vector: bias 2: bytes 64 to 67 do not all lie in the memory of 67 bytes' check sheet --memory 67
round='10 1000 01 00 00000000 0100 0800 0100 0000 0400'
misstepped '15 1 4' 'store: row 0, column 4: byte 0 has element 0 already, row 0, column 0' \
    "$edition $round $fill $store"

# 16: as many records as a tape may have, then one more.
# longest_tape: the sheet's tape has so many, and leaves what the sheet leaves.
longest_tape() {
    call 0 tape sheet
    if [ "$(wc -l < stdout)" -eq 1024 ]; then pass; else fail 'a tape of 1024 records'; fi
    cp stdout longest
    call 0 run-tape sheet longest memory
    cp stdout ran
    call 0 run sheet memory
    same 'the longest tape' stdout ran
}
zigzag='10 1000 01 04 00000000 0100 0200 0100 0000 0010'
sixteen='20 0800 00 10 10 00 00000000'
six="$load $load $load $load $load $load"
seven="$six $load"
rest='20 0800 01 0F 10 00 00000000 21 0800 01 FF 00 FF 00000000 20 0800 02 01 0A 00 00000000'
bytes sheet "$edition $zigzag $sixteen $seven $rest" 21 0800 02 FF 00 FF 00000000
longest_tape
bytes sheet "$edition $zigzag $sixteen $seven $rest" 21 0800 02 00 00 FF 00000000
refused_tape '16 0 0' 'the tape has more than 1024 records' tape sheet
call 0 run sheet memory
# In edition 3 the zeros of a load without an object are a record too. Six loads of 256 elements and three of 240, 64 and
# 182, two elements a run, behind four fills: 4 + 6 * (1 + 128) + (1 + 120) + (1 + 32) + (1 + 91) = 1024.
rest='20 0800 01 0F 10 00 00000000 21 0800 01 FF 00 FF 00000000 20 0800 02 08 08 00 00000000
      21 0800 02 FF 00 FF 00000000 20 0800 03 0D 0E 00 00000000 21 0800 03 FF 00 FF 00000000'
bytes sheet "$edition_3 $zigzag $sixteen $six $rest"
longest_tape
bytes sheet "$edition_3 $zigzag $sixteen $six $rest $fill"
refused_tape '16 0 0' 'the tape has more than 1024 records' tape sheet
call 0 run sheet memory
put_edition 2
call 0 tape sheet
if [ "$(wc -l < stdout)" -eq 1016 ]; then pass; else fail 'the same steps in edition 2: nine records fewer'; fi
# The most records of one step: the elements have a byte and none by turns.
turns='10 1000 01 01 00000000 0100 0100 0100 0000 0200'
sed -n 's/^#define MOONBLEAT_STEP_RECORDS \([0-9]*\).*/\1/p' "$root/include/moonbleat.h" > expected
for each in "$edition_2 $turns $sixteen 21 0800 00 00 00 FF 00000000" "$edition_3 $turns $sixteen $load"; do
    bytes sheet "$each"
    call 0 tape sheet
    sed 1d stdout | wc -l > count
    same 'the most records of a step' count expected
done

# 17: each record out of range behind two good ones.
tape_refused() {
    wanted_place=$1
    wanted_cause=$2
    shift 2
    printf '%s\n' '4 0 0 0 0 0' '1 0 0 8 0 1' "$@" > tape
    refused "$wanted_place" "$wanted_cause" run-tape sheet tape memory -o out
    absent out
}
# tape_accepted RECORD..
tape_accepted() {
    printf '%s\n' '4 0 0 0 0 0' '1 0 0 8 0 1' "$@" > tape
    call 0 run-tape sheet tape memory
}
bytes sheet "$edition $layout $fill $load $reduce" 24 0200 02 03 "$multiply $store"
tape_refused '17 2 0' 'op 5 is not within 0 to 4' '5 0 0 0 0 0'
tape_refused '17 2 0' 'op -1 is not within 0 to 4' '-1 0 0 0 0 0'
tape_refused '17 2 0' 'copy: register 4 is not within 0 to 3' '0 4 0 0 0 0'
tape_refused '17 2 0' 'copy: object -1 is not within 0 to 3' '0 1 -1 0 0 0'
tape_refused '17 2 0' 'copy: register 1 is empty' '0 1 1 0 0 0'
tape_refused '17 2 0' 'copy: the unused number 1 is not 0' '0 1 0 1 0 0'
tape_refused '17 2 0' 'copy: the unused number 1 is not 0' '0 1 0 0 0 1'
tape_refused '17 3 0' 'copy: register 2 is empty' '0 1 0 0 0 0' '0 1 2 0 0 0'
tape_refused '17 2 0' 'take: register 1 is empty' '1 1 0 1 0 0'
tape_refused '17 2 0' 'take: count 0 is not within 1 to 8' '1 0 0 0 0 0'
tape_refused '17 2 0' 'take: first element -1 is not within 0 to 7' '1 0 -1 1 0 0'
tape_refused '17 2 0' 'take: first element 8 is not within 0 to 7' '1 0 8 1 0 0'
tape_refused '17 2 0' 'take: first element 2147483647 is not within 0 to 7' '1 0 2147483647 2147483647 0 0'
tape_refused '17 2 0' 'take: step 65536 is not within -65535 to 65535' '1 0 0 1 0 65536'
tape_refused '17 2 0' 'put: step -65536 is not within -65535 to 65535' '2 0 0 1 0 -65536'
tape_refused '17 2 0' 'put: element 0 has byte -1, and the memory 64 bytes' '2 0 0 1 -1 0'
tape_refused '17 2 0' 'put: element 0 has byte 64, and the memory 64 bytes' '2 0 0 1 64 0'
tape_refused '17 2 0' 'put: element 1 has byte 64, and the memory 64 bytes' '2 0 0 2 63 1'
tape_refused '17 2 0' 'put: element 1 has byte -1, and the memory 64 bytes' '2 0 0 2 0 -1'
tape_refused '17 2 0' 'fill: register 3 is empty' '3 3 0 1 0 0'
tape_refused '17 2 0' 'fill: value 256 is not within 0 to 255' '3 0 0 1 256 0'
tape_refused '17 2 0' 'fill: value -1 is not within 0 to 255' '3 0 0 1 -1 0'
tape_refused '17 2 0' 'fill: the unused number 1 is not 0' '3 0 0 1 0 1'
tape_refused '17 2 0' 'whole step: step 1 (load) is none' '4 1 0 0 0 0'
tape_refused '17 2 0' 'whole step: step 5 (store) is none' '4 5 0 0 0 0'
tape_refused '17 2 0' 'whole step: the sheet has no step 6' '4 6 0 0 0 0'
tape_refused '17 2 0' 'whole step: the sheet has no step -1' '4 -1 0 0 0 0'
tape_refused '17 2 0' 'whole step: step 3 (transpose) cannot be done: register 3 is empty' '4 3 0 0 0 0'
tape_refused '17 3 0' 'whole step: step 4 (multiply-add) cannot be done: register 2 is empty' '4 2 0 0 0 0' '4 4 0 0 0 0'
tape_refused '17 2 0' 'whole step: the unused number 1 is not 0' '4 0 0 0 0 1'
tape_accepted '1 0 7 1 63 65535'
tape_accepted '2 0 7 1 63 -65535' '2 0 0 8 7 -1' '2 0 0 8 0 0'
tape_accepted '3 0 0 8 255 0' '0 3 0 0 0 0' '4 3 0 0 0 0'
# A vector step that would get 7, 8 or 14 here; the last one is right.
for newer in "$edition_2" "$edition_3"; do
    bytes sheet "$newer $column" \
        26 1300 01 05 02 00 01 02 08 00 0800 00000000 00 00000000 26 1300 01 05 00 00 01 02 07 00 0800 00000000 00 00000000 \
        26 1300 01 05 00 08 01 02 08 00 0800 00000000 00 00000000 26 1300 01 05 00 00 01 02 08 01 0800 08000000 00 00000000 \
        26 1300 01 05 00 00 01 02 08 00 0800 00000000 01 39000000 26 1300 01 05 00 00 01 02 08 00 0800 30000000 01 38000000
    tape_refused '17 2 0' 'whole step: step 1 (vector) cannot be done: register 2 is empty' '4 1 0 0 0 0'
    tape_refused '17 2 0' 'whole step: step 2 (vector) cannot be done: input register 0 (8x1 u8) as u8: with K 7 it must be 7x1' '4 2 0 0 0 0'
    tape_refused '17 2 0' 'whole step: step 3 (vector) cannot be done: input register 0 (8x1 u8) as packed-s8: with K 8 it must be 2x1 u32' '4 3 0 0 0 0'
    tape_refused '17 2 0' 'whole step: step 4 (vector) cannot be done: matrix row 0, column 7: byte 64 does not lie in the memory of 64 bytes' '4 4 0 0 0 0'
    tape_refused '17 2 0' 'whole step: step 5 (vector) cannot be done: bias 1: bytes 61 to 64 do not all lie in the memory of 64 bytes' '4 5 0 0 0 0'
    tape_refused '17 2 0' 'whole step: the unused number 1 is not 0' '4 6 1 0 0 0'
    tape_accepted '4 6 0 0 0 0'
done
{ cat longest; echo '4 0 0 0 0 0'; } > tape
refused '17 0 0' 'the tape has more than 1024 records' run-tape sheet tape memory

# 18 comes before everything else.
zeros memory 65536
bytes sheet "$edition $fill"
call 0 run sheet memory
call 0 check sheet --memory 65536
zeros memory 65537
: > tape
for hex in "$edition $fill" 01; do
    bytes sheet "$hex"
    refused '18 0 0' 'the memory is longer than 65536 bytes' check sheet --memory 65537
    refused '18 0 0' 'the memory is longer than 65536 bytes' check sheet --memory 18446744073709551615
    refused '18 0 0' 'the memory is longer than 65536 bytes' run sheet memory -o out
    refused '18 0 0' 'the memory is longer than 65536 bytes' run-tape sheet tape memory -o out
    refused_tape '18 0 0' 'the memory is longer than 65536 bytes' tape sheet --memory 65537 --masks out
    refused '18 0 0' 'the memory is longer than 65536 bytes' trace sheet --memory 65537 -o out
    refused_input '18 0 0' 'the memory is longer than 65536 bytes' replay sheet no_trace --memory 65537
    refused '18 0 0' 'the memory is longer than 65536 bytes' divisions sheet --memory 65537
    refused '18 0 0' 'the memory is longer than 65536 bytes' divisions sheet --memory 18446744073709551615
    refused '18 0 0' 'the memory is longer than 65536 bytes' where sheet 7 --memory 65537
    refused '18 0 0' 'the memory is longer than 65536 bytes' where sheet 7 --memory 18446744073709551615
    refused_input '18 0 0' 'the memory is longer than 65536 bytes' touched sheet 7 0 --memory 65537
    absent out
done

# -- Wrong uses ----------------------------------------------------------------------------------

call 0 --help
cp stdout help
if grep -q '^usage:$' help; then pass; else fail 'no help'; fi
for words in -h help 'help --'; do
    # shellcheck disable=SC2086
    call 0 $words
    same "$words" stdout help
done
sed -n '/^usage:$/,/^ *moonbleat --version/p' help > usage
commands=$(sed -n 's/^  moonbleat \([a-z-]*\) .*/\1/p' usage)
for command in $commands; do
    call 0 help "$command"
    cp stdout command_help
    grep "^  moonbleat $command " usage | sed 's/^ */usage: /' > expected
    head -n 1 command_help > stdout
    same "help $command" stdout expected
    for words in --help -h 'sheet --help'; do
        # shellcheck disable=SC2086
        call 0 "$command" $words
        same "$command $words" stdout command_help
    done
done
call 0 --version
sed -n 's/^#define MOONBLEAT_VERSION_[A-Z]* //p' "$root/include/moonbleat.h" | paste -s -d. - |
    sed 's/^/moonbleat /' > expected
same '--version' stdout expected

# wrong TEXT WORD..: exit status 2, nothing printed, the text and the usage on standard error.
wrong() {
    text=$1
    shift
    call 2 "$@"
    silent
    cp usage wanted_usage
    if echo "$commands" | grep -q -x -e "${1:-none}" && [ "$1 $text" != "help unknown command ${2:-}" ]; then
        tool help "$1" | head -n 1 > wanted_usage
    fi
    { echo "moonbleat: $text"; cat wanted_usage; } > expected
    same "wrong use: $*" stderr expected
    absent out
}

zeros memory 64
bytes sheet "$edition $layout $fill $load"
: > tape
rm -f out
wrong 'what is to be done?'
wrong 'unknown command nothing' nothing
wrong 'unknown command ' ''
wrong 'unknown command nothing' help nothing
wrong 'help takes [COMMAND], and run is one more' help check run
wrong 'check takes SHEET' check
wrong '--memory needs a word after it' check sheet --memory
wrong '--memory -1: not a length in bytes' check sheet --memory -1
wrong '--memory 12x: not a length in bytes' check sheet --memory 12x
wrong '--memory : not a length in bytes' check sheet --memory ''
wrong '--memory 0x: not a length in bytes' check sheet --memory 0x
wrong '--memory 0x1g: not a length in bytes' check sheet --memory=0x1g
wrong '--memory 0x10000000000000000: not a length in bytes' check sheet --memory 0x10000000000000000
wrong '--memory : not a length in bytes' check sheet --memory=
wrong 'check does not take --memory-; did you mean --memory?' check sheet --memory- 64
wrong 'check does not take --mem' check sheet --mem 64
wrong '--man takes no word after it' help --man=1
wrong 'check takes SHEET, and --memory is one more' check sheet -- --memory
wrong '--memory 18446744073709551616: not a length in bytes' check sheet --memory 18446744073709551616
wrong '--memory 99999999999999999999999: not a length in bytes' check sheet --memory 99999999999999999999999
wrong '--memory is given twice' check sheet --memory 64 --memory 64
wrong 'check takes SHEET, and memory is one more' check sheet memory --memory 64
wrong 'check does not take -o' check sheet --memory 64 -o out
wrong 'run takes SHEET MEMORY' run sheet
wrong 'run takes SHEET MEMORY, and tape is one more' run sheet memory tape
wrong '-o needs a word after it' run sheet memory -o
wrong '--registers needs a word after it' run sheet memory --registers
wrong 'standard output can take only one of -o, --registers, --masks and --json' run sheet memory -o - --registers -
wrong '-o is given twice' run sheet memory -o out -o out
wrong 'run does not take --memory' run sheet memory -o out --memory 64
wrong 'run does not take --output' run sheet memory --output out
wrong 'standard input can be read only once' run - - -o out
wrong 'run-tape takes SHEET TAPE MEMORY' run-tape sheet memory
wrong 'run-tape takes SHEET TAPE MEMORY, and out is one more' run-tape sheet tape memory out
wrong 'standard input can be read only once' run-tape - tape -
wrong 'tape takes SHEET' tape
wrong 'tape does not take -x' tape sheet -x
wrong 'tape does not take -o' tape sheet -o out
wrong '--masks needs a word after it' tape sheet --masks
wrong '--masks is given twice' tape sheet --masks out --masks out
wrong 'standard output can take only one of -o, --registers, --masks and --json' tape sheet --masks - --json
wrong 'run does not take --masks' run sheet memory --masks out
wrong 'trace takes SHEET' trace
wrong 'trace takes SHEET, and tape is one more' trace sheet tape
wrong 'trace does not take --asm' trace sheet --asm
wrong '-o needs a word after it' trace sheet -o
wrong '--memory needs a word after it' trace sheet -o out --memory
wrong '--memory x: not a length in bytes' trace sheet -o out --memory x
wrong 'standard output can take only one of -o, --registers, --masks and --json' trace sheet -o - --json
wrong 'replay takes SHEET TRACE' replay
wrong 'replay takes SHEET TRACE' replay sheet
wrong 'replay takes SHEET TRACE, and tape is one more' replay sheet no_trace tape
wrong 'replay does not take -o' replay sheet no_trace -o out
wrong '--memory -1: not a length in bytes' replay sheet no_trace --memory -1
wrong '--memory is given twice' replay sheet no_trace --memory 64 --memory 64
wrong 'standard input can be read only once' replay - -
wrong 'divisions takes SHEET' divisions
wrong 'divisions takes SHEET, and memory is one more' divisions sheet memory
wrong 'divisions does not take -o' divisions sheet -o out
wrong '--memory needs a word after it' divisions sheet --memory
wrong '--memory 12x: not a length in bytes' divisions sheet --memory 12x
wrong '--memory is given twice' divisions sheet --memory 64 --memory 64
wrong '--json takes no word after it' divisions sheet --json=1
wrong 'where takes SHEET STEP' where
wrong 'where takes SHEET STEP' where sheet
wrong 'where takes SHEET STEP, and memory is one more' where sheet 1 memory
wrong 'where does not take -o' where sheet 1 -o out
wrong 'where does not take -1' where sheet -1
for word in load 1x '' 0x 1,0 4294967296; do
    wrong "$word: not the number of a step" where sheet "$word"
done
for word in x '' ',' '1,' ',1' 1,x x,1 -1 1,-1 1,1,1 '1, 1' 4294967296 0,4294967296 4294967296,0; do
    wrong "--element $word: not the number of an element, and not ROW,COLUMN" where sheet 1 --element "$word"
done
wrong '--element needs a word after it' where sheet 1 --element
wrong '--element is given twice' where sheet 1 --element 0 --element 0
wrong 'check does not take --element' check sheet --element 0
wrong '--memory 12x: not a length in bytes' where sheet 1 --memory 12x
wrong 'touched takes SHEET STEP ELEMENT' touched
wrong 'touched takes SHEET STEP ELEMENT' touched sheet 1
wrong 'touched takes SHEET STEP ELEMENT, and memory is one more' touched sheet 1 0 memory
wrong 'touched --masks takes STEP ELEMENT, and sheet is one more' touched sheet 1 0 --masks out
wrong 'touched does not take -1' touched sheet -1 0
for word in load 1x '' 0x 4294967296; do
    wrong "$word: not the number of a step" touched sheet "$word" 0
    wrong "$word: not the number of an element, and not ROW,COLUMN" touched sheet 1 "$word"
done
wrong '1,0: not the number of a step' touched sheet 1,0 0
wrong '--memory 12x: not a length in bytes' touched sheet 1 0 --memory 12x
wrong '--json takes no word after it' touched sheet 1 0 --json=1
wrong 'show takes FILE' show
wrong 'show does not take --memory' show sheet --memory 64

# Lengths in hex, behind =, and left out; files behind --.
for words in '--memory 64' '--memory=64' '--memory 0x40' '--memory=0X40'; do
    # shellcheck disable=SC2086
    call 0 check sheet $words
    # shellcheck disable=SC2086
    call 0 check $words -- sheet
done
bytes far_sheet "$edition $layout $fill" 21 0800 00 FF 00 FF F0FF0000
call 0 check far_sheet
refused '14 1 7' 'load: row 0, column 7: byte 65527 does not lie in the memory of 65527 bytes' check far_sheet --memory 65527
cp sheet ./--help
call 0 check -- --help
rm ./--help

# -- Files that cannot be read -------------------------------------------------------------------

gone='No such file or directory'
broken "nowhere: $gone" check nowhere --memory 64
broken "nowhere: $gone" show nowhere
broken "nowhere: $gone" tape nowhere
broken "nowhere: $gone" run nowhere memory -o out
broken "nowhere: $gone" run sheet nowhere -o out
broken "nowhere: $gone" run-tape nowhere tape memory -o out
broken "nowhere: $gone" run-tape sheet nowhere memory -o out
broken "nowhere: $gone" run-tape sheet tape nowhere -o out
broken "nowhere: $gone" trace nowhere -o out
broken "nowhere: $gone" replay nowhere no_trace
broken "nowhere: $gone" replay sheet nowhere
broken "nowhere: $gone" divisions nowhere
broken "nowhere: $gone" where nowhere 1
broken "nowhere: $gone" touched nowhere 1 0
broken '.: Is a directory' check . --memory 64
broken '.: Is a directory' run sheet . -o out
broken '.: Is a directory' run-tape sheet . memory -o out
broken '.: Is a directory' trace . -o out
broken '.: Is a directory' replay sheet .
broken '.: Is a directory' divisions .
broken '.: Is a directory' where . 1
broken '.: Is a directory' touched . 1 0
broken 'sheet/inside: Not a directory' show sheet/inside
absent out

# no_tape LINE TEXT: a tape file whose line LINE is no record.
no_tape() {
    printf '%b' "$2" > tape
    broken "tape: line $1 is no record of six 32-bit numbers" run-tape sheet tape memory -o out
    absent out
}
good='4 0 0 0 0 0\n'
no_tape 1 '4 0 0 0 0\n'
no_tape 1 '4 0 0 0 0 0 0\n'
no_tape 1 '4 0 0 0 0 x\n'
no_tape 1 '4 0 0 0 0 -\n'
no_tape 1 '4 0 0 0 0 +1\n'
no_tape 1 '4 0 0 0 0 0x1\n'
no_tape 1 '4 0 0 0 0 1.0\n'
no_tape 1 '4 0 0 0 0 2147483648\n'
no_tape 1 '4 0 0 0 0 -2147483649\n'
no_tape 1 '4 0 0 0 0 99999999999999999999\n'
no_tape 1 '4-0 0 0 0 0\n'
no_tape 1 '\n'
no_tape 1 '\0000'
no_tape 2 "$good\n"
no_tape 2 "$good\n$good"
no_tape 2 "${good}4 0\n"
no_tape 3 "$good${good}1 0 0 8 0 1O\n$good"
{ head -n 1023 longest; echo '4 0 0 0 0 2147483648'; } > tape
broken 'tape: line 1024 is no record of six 32-bit numbers' run-tape sheet tape memory -o out
printf '4  0 0\t0 0 0 \r\n1 0 0 8 0 1' > tape
call 0 run-tape sheet tape memory
: > tape
call 0 run-tape sheet tape memory
says 'moonbleat: tape: warning: the tape is empty'

# Endless files: the answer is known after a part of them.
call 1 show /dev/zero
refuses '2 0 0' 'tag 0x00 is none of 0x01, 0x10, 0x11, 0x20, 0x21, 0x22, 0x23, 0x24, 0x25, 0x26'
if [ "$(wc -l < stdout)" -eq 4 ]; then pass; else fail 'an endless sheet in words'; fi
refused '18 0 0' 'the memory is longer than 65536 bytes' run sheet /dev/zero
broken '/dev/zero: longer than 67108864 bytes' replay sheet /dev/zero
yes '4 0 0 0 0 0' 2> /dev/null | tool run-tape sheet - memory > stdout 2> stderr
refuses '17 0 0' 'the tape has more than 1024 records'

# -- Standard input ------------------------------------------------------------------------------

bytes sheet "$edition $layout" 20 0800 00 01 08 00 07000000 "$store $load"
call 0 run sheet memory -o expected_out
cp stdout expected_run
call 0 check sheet --memory 64
cp stdout expected_check
call 0 show sheet
cp stdout expected_show
call 0 tape sheet
cp stdout tape

call 0 check - --memory 64 < sheet
same 'check -' stdout expected_check
call 0 show - < sheet
same 'show -' stdout expected_show
call 0 tape - < sheet
same 'tape -' stdout tape
call 0 run - memory -o out < sheet
same 'run -, a sheet' stdout expected_run
same 'run -, a sheet: memory' out expected_out
rm out
call 0 run sheet - -o out < memory
same 'run -, a memory' stdout expected_run
same 'run -, a memory: memory' out expected_out
rm out
call 0 run-tape - tape memory < sheet
same 'run-tape -, a sheet' stdout expected_run
call 0 run-tape sheet - memory < tape
same 'run-tape -, a tape' stdout expected_run
call 0 run-tape sheet tape - -o out < memory
same 'run-tape -, a memory' stdout expected_run
same 'run-tape -, a memory: memory' out expected_out
rm out
refused '3 0 0' 'the sheet has no edition' check - --memory 64 < /dev/null
refused '14 1 0' 'store: row 0, column 0: byte 0 does not lie in the memory of 0 bytes' run sheet - -o out < /dev/null
call 3 run-tape sheet - memory -o out < help
silent
says 'moonbleat: -: line 1 is no record of six 32-bit numbers'
call 3 show - < .
silent
says 'moonbleat: -: Is a directory'
absent out
cp sheet ./-
call 0 show ./- < /dev/null
same 'a file named -' stdout expected_show

# -- Files that are written ----------------------------------------------------------------------

# A refusal leaves an output file as it was.
bytes refused_sheet "$edition $layout $load"
zeros old 100
cp old out
refused '7 0 0' 'load: register 0 is empty, and without an object the load starts from it' run refused_sheet memory -o out
same 'an output file after a refusal' out old
echo '4 1 0 0 0 0' > refused_tape
refused '17 0 0' 'whole step: step 1 (store) is none' run-tape sheet refused_tape memory -o out
same 'an output file after a refused tape' out old
zeros long_memory 65537
refused '18 0 0' 'the memory is longer than 65536 bytes' run sheet long_memory -o out
same 'an output file after too long a memory' out old

# Success replaces it by all of the memory, and leaves nothing else. The memory's own file stays.
cp memory before
mkdir folder
cp old folder/out
call 0 run sheet memory -o folder/out
same 'an output file' folder/out expected_out
same 'the memory file' memory before
if [ "$(ls -A folder)" = out ]; then pass; else fail "left in the folder: $(ls -A folder)"; fi
if [ "$(wc -c < folder/out)" -eq 64 ]; then pass; else fail 'length of an output file'; fi
cp memory itself
call 0 run sheet itself -o itself
same 'the memory file itself as output' itself expected_out

# A memory of 0 bytes is written as a file of 0 bytes.
bytes fill_sheet "$edition $fill"
: > nothing
cp old out
call 0 run fill_sheet nothing -o out
same 'an empty output file' out nothing
rm out

# Standard output as OUT gets the memory and nothing else; as FILE the registers.
call 0 run sheet memory -o -
same 'run -o -' stdout expected_out
tool run sheet memory > expected_run
call 0 run sheet memory --registers registers -o out
same 'run --registers' stdout expected_run
same 'run --registers -o' out expected_out
bytes expected 00 01 08 00 00000000 00000000 00000000
for _ in 1 2 3 4 5 6 7 8; do printf '\a\0\0\0'; done >> expected
head -c 48 registers > stdout
same 'the first registers' stdout expected
zeros expected 4064
tail -c +49 registers > stdout
same 'the other elements' stdout expected
call 0 run sheet memory --registers -
same 'run --registers -' stdout registers
rm out registers

# A file that is replaced keeps its mode, a new one gets the usual one, and a symbolic link is
# written through.
(umask 022 && tool run sheet memory -o out > stdout)
if [ "$(stat -c %a out)" = 644 ]; then pass; else fail "mode of a new file: $(stat -c %a out)"; fi
cp old out
chmod 600 out
ln -s out link
call 0 run sheet memory -o link
same 'an output file behind a link' out expected_out
if [ -h link ] && [ "$(stat -c %a out)" = 600 ]; then pass; else fail 'a link or a mode was lost'; fi
rm out
broken "link: $gone" run sheet memory -o link
absent out
broken 'out: two outputs go to this file' run sheet memory -o out --registers out
absent out
cp old out
broken 'out: two outputs go to this file' run sheet memory -o link --registers out
same 'an output file that was named twice' out old
broken "nowhere/out: $gone" run sheet memory -o out --registers nowhere/out
same 'an output file beside one that cannot be written' out old
rm out link

# An output that cannot be written leaves everything as it was.
broken "nowhere/out: $gone" run sheet memory -o nowhere/out
broken 'sheet/out: Not a directory' run sheet memory -o sheet/out
broken 'folder: not a regular file' run sheet memory -o folder
broken "nowhere/out: $gone" trace sheet -o nowhere/out
broken 'sheet/out: Not a directory' trace sheet -o sheet/out
broken 'folder: not a regular file' trace sheet -o folder
# Nobody can make a file in the first folder; in the second, root can.
call 3 run sheet memory -o /proc/out
silent
says 'moonbleat: /proc/out: '
call 3 trace sheet -o /proc/out
silent
says 'moonbleat: /proc/out: '
chmod 555 folder
if [ ! -w folder ]; then
    broken 'folder/out: Permission denied' run sheet memory -o folder/out
    same 'an output file in a closed folder' folder/out expected_out
fi
chmod 755 folder
# A file that may not grow past 512 bytes or so stands for a full disk.
zeros large 65536
cp old folder/out
(
    trap '' XFSZ
    ulimit -f 1
    tool run sheet large -o folder/out > stdout 2> stderr
)
if [ $? -eq 3 ]; then pass; else fail 'a full disk'; fi
silent
says 'moonbleat: folder/out: File too large'
same 'an output file on a full disk' folder/out old
if [ "$(ls -A folder)" = out ]; then pass; else fail "left on a full disk: $(ls -A folder)"; fi

# What cannot be printed is not a success.
if [ -c /dev/full ]; then
    tool trace sheet -o trace
    for words in 'run sheet memory' 'tape sheet' 'show sheet' 'check sheet --memory 64' 'trace sheet' \
        'trace sheet -o -' 'replay sheet trace' 'divisions sheet' 'where sheet 1' 'where sheet 1 --element 0' \
        'tape sheet --masks -' 'touched sheet 1 0' 'touched sheet 0 0' '--help'; do
        # shellcheck disable=SC2086
        tool $words > /dev/full 2> stderr
        if [ $? -eq 3 ]; then pass; else fail "$words to a full device"; fi
        says 'moonbleat: standard output: No space left on device'
    done
fi

# -- What is printed -----------------------------------------------------------------------------

# Elements go by their sign.
bytes sheet "$edition" 20 0800 00 01 02 01 FF000000 20 0800 01 01 01 03 00800000 \
    20 0800 02 02 01 05 FFFFFFFF 20 0800 03 01 01 04 FFFFFFFF
call 0 run sheet memory
printf '%s\n' 'register 0: 1 by 2 of s8' ' -1 -1' 'register 1: 1 by 1 of s16' ' -32768' \
    'register 2: 2 by 1 of s32' ' -1' ' -1' 'register 3: 1 by 1 of u32' ' 4294967295' \
    'accepted, byte-elements: 0' > expected
same 'signs' stdout expected

# Vector steps: components saturate, by the register's sign and the interpretation's; packed ones are taken
# from the lowest byte on, and those past K not at all; sums wrap at 32 bits; the result may be the input.
bytes vectors FF 80 7F 01 FFFF 0000 FFFFFFFF 00000080 05000000 FFFFFFFF
cat > text2 << 'END'
edition 2
fill r0 1x1 s32 -1
vector r1 s32 of r0 as u32 matrix u8 1x1 row-major stride 0 offset 0 bias 16
fill r0 1x1 u32 2147483648
vector r2 u32 of r0 as s32 matrix s8 1x1 row-major stride 0 offset 3
fill r0 2x1 s16 -300
vector r3 s32 of r0 as s8 matrix s8 2x2 column-major stride 2 offset 0
vector r0 s32 of r0 as s16 matrix u8 2x2 row-major stride 2 offset 0 bias 16
END
printf '%s\n' 'register 0: 2 by 1 of s32' ' -114895' '  -38401' 'register 1: 1 by 1 of s32' ' 5' \
    'register 2: 1 by 1 of u32' ' 2147483647' 'register 3: 2 by 1 of s32' ' -16128' '  16256' \
    'accepted, byte-elements: 0' > expected
sed 's/^edition 2/edition 3/' text2 > text3
for number in 2 3; do
    call 0 asm "text$number" -o sheet
    call 0 run sheet vectors
    same "vector steps in edition $number" stdout expected
done
cat > text << 'END'
edition 2
fill r0 2x1 u32 0xFF807F01
vector r1 s32 of r0 as packed-s8 matrix u8 1x6 column-major stride 0 offset 3
vector r2 s32 of r0 as packed-u8 matrix u8 1x6 column-major stride 0 offset 3
fill r0 1x1 u32 4294967295
vector r3 s32 of r0 as u32 matrix u16 1x1 row-major stride 0 offset 4
vector r0 u32 of r0 as u32 matrix u16 1x1 row-major stride 0 offset 4
END
call 0 asm text -o sheet
call 0 run sheet vectors
printf '%s\n' 'register 0: 1 by 1 of u32' ' 4294901761' 'register 1: 1 by 1 of s32' ' 127' \
    'register 2: 1 by 1 of s32' ' 639' 'register 3: 1 by 1 of s32' ' -65535' 'accepted, byte-elements: 0' > expected
same 'packed components, and sums that wrap' stdout expected

# A sheet with everything, in words.
bytes sheet "$edition $layout $own_view $fill" 21 0800 01 00 00 00 10000000 \
    22 0700 01 00 00 20000000 "$reduce $transpose $multiply"
call 0 show sheet
cat > expected << 'END'
sheet: 94 bytes, layouts 1, views 1, steps 6
edition 1
layout 0: 1 dimension, clamp mode Undefined, clamp value 0
  dimension 0: block 1, size 8, stride 1, offset 0, span 8
view 0: 1 dimension, of its own, permutation 0
  dimension 0: size 8, stride 1
  clip: rows from 0, span 65535; columns from 0, span 65535
step 0: fill register 0, 1 by 8 of u8, with 0
step 1: load register 1, object register 0, layout 0, view 0, base 16
step 2: store register 1, layout 0, view 0, base 32
step 3: reduce register 0 to register 1, 1 by 1, mode both, combine add
step 4: transpose register 0 to register 1
step 5: multiply registers 0 and 1, add register 2, to register 3
END
same 'a sheet in words' stdout expected

# A refused sheet, as far as it makes sense, with a mark behind the field; the fields behind it may be
# right.
bytes sheet "$edition" 10 1000 01 04 00000000 0100 0000 0100 0000 0800 "$fill" 12 0200 0102 0304
call 1 show sheet
cat > expected << 'END'
sheet: 41 bytes, refused
edition 1
layout 0: 1 dimension, clamp mode MirrorRepeat, clamp value 0
  dimension 0: block 1, size 0, stride 1, offset 0, span 8
^ refusal 5 at byte 4: layout 0, dimension 0: size 0 is not within 1 to 4096
step 0: fill register 0, 1 by 8 of u8, with 0
7 more bytes
END
same 'a refused sheet in words' stdout expected
bytes sheet "$edition" 12 0200 0102 20 0800 09 01 08 07 000000
call 1 show sheet
cat > expected << 'END'
sheet: 19 bytes, refused
edition 1
field 0x12, 2 bytes: 01 02
^ refusal 2 at byte 4: tag 0x12 is none of 0x01, 0x10, 0x11, 0x20, 0x21, 0x22, 0x23, 0x24, 0x25
step 0: fill register 9, 1 by 8 of 7, with ?
END
same 'an unknown field in words' stdout expected
bytes sheet "$edition_2" 26 1300 01 05 00 06 01 02 08 03 0800 00000000 00 05000000 26 1300 01 05 00 08 01
call 1 show sheet
cat > expected << 'END'
sheet: 34 bytes, refused
edition 2
step 0: multiply a 2 by 8 matrix of s8 (3, stride 8, offset 0) and register 0 as 6, no bias, to register 1 of s32
^ refusal 5 at byte 4: step 0 (vector): input interpretation 6 is not within 0 to 5 or 8 to 9
step 1: multiply a ? by ? matrix of s8 (?, stride ?, offset ?) and register 0 as packed-s8, ?, to register 1 of s32
END
same 'refused vector steps in words' stdout expected
bytes sheet "$edition" 20 08
call 1 show sheet
cat > expected << 'END'
sheet: 6 bytes, refused
edition 1
2 bytes: 20 08
^ refusal 1 at byte 4: a field's head has 3 bytes, the sheet ends after 2
END
same 'a cut head in words' stdout expected

# -- What a load starts from ---------------------------------------------------------------------

# starts LOAD COUNT KEPT RECORDS ZEROED RECORDS: register 0, eight s16 of -7, is loaded so, beside eight of 5 in
# register 1, and COUNT elements have a byte. KEPT and the records of the load are what editions 1 and 2 give, the last
# two words what edition 3 gives.
starts() {
    for number in 1 2 3; do
        cat > text << END
edition $number
layout L0 Constant
  dim size 3 stride 1 offset -2 span 8
layout L1 Constant
  dim size 1 stride 1 offset 1 span 8
layout L2 Undefined
  dim size 8 stride 0 span 8
view V0 permutation 0
  clip columns 1 4
view V1 permutation 0
  clip columns 8 65535
fill r0 1x8 s16 -7
fill r1 1x8 s16 5
load r0 $1 base 16
END
        call 0 asm text -o sheet
        if [ "$number" -lt 3 ]; then wanted_elements=$3 wanted_records=$4; else wanted_elements=$5 wanted_records=$6; fi
        json ".byte_elements == $2 and .records == [[4,0,0,0,0,0],[4,1,0,0,0,0]$wanted_records]" call 0 tape sheet
        call 0 tape sheet
        cp stdout tape
        for words in 'run sheet counted' 'run-tape sheet tape counted'; do
            # shellcheck disable=SC2086
            json ".byte_elements == $2 and .registers[0] == {kind: \"s16\", rows: 1, columns: 8,
                elements: [[$wanted_elements]]} and .registers[1].elements == [[5,5,5,5,5,5,5,5]]" call 0 $words
        done
    done
}
whole=',[3,0,0,8,0,0]'
# Without a view no element is skipped: the first two are filled with 0, then three have bytes, then three are filled.
# The zeros are there, and not joined with the first run.
elements=0,0,4368,4882,5396,0,0,0
runs=',[3,0,0,2,0,0],[1,0,2,3,16,2],[3,0,5,3,0,0]'
starts L0 3 "$elements" "$runs" "$elements" "$whole$runs"
# A clip of columns 1 to 4: two are filled with 0, two have bytes, and the others are skipped.
runs=',[3,0,1,2,0,0],[1,0,3,2,16,2]'
starts 'L0 V0' 2 -7,0,0,4368,4882,-7,-7,-7 "$runs" 0,0,0,4368,4882,0,0,0 "$whole$runs"
starts 'object none L0 V0' 2 -7,0,0,4368,4882,-7,-7,-7 "$runs" 0,0,0,4368,4882,0,0,0 "$whole$runs"
# An object is copied, the register itself too, in every edition.
for object in 0:-7 1:5; do
    elements=${object#*:},0,0,4368,4882,${object#*:},${object#*:},${object#*:}
    records=",[0,0,${object%:*},0,0,0]$runs"
    starts "object r${object%:*} L0 V0" 2 "$elements" "$records" "$elements" "$records"
done
# All are skipped; all are filled with 0, by a record like that of the zeros; all have a byte.
starts 'L0 V1' 0 -7,-7,-7,-7,-7,-7,-7,-7 '' 0,0,0,0,0,0,0,0 "$whole"
starts L1 0 0,0,0,0,0,0,0,0 "$whole" 0,0,0,0,0,0,0,0 "$whole$whole"
elements=4368,4368,4368,4368,4368,4368,4368,4368
starts L2 8 "$elements" ',[1,0,0,8,16,0]' "$elements" "$whole,[1,0,0,8,16,0]"

# The zeros are of the type that the register has then, here by a transpose; another register keeps what it has.
cat > text << 'END'
edition 3
layout L0 Undefined
  dim size 1 stride 1 span 1
view V0 permutation 0
  clip rows 3 65535
fill r0 2x3 u32 4294967295
transpose r1 of r0
load r1 object zeros L0 V0 base 0
END
call 0 asm text -o sheet
call 0 run sheet counted
printf '%s\n' 'register 0: 2 by 3 of u32' ' 4294967295 4294967295 4294967295' ' 4294967295 4294967295 4294967295' \
    'register 1: 3 by 2 of u32' ' 0 0' ' 0 0' ' 0 0' 'register 2: empty' 'register 3: empty' \
    'accepted, byte-elements: 0' > expected
same 'zeros of another type' stdout expected
call 0 tape sheet
printf '%s\n' '4 0 0 0 0 0' '4 1 0 0 0 0' '3 1 0 6 0 0' > expected
same 'the record of zeros of another type' stdout expected

# In words and in JSON.
for number in 1 2 3; do
    bytes sheet "01 0100 0$number $layout $fill $load" 21 0800 00 00 00 FF 10000000
    if [ "$number" -lt 3 ]; then words='its own object' name=register; else words='from zeros' name=zeros; fi
    call 0 show sheet
    tail -n 2 stdout > part
    printf '%s\n' "step 1: load register 0, $words, layout 0, no view, base 0" \
        'step 2: load register 0, object register 0, layout 0, no view, base 16' > expected
    same "loads in words, in edition $number" part expected
    json ".fields[3] == {field: \"load\", byte: 34, register: 0, object: null, starts_from: \"$name\", layout: 0, view: null,
            base: 0} and .fields[4].object == 0 and .fields[4].starts_from == \"object\" and
        ([.fields[] | has(\"starts_from\")] == [false, false, false, true, true])" call 0 show sheet
done

# -- The text form -------------------------------------------------------------------------------

# assembles TEXT HEX..: the text must give these bytes, and these bytes come back from their text.
assembles() {
    printf '%b' "$1" > text
    shift
    call 0 asm text -o sheet
    bytes expected "$@"
    same 'a sheet of a text' sheet expected
    call 0 show --asm sheet
    cp stdout text
    call 0 asm text -o again
    same 'a sheet of its own text' again expected
}

# misspelt TEXT LINE..: the text has these errors, and nothing is written.
misspelt() {
    printf '%b' "$1" > text
    shift
    rm -f out
    call 3 asm text -o out
    silent
    printf '%s\n' "$@" > expected
    same 'the errors of a text' stderr expected
    absent out
}

head='edition 1\nlayout L0 Repeat\n  dim size 8 stride 1 span 8\n'
repeat='10 1000 01 03 00000000 0100 0800 0100 0000 0800'
assembles 'edition 1' "$edition"
assembles 'edition 0x1 # comment\n\n\t# another\r\n' "$edition"
assembles "$head" "$edition $repeat"
assembles 'edition 1\nlayout L0 Constant value 0x09\ndim block 2 size 4096 stride 65535 offset -4096 span 1\n' \
    "$edition" 10 1000 01 01 09000000 0200 0010 FFFF 00F0 0100
assembles "${head}view V0 permutation 0\n" "$edition $repeat $view"
assembles "${head}view V0 permutation 0\n  dim size 8 stride 1\n  clip rows 0 65535 columns 0 65535\n" \
    "$edition $repeat $own_view"
assembles "${head}view V0 permutation 1 0\n  clip columns 2 3\n  dim size 8 stride 1\n  dim size 9 stride 2\n" \
    "$edition $repeat" 11 1400 02 01 01 00 0800 0100 0900 0200 0000 FFFF 0200 0300
assembles "${head}fill r3 16x1 s8 -1\nfill r0 1x1 s32 -2147483648\nfill r0 1x1 s16 65535\n" \
    "$edition $repeat" 20 0800 03 10 01 01 FF000000 20 0800 00 01 01 05 00000080 20 0800 00 01 01 03 FFFF0000
assembles "${head}view V0 permutation 0\nstore r0 L0 V0 base 4294967295\nreduce r1 of r2 3x4 2x2 xor\n" \
    "$edition $repeat $view" 22 0700 00 00 00 FFFFFFFF 23 0600 01 02 03 04 04 05
assembles 'edition 1\ntranspose r1 of r0\nmultiply-add r3 A r0 B r1 C r2\n' "$edition $transpose $multiply"
assembles 'bytes 01 0100 01\nbytes 20\nbytes 080000010800 00000000' "$edition $fill"

# What the text says of a load without an object: nothing in editions 1 and 2, from edition 3 on its zeros.
loads='load r1 object r0 L0 base 0x10\nload r1 L0 base 0\nload r1 object none L0 none base 0\nload r1 object r1 L0 base 0\n'
first='21 0800 01 00 00 FF 10000000'
without='21 0800 01 FF 00 FF 00000000'
itself='21 0800 01 01 00 FF 00000000'
repeat_text='layout L0 Repeat\n  dim size 8 stride 1 span 8\n'
for number in 1 2 3; do
    assembles "edition $number\n$repeat_text$loads" "01 0100 0$number $repeat $first $without $without $itself"
    if [ "$number" -lt 3 ]; then object=; else object=' object zeros'; fi
    sed -n 's/^load //p' text > part
    printf '%s\n' 'r1 object r0 L0 base 16' "r1$object L0 base 0" "r1$object L0 base 0" 'r1 object r1 L0 base 0' > expected
    same "the text of loads in edition $number" part expected
done
assembles "edition 3\n${repeat_text}view V0 permutation 0\nload r1 object zeros L0 base 0\nload r1 object zeros L0 V0 base 16\n" \
    "$edition_3 $repeat $view $without" 21 0800 01 FF 00 00 10000000
assembles "bytes $edition_3\n${repeat_text}load r1 object zeros L0 base 0\n" "$edition_3 $repeat $without"
for number in 1 2; do
    wrong_zeros="object zeros comes with edition 3, and the sheet has edition $number, in which a load without an object keeps what its register holds"
    misspelt "edition $number\n${repeat_text}load r1 object zeros L0 base 0\n" "text:4:16: $wrong_zeros"
    misspelt "bytes 01 0100 0$number\n${repeat_text}load r1 object zeros L0 base 0\n" "text:4:16: $wrong_zeros"
    misspelt "allow refused\nedition $number\n${repeat_text}load r1 object zeros L0 base 0\n" "text:5:16: $wrong_zeros"
done
misspelt "${repeat_text}load r1 object zeros L0 base 0\n" 'text:1:1: layout 0 comes before the edition' \
    'text:3:1: step 0 (load) comes before the edition' 'text:3:1: the sheet has no edition'
misspelt "edition 3\n${repeat_text}load r1 object zero L0 base 0\nload r1 L0 zeros base 0\nstore r1 object zeros L0 base 0\n" \
    "text:4:16: expected the object as r0, not 'zero'; did you mean 'zeros'?" "text:5:12: expected 'base' and a number, not 'zeros'" \
    "text:6:10: expected the layout as L0, not 'object'" "text:6:17: expected 'base' and a number, not 'zeros'"

weights='matrix s8 2x8 row-major stride 8 offset 0'
for number in 2 3; do
    assembles "edition $number\nvector r1 s32 of r0 as u8 $weights\n" "01 0100 0$number $vector"
done
assembles 'edition 2\nvector r1 5 of r0 as 0 matrix 1 2x8 0 stride 0x8 offset 0x0\n' "$edition_2 $vector"
assembles "edition 2\nvector r3 u32 of r2 as packed-u8 matrix u16 16x1 column-major stride 65535 offset 4294967295 bias 0\n" \
    "$edition_2" 26 1300 03 04 02 09 02 10 01 01 FFFF FFFFFFFF 01 00000000
assembles "edition 2\nvector r0 s32 of r0 as packed-s8 matrix s32 1x16 row-major stride 0 offset 1 bias 0xFFFFFFFF\n" \
    "$edition_2" 26 1300 00 05 00 08 05 01 10 00 0000 01000000 01 FFFFFFFF

misspelt '' 'text:1:1: the sheet has no edition'
misspelt "edition 1\nvector r1 s32 of r0 as u8 $weights\n" \
    'text:2:1: tag 0x26 (vector) comes with edition 2, and the sheet has edition 1'
misspelt "vector r1 s32 of r0 as u8 $weights\nedition 2\n" 'text:1:1: step 0 (vector) comes before the edition'
misspelt 'edition 2\nvector r4 s16 of r9 as s7 matrix packed-u8 17x0 diagonal stride 65536 offset -1 bias 0\n' \
    'text:2:8: result 4 is not within 0 to 3' \
    "text:2:11: expected the result kind: u32 or s32, not 's16'" \
    'text:2:18: input 9 is not within 0 to 3' \
    "text:2:24: expected the input interpretation: u8 or s8 or u16 or s16 or u32 or s32 or packed-s8 or packed-u8, not 's7'" \
    "text:2:34: expected the matrix interpretation: u8 or s8 or u16 or s16 or u32 or s32, not 'packed-u8'" \
    'text:2:44: M 17 is not within 1 to 16' 'text:2:47: K 0 is not within 1 to 16' \
    "text:2:49: expected the memory layout: row-major or column-major, not 'diagonal'" \
    'text:2:65: stride 65536 is not within 0 to 65535' \
    'text:2:78: matrix offset -1 is not within 0 to 4294967295'
misspelt "edition 2\nvector r1 3 of r0 as 7 matrix 6 2x8 2 stride 0 offset 0 bias\n" \
    'text:2:11: result kind 3 is not within 4 to 5' \
    'text:2:22: input interpretation 7 is not within 0 to 5 or 8 to 9' \
    'text:2:31: matrix interpretation 6 is not within 0 to 5' \
    'text:2:37: memory layout 2 is not within 0 to 1' \
    'text:2:61: expected the bias offset, a number'
misspelt "edition 2\nvector r1 s32 from r0 as u8 $weights bais 8\n" \
    "text:2:15: expected 'of' and a number, not 'from'" \
    "text:2:71: expected the end of the line, not 'bais'; did you mean 'bias'?"
misspelt "edition 2\nvector r1 s32 of r0 as u8 $weights bias 4294967296\n" \
    'text:2:74: bias offset 4294967296 is not within 0 to 4294967295'
misspelt 'fill r0 1x8 u8 0\n' 'text:1:1: step 0 (fill) comes before the edition' 'text:1:1: the sheet has no edition'
for number in 0 4 255; do
    misspelt "edition $number\n" "text:1:9: edition $number is not within 1 to 3"
done
misspelt 'edition 1 1\nedition 1\n' "text:1:11: expected the end of the line, not '1'" \
    'text:2:1: edition is repeated'
misspelt 'edition\n' 'text:1:8: expected the edition, a number'
misspelt 'edition 99999999999999999999\n' \
    "text:1:9: expected the edition, a number, not '99999999999999999999'"
misspelt 'edition 1\n\tlayout L0 Mirror value x\n\tdim block 0 size 4 stride 1 ofset 2 span 9999\n' \
    "text:2:12: expected the clamp mode: Undefined or Constant or ClampToEdge or Repeat or MirrorRepeat, not 'Mirror'" \
    "text:2:25: expected the clamp value, a number, not 'x'" \
    'text:3:12: block 0 is not within 1 to 4096' \
    "text:3:30: expected 'span' and a number, not 'ofset'; did you mean 'offset'?" \
    'text:3:43: span 9999 is not within 1 to 4096'
misspelt 'edition 1\nlayout L1 Repeat\n' "text:2:8: expected 'L0', this layout's name, not 'L1'"
misspelt 'edition 1\nlayout L0 Repeat\n' 'text:2:1: the layout has no dimensions'
misspelt "$head  dim size 8\n" "text:4:13: expected 'stride' and a number"
misspelt "${head}view V0 permutation 0 0\nview V1 permutation 2 0\n" \
    'text:4:1: view 0: permutation 0 0 does not name each of 0 to 1 once' \
    'text:5:1: view 1: permutation 2 0 does not name each of 0 to 1 once'
misspelt "${head}view V0 permutation 0\ndim size 1 stride 1\ndim size 1 stride 1\n" \
    'text:4:1: the view permutes 1 dimensions and has 2 of its own'
misspelt "${head}view V0 permutation 0\nclip rows 0\nclip\n" 'text:5:12: expected the row span, a number' \
    "text:6:1: a view has at most 1 'clip'"
misspelt "${head}fill r9 0x99 u8 256\nfill r0 1x1 s8 -129\nfill r0 8 u8 1\n" \
    'text:4:6: register 9 is not within 0 to 3' 'text:4:9: rows 0 is not within 1 to 16' \
    'text:4:11: columns 99 is not within 1 to 16' 'text:4:17: value 256 is not within 0 to 255' \
    'text:5:16: value -129 is not within -128 to 255' "text:6:9: expected rows and columns as 1x8, not '8'"
misspelt "${head}load 1 object r7 L1 V0 base -1\nstore r1 base 0" \
    "text:4:6: expected the register as r0, not '1'" 'text:4:15: object 7 is not within 0 to 3' \
    'text:4:18: layout 1 is not 0' 'text:4:21: view 0 is not given: the sheet has no view' \
    'text:4:29: base -1 is not within 0 to 4294967295' "text:5:10: expected the layout as L0, not 'base'"
misspelt "${head}fill r0 1x1 u8 0\nlayout L1 Repeat\ndim size 1 stride 1 span 1\n" \
    'text:5:1: layout 1 comes after a step'
misspelt 'edition 1\nfrob r0\ndim size 1\nfill r0 1x1 u8 0\ndim size 1\n' "text:2:1: 'frob' begins no field" \
    "text:5:1: 'dim' does not belong to the field before it"
misspelt 'bytes 0g\nbytes 0\nbytes 01 0200 01\n' "text:1:7: expected pairs of hex digits, not '0g'" \
    "text:2:7: expected pairs of hex digits, not '0'" \
    'text:3:1: edition: length 2 runs past the end of the sheet by 1'
misspelt 'edition 1\nallow refused\n' "text:2:7: 'allow refused' must stand before the first field"
misspelt 'allow\n' 'text:1:1: the sheet has no edition' "text:1:6: expected 'refused'"
# The longest sheet, which is read; its first step has no input.
{
    echo 'edition 2'
    for number in 0 1 2 3; do
        echo "layout L$number Constant"
        yes '  dim size 1 stride 1 span 1' | head -n 5
    done
    for number in 0 1 2 3; do
        echo "view V$number permutation 0 1 2 3 4"
        yes '  dim size 1 stride 1' | head -n 5
    done
    yes "vector r1 s32 of r0 as u8 $weights bias 0" | head -n 32
} > text
call 0 asm text -o sheet
says 'text:50: warning: refusal 7 at step 0: vector: register 0 is empty'
sed -n 's/^#define MOONBLEAT_SHEET_MAX \([0-9]*\).*/\1/p' "$root/include/moonbleat.h" > expected
wc -c < sheet > stdout
same 'the length of the longest sheet' stdout expected
call 0 show --asm sheet
cp stdout text
call 0 asm text -o again
same 'the longest sheet of its own text' again sheet

# Many errors: all are counted, the first ten printed.
{ echo 'edition 1'; yes 'fill r4 1x1 u8 0' | head -n 40; } > text
call 3 asm text -o out
{
    for line in 2 3 4 5 6 7 8 9 10 11; do echo "text:$line:6: register 4 is not within 0 to 3"; done
    echo 'text: 40 errors, the first 10 are printed'
} > expected
same 'many errors' stderr expected

# What the library refuses is written where the text allows it, with a warning.
printf 'allow refused\nlayout L0 7\n  dim size 0 stride 1 span 5000\nfill r9 0x200 9 1\nbytes 77\n' > text
call 0 asm text -o sheet
says 'text:2: warning: refusal 3 at byte 0: layout 0 comes before the edition'
bytes expected 10 1000 01 07 00000000 0100 0000 0100 0000 8813 20 0800 09 00 C8 09 01000000 77
same 'a refused sheet of a text' sheet expected
call 1 show --asm sheet
cp stdout text
call 0 asm text -o again
same 'a refused sheet of its own text' again expected
misspelt 'allow refused\nfill r256 1x1 u8 0\n' 'text:2:6: register 256 is not within 0 to 255'
printf 'allow refused\nedition 1\nvector r5 0 of r4 as 7 matrix 255 0x255 9 stride 0 offset 0 bias 1\n' > text
call 0 asm text -o sheet
says 'text:3: warning: refusal 2 at byte 4: tag 0x26 (vector) comes with edition 2, and the sheet has edition 1'
bytes expected "$edition" 26 1300 05 00 04 07 FF 00 FF 09 0000 00000000 01 01000000
same 'a vector step that is refused, of a text' sheet expected
printf 'allow refused\nedition 4\nload r1 object zeros L0 base 0\n' > text
call 0 asm text -o sheet
says 'text:2: warning: refusal 6 at byte 0: edition 4 is not within 1 to 3'
bytes expected 01 0100 04 "$without"
same 'a load from zeros of an edition that is refused' sheet expected

# Standard input and output, and texts that are too long.
printf 'edition 1\n' > text
call 0 asm - -o - < text
bytes expected "$edition"
same 'asm - -o -' stdout expected
broken "nowhere: $gone" asm nowhere -o out
broken "nowhere/out: $gone" asm text -o nowhere/out
yes '# comment' | head -c 1048577 > text
broken 'text: longer than 1048576 bytes' asm text -o out
wrong 'asm needs -o OUT' asm text
wrong 'show prints one of --asm and --json' show --asm --json text

# -- JSON ----------------------------------------------------------------------------------------

bytes sheet "$edition $layout $own_view $fill" 21 0800 00 FF 00 00 10000000 22 0700 00 00 FF 20000000
json '.command == "check" and .accepted and .refusal == null and .memory == 64 and .byte_elements == 16' \
    call 0 check sheet --memory 64
json '.refusal == {number: 14, place: 1, second_place: 0, at: "step 1, element 0",
    sentence: "load: row 0, column 0: byte 16 does not lie in the memory of 16 bytes"} and (.accepted | not)' \
    call 1 check sheet --memory 16
json '.command == "tape" and .memory == 65536 and .byte_elements == 16 and
    .records == [[4,0,0,0,0,0],[1,0,0,8,16,1],[2,0,0,8,32,1]]' call 0 tape sheet
call 0 tape sheet
cp stdout tape
for words in 'run sheet memory' 'run-tape sheet tape memory'; do
    # shellcheck disable=SC2086
    json '.registers == [{kind: "u8", rows: 1, columns: 8, elements: [[0,0,0,0,0,0,0,0]]},null,null,null] and
        .byte_elements == 16' call 0 $words
done
json '.bytes == 73 and (.fields | map(.field)) == ["edition","layout","view","fill","load","store"] and
    .fields[1].clamp_mode == "Undefined" and .fields[1].dimensions ==
        [{block: 1, size: 8, stride: 1, offset: 0, span: 8}] and
    .fields[2].permutation == [0] and .fields[2].dimensions == [{size: 8, stride: 1}] and
    .fields[2].column_span == 65535 and .fields[4].object == null and .fields[4].view == 0' call 0 show sheet
bytes sheet "$edition_2 $column $vector" 26 1300 02 04 01 08 03 10 01 01 0800 10000000 01 20000000
json '.fields[0].edition == 2 and .fields[2] == {field: "vector", byte: 15, result: 1, result_kind: "s32", input: 0,
        input_interpretation: "u8", matrix_interpretation: "s8", M: 2, K: 8, memory_layout: "row-major", stride: 8,
        matrix_offset: 0, bias: 0, bias_offset: null} and
    .fields[3].input_interpretation == "packed-s8" and .fields[3].memory_layout == "column-major" and
    .fields[3].bias == 1 and .fields[3].bias_offset == 32' call 0 show sheet
json '.refusal == {number: 8, place: 2, second_place: 0, at: "step 2",
    sentence: "vector: input register 1 (2x1 s32) as packed-s8: with K 1 it must be 1x1 u32"}' call 1 check sheet
bytes sheet "$edition" 20 0800 00 02 01 03 00800000
json '.registers[0].elements == [[-32768],[-32768]]' call 0 run sheet memory
bytes sheet "$edition" 20 0800 00 02 01 06 00000000
json '.fields == [{field: "edition", byte: 0, edition: 1}] and .refusal.at == "byte 4"' call 1 show sheet
json '.refusal.number == 18 and .refusal.at == ""' call 1 run sheet /dev/zero
json '.refusal.number == 5 and .command == "tape"' call 1 tape sheet

# -- Traces --------------------------------------------------------------------------------------

# access STEP ELEMENT SORT BYTE: the field of an access as hex.
access() {
    printf '30 0900 %02X%02X %02X%02X %02X %02X%02X%02X%02X\n' $(($1 % 256)) $(($1 / 256)) $(($2 % 256)) $(($2 / 256)) \
        "$3" $(($4 % 256)) $(($4 / 256 % 256)) $(($4 / 65536 % 256)) $(($4 / 16777216))
}

# Every sort, two bytes an element; step 0 and step 3 have no access. Worked by hand: the tensor has
# coordinates 0 and 1, the four elements -1 to 2; through the view the first is clipped and the other three
# have -1 to 1.
cat > text << 'END'
edition 1
layout L0 Constant value 9
  dim size 2 stride 1 offset -1 span 4
view V0 permutation 0
  clip columns 1 65535
fill r0 1x4 u16 0
load r1 object r0 L0 base 16
load r1 L0 V0 base 0
reduce r2 of r1 1x1 both add
store r1 L0 base 32
END
call 0 asm text -o sheet
cat > lines << 'END'
0: step 1 (load), element 0: filled
1: step 1 (load), element 1: byte 16
2: step 1 (load), element 2: byte 18
3: step 1 (load), element 3: filled
4: step 2 (load), element 0: skipped
5: step 2 (load), element 1: filled
6: step 2 (load), element 2: byte 0
7: step 2 (load), element 3: byte 2
8: step 4 (store), element 0: discarded
9: step 4 (store), element 1: byte 32
10: step 4 (store), element 2: byte 34
11: step 4 (store), element 3: discarded
END
{
    access 1 0 1 0 && access 1 1 3 16 && access 1 2 3 18 && access 1 3 1 0
    access 2 0 0 0 && access 2 1 1 0 && access 2 2 3 0 && access 2 3 3 2
    access 4 0 2 0 && access 4 1 3 32 && access 4 2 3 34 && access 4 3 2 0
} > right

# recorded FILE: makes the file trace of fields as hex, a line each.
recorded() {
    "$bin/unhex" < "$1" > trace || fail "hex of $1"
}

# replays STATUS LINE..: what replay prints of the trace.
replays() {
    wanted_status=$1
    shift
    call "$wanted_status" replay sheet trace --memory 36
    printf '%s\n' "$@" > expected
    same "the replay of $(head -n 1 expected)" stdout expected
    if [ -s stderr ]; then fail "replay: standard error is '$(head -c 100 stderr)'"; else pass; fi
}

# edited SED: the right trace with some lines edited.
edited() {
    sed "$1" right > card
    recorded card
}

# Both ways, to a file and to standard output, from a file and from standard input.
call 0 trace sheet --memory 36
same 'a trace in words' stdout lines
call 0 trace sheet
same 'a trace for 65536 bytes' stdout lines
recorded right
call 0 trace sheet --memory 36 -o out
silent
same 'a trace' out trace
call 0 trace sheet -o -
same 'trace -o -' stdout trace
call 0 trace - -o out < sheet
same 'trace -' out trace
replays 0 'agrees, 12 accesses'
call 0 replay sheet - < trace
same 'replay -, a trace' stdout expected
call 0 replay - trace < sheet
same 'replay -, a sheet' stdout expected

# The first difference counts: at the first, in the middle and at the last access, of every number.
edited "1s/.*/$(access 1 0 3 0)/;5s/.*/$(access 2 0 1 0)/"
replays 1 'differs at access 0: the rules have 12, the card 12' '  the rules: step 1 (load), element 0: filled' \
    '  the card:  step 1 (load), element 0: byte 0'
edited "7s/.*/$(access 2 2 3 4)/"
replays 1 'differs at access 6: the rules have 12, the card 12' '  the rules: step 2 (load), element 2: byte 0' \
    '  the card:  step 2 (load), element 2: byte 4'
edited "5s/.*/$(access 2 0 3 65534)/"
replays 1 'differs at access 4: the rules have 12, the card 12' '  the rules: step 2 (load), element 0: skipped' \
    '  the card:  step 2 (load), element 0: byte 65534'
edited "12s/.*/$(access 4 3 1 0)/"
replays 1 'differs at access 11: the rules have 12, the card 12' '  the rules: step 4 (store), element 3: discarded' \
    '  the card:  step 4 (store), element 3: filled'
edited "12s/.*/$(access 4 4 2 0)/"
replays 1 'differs at access 11: the rules have 12, the card 12' '  the rules: step 4 (store), element 3: discarded' \
    '  the card:  step 4 (store), element 4: discarded'
edited "12s/.*/$(access 5 3 2 0)/"
replays 1 'differs at access 11: the rules have 12, the card 12' '  the rules: step 4 (store), element 3: discarded' \
    '  the card:  step 5, element 3: discarded'
edited "11s/.*/$(access 4 2 3 4294967295)/"
replays 1 'differs at access 10: the rules have 12, the card 12' '  the rules: step 4 (store), element 2: byte 34' \
    '  the card:  step 4 (store), element 2: byte 4294967295'
# Accesses that are missing or too many.
edited 1d
replays 1 'differs at access 0: the rules have 12, the card 11' '  the rules: step 1 (load), element 0: filled' \
    '  the card:  step 1 (load), element 1: byte 16'
edited 4d
replays 1 'differs at access 3: the rules have 12, the card 11' '  the rules: step 1 (load), element 3: filled' \
    '  the card:  step 2 (load), element 0: skipped'
edited '12d'
replays 1 'differs at access 11: the rules have 12, the card 11' '  the rules: step 4 (store), element 3: discarded' \
    '  the card:  nothing more'
: > trace
replays 1 'differs at access 0: the rules have 12, the card 0' '  the rules: step 1 (load), element 0: filled' \
    '  the card:  nothing more'
edited "1s/.*/$(access 0 15 0 0) &/"
replays 1 'differs at access 0: the rules have 12, the card 13' '  the rules: step 1 (load), element 0: filled' \
    '  the card:  step 0 (fill), element 15: skipped'
edited "8s/.*/& $(access 3 0 3 5)/"
replays 1 'differs at access 8: the rules have 12, the card 13' '  the rules: step 4 (store), element 0: discarded' \
    '  the card:  step 3 (reduce), element 0: byte 5'
edited "12s/.*/& $(access 4 4 2 0)/"
replays 1 'differs at access 12: the rules have 12, the card 13' '  the rules: nothing more' \
    '  the card:  step 4 (store), element 4: discarded'
edited "12s/.*/& $(access 65535 65535 3 1)/"
replays 1 'differs at access 12: the rules have 12, the card 13' '  the rules: nothing more' \
    '  the card:  step 65535, element 65535: byte 1'

# refused_trace 'NUMBER FIRST' CAUSE: the trace is refused, and not the sheet.
refused_trace() {
    call 4 replay sheet trace --memory 36
    silent
    echo "moonbleat: refusal ${1% *} at byte ${1#* } of the trace: $2" > line
    same "the line of refusal ${1% *} of a trace" stderr line
}

# unlisted 'NUMBER' CAUSE HEX..: refused as the first field, and, with right ones before it and behind it, as the
# third. AT in the cause is the field's index.
unlisted() {
    number=$1
    cause=$2
    shift 2
    bytes trace "$@"
    refused_trace "$number 0" "$(echo "$cause" | sed 's/AT/0/')"
    edited "3s/.*/$*/"
    refused_trace "$number 24" "$(echo "$cause" | sed 's/AT/2/')"
}

unlisted 2 'access AT: tag 0x31 is not 0x30' 31 0900 0100 0200 03 12000000
unlisted 2 'access AT: tag 0x01 is not 0x30' 01 0100 01
unlisted 2 'access AT: tag 0x00 is not 0x30' 00 0000
unlisted 2 'access AT: tag 0x2F is not 0x30' 2F 0800 0100 0200 04 120000
unlisted 4 'access AT: length 0 is not 9' 30 0000
unlisted 4 'access AT: length 8 is not 9' 30 0800 0100 0200 04 120000
unlisted 4 'access AT: length 10 is not 9' 30 0A00 0100 0200 03 1200000000
unlisted 5 'access AT: sort 4 is not within 0 to 3' "$(access 1 2 4 0)"
unlisted 5 'access AT: sort 255 is not within 0 to 3' "$(access 1 2 255 18)"
unlisted 5 'access AT: byte 1 is not 0, and the element is skipped' "$(access 1 2 0 1)"
unlisted 5 'access AT: byte 256 is not 0, and the element is filled' "$(access 1 2 1 256)"
unlisted 5 'access AT: byte 4278190080 is not 0, and the element is discarded' "$(access 0 0 2 4278190080)"
# 1: a head or a content that is cut off, whatever its tag.
# shortened LENGTH: the first bytes of the right trace.
shortened() {
    recorded right
    head -c "$1" trace > part
    mv part trace
}
for length in 1 2; do
    shortened "$length"
    refused_trace '1 0' "a field's head has 3 bytes, the trace ends after $length"
    shortened $((36 + length))
    refused_trace '1 36' "a field's head has 3 bytes, the trace ends after $length"
done
for length in 3 11; do
    shortened $((132 + length))
    refused_trace '1 132' "access 11: length 9 runs past the end of the trace by $((12 - length))"
done
bytes trace FF FFFF
refused_trace '1 0' 'access 0: length 65535 runs past the end of the trace by 65535'
# 26: an access that is not after the one before.
edited "3s/.*/$(access 1 1 3 18)/"
refused_trace '26 24' 'access 2: step 1, element 1 is not after step 1, element 1 of the access before'
edited "3s/.*/$(access 1 0 3 18)/"
refused_trace '26 24' 'access 2: step 1, element 0 is not after step 1, element 1 of the access before'
edited "12s/.*/$(access 3 65535 2 0)/"
refused_trace '26 132' 'access 11: step 3, element 65535 is not after step 4, element 2 of the access before'
edited "5s/.*/$(access 2 256 0 0)/"
refused_trace '26 60' 'access 5: step 2, element 1 is not after step 2, element 256 of the access before'
# A refusal comes before a difference that stands before it, and the first refusal before later ones.
edited "1s/.*/$(access 1 0 3 0)/;12s/.*/$(access 4 3 4 0)/"
refused_trace '5 132' 'access 11: sort 4 is not within 0 to 3'
edited "2s/.*/$(access 1 0 3 0)/;3s/.*/31 0000/"
refused_trace '26 12' 'access 1: step 1, element 0 is not after step 1, element 0 of the access before'
# The sheet comes first.
bytes trace FF
refused_input '14 4 2' 'store: row 0, column 2: bytes 34 to 35 do not all lie in the memory of 35 bytes' \
    replay sheet trace --memory 35
refused '14 4 2' 'store: row 0, column 2: bytes 34 to 35 do not all lie in the memory of 35 bytes' \
    trace sheet --memory 35

# JSON.
json '.command == "trace" and .accepted and .memory == 36 and (.accesses | length) == 12 and
    .accesses[3] == {step: 1, element: 3, sort: "filled", byte: null} and .accesses[4].sort == "skipped" and
    .accesses[8].sort == "discarded" and .accesses[10] == {step: 4, element: 2, sort: "byte", byte: 34}' \
    call 0 trace sheet --memory 36
json '.accesses | length == 12' call 0 trace sheet -o out
recorded right
same 'a trace beside its JSON' out trace
json '.command == "replay" and .accepted and .refusal == null and .memory == 36 and .agrees and .expected == 12 and
    .recorded == 12 and .difference == null' call 0 replay sheet trace --memory 36
edited 12d
json '(.agrees | not) and .expected == 12 and .recorded == 11 and
    .difference == {index: 11, rules: {step: 4, element: 3, sort: "discarded", byte: null}, card: null}' \
    call 1 replay sheet trace
edited "12s/.*/& $(access 5 0 3 7)/"
json '.difference == {index: 12, rules: null, card: {step: 5, element: 0, sort: "byte", byte: 7}}' \
    call 1 replay sheet trace
bytes trace 31 0000
json '.command == "replay" and (.accepted | not) and .refusal == {number: 2, place: 0, second_place: 0,
    at: "byte 0 of the trace", sentence: "access 0: tag 0x31 is not 0x30"}' call 4 replay sheet trace
json '.refusal.number == 14 and .refusal.at == "step 4, element 2"' call 4 replay sheet trace --memory 35

# A sheet without loads and stores, one with a single access, and the longest trace: of a fill and 31 loads.
bytes sheet "$edition $fill"
: > trace
replays 0 'agrees, 0 accesses'
call 0 trace sheet
silent
call 0 trace sheet -o out
same 'an empty trace' out trace
access 0 0 0 0 > card
recorded card
replays 1 'differs at access 0: the rules have 0, the card 1' '  the rules: nothing more' \
    '  the card:  step 0 (fill), element 0: skipped'
bytes sheet "$edition $layout" 20 0800 00 01 01 00 00000000 "$store"
access 1 0 3 0 > card
recorded card
replays 0 'agrees, 1 access'
bytes sheet "$edition $zigzag $sixteen $seven $seven $seven $seven $load $load $load"
call 0 trace sheet --memory 36 -o trace
if [ "$(wc -c < trace)" -eq $((31 * 256 * 12)) ]; then pass; else fail 'the length of the longest trace'; fi
replays 0 'agrees, 7936 accesses'

# -- Divisions -----------------------------------------------------------------------------------

# divides COUNT WORD..: so many are counted for the sheet.
divides() {
    echo "accepted, divisions: $1" > expected
    shift
    call 0 divisions sheet "$@"
    same 'divisions' stdout expected
    if [ -s stderr ]; then fail "divisions: standard error is '$(head -c 100 stderr)'"; else pass; fi
}

# Index 0 takes none. 1 to 7 are divided by 8 and are then 0. 8 to 31 are divided by 8, passed over by a span
# of 1, and divided by 4. So are 32 to 63, of which a 1 is left for the leading spans of 1.
# 0 + 7 * 1 + 24 * 2 + 32 * 2 = 119.
cat > text << 'END'
edition 1
layout L0 Undefined
  dim size 1 stride 32 span 1
  dim size 1 stride 32 span 1
  dim size 4 stride 8 span 4
  dim size 1 stride 8 span 1
  dim size 8 stride 1 span 8
fill r0 4x16 u16 0
load r0 L0 base 0
END
call 0 asm text -o sheet
divides 119
divides 119 --memory 64
divides 119 --memory=0x40
call 0 divisions - --memory 64 < sheet
same 'divisions -' stdout expected
refused '14 1 31' 'load: row 1, column 15: bytes 62 to 63 do not all lie in the memory of 63 bytes' \
    divisions sheet --memory 63
json '. == {command: "divisions", accepted: true, refusal: null, memory: 64, divisions: 119}' \
    call 0 divisions sheet --memory 64
json '. == {command: "divisions", accepted: false, refusal: {number: 14, place: 1, second_place: 31,
    at: "step 1, element 31",
    sentence: "load: row 1, column 15: bytes 62 to 63 do not all lie in the memory of 63 bytes"}}' \
    call 1 divisions sheet --memory 63

# A view: the first column is skipped, and the other three have indices 0, 1 and 2, which its stride makes 0, 4
# and 8. 4 is divided by 4, and the 1 by 2; 8 by 4, and the 2 by 2. 0 + 2 + 2 = 4. With a stride of 0 every index
# is 0.
cat > text << 'END'
edition 1
layout L0 Undefined
  dim size 2 stride 4 span 2
  dim size 4 stride 1 span 4
view V0 permutation 0
  dim size 4 stride 4
  clip columns 1 65535
view V1 permutation 0
  dim size 4 stride 0
fill r0 1x4 u8 0
load r0 L0 V0 base 0
END
call 0 asm text -o sheet
divides 4
sed -i 's/ V0 base/ V1 base/' text
call 0 asm text -o sheet
divides 0
# A clip that skips all.
sed -i 's/ V1 base/ V0 base/;s/columns 1/columns 4/' text
call 0 asm text -o sheet
divides 0

# Elements that lie outside, in both dimensions or in the first or the last alone: indices 0 to 3 take
# 0 + 1 + 2 + 2 = 5 of spans 2 and 2. A load has the elements of its object, not of its register, and a store
# those of its register.
cat > text << 'END'
edition 1
layout L0 Constant
  dim size 2 stride 2 offset OUTER span 2
  dim size 2 stride 1 offset INNER span 2
fill r0 2x2 u8 7
fill r1 16x16 u8 7
load r1 object r0 L0 base 0
store r1 L0 base 0
END
for offsets in '-2 -2' '-2 0' '0 -2' '2 2' '0 0'; do
    sed "s/OUTER/${offsets% *}/;s/INNER/${offsets#* }/" text > placed_text
    call 0 asm placed_text -o sheet
    divides 10
done

# No steps, and none that goes through a layout.
bytes sheet "$edition"
divides 0
divides 0 --memory 0
bytes sheet "$edition_2 $column $vector" 24 0200 02 00 23 0600 03 00 01 01 03 00 20 0800 01 01 01 05 00000000 \
    25 0400 01 01 01 01
divides 0

# The most steps: 31 loads of 256 elements. Of an index below 256 in five spans of 3, so many divisions are taken as
# it has digits to the base 3, at most five: 2 have one, 6 two, 18 three, 54 four, and 81 to 255 five.
# 2 * 1 + 6 * 2 + 18 * 3 + 54 * 4 + 175 * 5 = 1159.
{
    printf '%s\n' 'edition 1' 'layout L0 Undefined'
    yes '  dim size 3 stride 0 span 3' | head -n 5
    echo 'fill r0 16x16 s32 0'
    yes 'load r0 L0 base 0' | head -n 31
} > text
call 0 asm text -o sheet
divides $((31 * 1159)) --memory 4

# The examples, and what README.md says that they print.
${RUNNER:-} "$bin/example" > stdout 2> stderr
printf '%s\n' ' 12 11 10 11 12 13 12 11' '12 elements had a byte; stored: 2 3 4 5' > expected
same 'the example' stdout expected
${RUNNER:-} "$bin/readme" > stdout 2> stderr
echo '1 by 4, first element 7' > expected
same 'the lines of C in README.md' stdout expected
sed -n '/^    -- the sheet$/,/^    accepted/s/^    //p' "$root/README.md" > expected
{
    echo '-- the sheet'
    grep -v '^#' "$strips/04-mirror-repeat/sheet.txt"
    echo '-- its tape'
    cat "$strips/04-mirror-repeat/tape.txt"
    echo '-- carried out on a memory whose byte i holds i'
    cat "$strips/04-mirror-repeat/run.txt"
} > stdout
same 'the demo in README.md' stdout expected

# The commands of README.md, from the sheet above with a size of 0 on, and what it says that they print.
sed -n 's/^    //;/^-- the sheet$/,/^-- its tape$/p' "$root/README.md" | grep -v '^--' | sed 's/size 4/size 0/' > my.txt
sed -n '/^    \$ /,/^$/p' "$root/README.md" | sed 's/^    //' > console
sed -n 's/^\$ //p' console | sed "s|target/tool/|$bin/|g" > commands
grep -v -e '^\$ ' -e '^$' console > expected
sh commands > stdout 2>&1
same 'the commands of README.md' stdout expected
if [ -s expected ]; then pass; else fail 'no commands in README.md'; fi

# The usage in the manual is the tool's.
sed -n 's/^    \(moonbleat [a-z-]\)/  \1/p' "$root/harness/README.md" > stdout
sed 1d usage > expected
same 'the usage in the manual' stdout expected

# Hex that is none.
for text in 0 0g 'x1' '01 # 23' ; do
    status=0
    echo "$text" | "$bin/unhex" > stdout 2> stderr || status=1
    case $text-$status in
        '01 # 23-0' | 0-1 | 0g-1 | x1-1) pass ;;
        *) fail "unhex of '$text': $status" ;;
    esac
done

echo "tests of the tool: $passed passed, $failed failed"
[ "$failed" -eq 0 ]
