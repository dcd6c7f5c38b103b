#!/bin/sh
# Tests of the tool's edges: what it must not lose (outputs that are inputs, files of signals, pipes and
# devices), what it must not misread (texts in place of sheets, files of other forms), and what it says
# (lines of warnings, near words, names with control characters).
#
#   tests/edges.sh FOLDER      FOLDER has the programs moonbleat and unhex

# shellcheck source=tests/common.sh
. "$(dirname "$0")/common.sh"

# prints LINE..: standard output must be these lines.
prints() {
    printf '%s\n' "$@" > expected
    same "what is printed" stdout expected
}

# errors LINE..: standard error must be these lines.
errors() {
    printf '%s\n' "$@" > expected
    same "what is said" stderr expected
}

# wrong TEXT WORD..: exit status 2, nothing printed, and standard error begins with the text.
wrong() {
    text=$1
    shift
    call 2 "$@"
    silent
    head -n 1 stderr > first
    printf 'moonbleat: %s\n' "$text" > expected
    same "wrong use: $*" first expected
}

# Strip 6: a load of bytes 16 to 19, clamped, and a store of them to 0 to 3.
cat > sheet.txt << 'END'
# comment
edition 1
layout L0 ClampToEdge
  dim size 4 stride 1 offset -2 span 8
fill r0 1x8 u8 0
load r0 L0 base 16
store r0 L0 base 0
END
call 0 asm sheet.txt -o sheet
"$bin/unhex" < "$root/strips/06-clamped-store/memory.hex" > memory || fail 'the memory'
tool tape sheet --masks masks > tape || fail 'the tape'
tool trace sheet -o trace || fail 'the trace'
tool run sheet memory -o after > ran || fail 'the memory afterwards'

# -- Outputs that are inputs -----------------------------------------------------------------------

# kept WHAT WORD..: the command is refused since it would replace WHAT, which stays as it was.
kept() {
    what=$1
    shift
    cp "$what" before
    call 3 "$@"
    silent
    contains 'would replace a file that is read' stderr
    same "$what stays" "$what" before
}

cp sheet.txt text
ln text linked
ln -s text leads
mkdir folder
for name in text ./text "$work/text" folder/../text linked leads; do
    kept text asm text -o "$name"
done
says 'moonbleat: leads: -o would replace a file that is read, text'
kept text asm leads -o text
kept text asm - -o text < text
says 'moonbleat: text: -o would replace a file that is read, -'
kept sheet run sheet memory -o sheet
kept sheet run sheet memory --registers ./sheet
kept memory run sheet memory --registers memory
kept sheet tape sheet --masks sheet
kept sheet trace sheet -o sheet
kept tape run-tape sheet tape memory -o tape
kept sheet run-tape sheet tape memory -o after --registers sheet
# The memory is written over where it is named twice, and only there.
kept memory run sheet memory -o ./memory
kept memory run-tape sheet tape memory -o ./memory
for words in 'run sheet copy' 'run-tape sheet tape copy'; do
    cp memory copy
    # shellcheck disable=SC2086
    call 0 $words -o copy
    same 'the memory, named twice' copy after
done
# Two outputs are two files, there already or not.
for name in same ./same folder/../same "$work/same"; do
    broken "$name: two outputs go to this file" run sheet memory -o same --registers "$name"
    absent same
done
: > same
ln same other
broken 'other: two outputs go to this file' run sheet memory -o same --registers other
call 0 run sheet memory -o folder/out --registers out
same 'an output beside one of its name elsewhere' folder/out after
rm -f same other out folder/out
# What cannot be lost may be both.
call 3 asm /dev/null -o /dev/null
errors '/dev/null:1:1: the sheet has no edition'
call 0 run sheet memory -o /dev/null --registers /dev/null

# -- Pipes and devices -----------------------------------------------------------------------------

mkfifo pipe
cat pipe > piped &
call 0 run sheet memory -o pipe
wait
same 'a pipe' piped after
same 'what is printed beside a pipe' stdout ran
if [ -p pipe ]; then pass; else fail 'a pipe was replaced'; fi
# Through a link, so that a fault here could not replace the device itself.
ln -s /dev/null device
call 0 run sheet memory -o device
if [ -h device ] && [ -c /dev/null ]; then pass; else fail 'a device was replaced'; fi
tool asm sheet.txt -o /dev/stdout | cat > stdout
same 'asm to /dev/stdout, a pipe' stdout sheet
call 0 run sheet memory -o /dev/stdout
same 'run to /dev/stdout, a file' stdout after
wrong 'standard output can take only one of -o, --registers, --masks and --json' run sheet memory -o - \
    --registers /dev/stdout
if [ -c /dev/full ]; then
    : > empty
    cp empty out
    broken '/dev/full: No space left on device' run sheet memory -o out --registers /dev/full
    same 'an output beside a full device' out empty
    rm out
fi
broken 'folder: not a regular file' run sheet memory -o folder
# A pipe whose reader has gone ends the tool, and nothing is left.
(sleep 0.2; : < pipe) &
tool run sheet memory -o folder/out --registers pipe > stdout 2> stderr
wait
if [ -z "$(ls -A folder)" ]; then pass; else fail "left by a broken pipe: $(ls -A folder)"; fi

# -- Signals ---------------------------------------------------------------------------------------

# The pipe has no reader, so that the tool waits with its other output under another name.
"$bin/moonbleat" run sheet memory -o folder/out --registers pipe > stdout 2> stderr &
waiting=$!
for _ in 1 2 3 4 5 6 7 8 9 10 11 12 13 14 15 16 17 18 19 20; do
    if [ -n "$(ls -A folder)" ]; then break; fi
    sleep 0.1
done
case $(ls -A folder) in
    out.??????) pass ;;
    *) fail "in the folder of an output that waits: '$(ls -A folder)'" ;;
esac
kill "$waiting"
{ wait "$waiting"; } 2> stderr
if [ $? -eq 143 ]; then pass; else fail 'the status of a tool that is ended'; fi
if [ -z "$(ls -A folder)" ]; then pass; else fail "left by a signal: $(ls -A folder)"; fi
# ended SIGNAL STATUS: the signal ends the tool while it waits, and nothing is left.
ended() {
    timeout --preserve-status -s "$1" 0.1 "$bin/moonbleat" run sheet memory -o folder/out --registers pipe \
        > stdout 2> stderr
    if [ $? -eq "$2" ]; then pass; else fail "the status after $1"; fi
    if [ -z "$(ls -A folder)" ]; then pass; else fail "left by $1: $(ls -A folder)"; fi
}
for _ in 1 2 3 4 5 6 7; do
    ended INT 130
    ended TERM 143
    ended HUP 129
done
# An ignored signal stays ignored: the output is written when the pipe is read.
(trap '' HUP; exec "$bin/moonbleat" run sheet memory -o folder/out --registers pipe) > stdout 2> stderr &
waiting=$!
sleep 0.2
kill -HUP "$waiting"
cat pipe > piped
wait "$waiting"
if [ $? -eq 0 ]; then pass; else fail 'a tool below nohup'; fi
same 'an output below nohup' folder/out after
rm folder/out

# -- The text form in place of a sheet -------------------------------------------------------------

# alike STATUS WORD..: the command, of which SHEET is a word, answers the same for the sheet and for its text.
alike() {
    wanted=$1
    shift
    for sheet in sheet sheet.txt; do
        # shellcheck disable=SC2046
        tool $(echo "$*" | sed "s/SHEET/$sheet/") > "$sheet.stdout" 2> "$sheet.stderr"
        if [ $? -eq "$wanted" ]; then pass; else fail "$* with $sheet: $(cat "$sheet.stderr")"; fi
    done
    same "$*: printed" sheet.txt.stdout sheet.stdout
    same "$*: said" sheet.txt.stderr sheet.stderr
}
for words in 'check SHEET' 'run SHEET memory' 'tape SHEET' 'run-tape SHEET tape memory' 'trace SHEET' \
    'replay SHEET trace' 'divisions SHEET' 'where SHEET 1' 'touched SHEET 2 2' 'show SHEET' 'show SHEET --asm' \
    'show SHEET --json' 'diff SHEET memory --card c=after' \
    'diff SHEET memory --card c=after --trace c=trace --json'; do
    alike 0 "$words"
done
: > empty
for words in 'check SHEET --memory 8' 'tape SHEET --memory 8' 'trace SHEET --memory 8' 'run SHEET empty'; do
    alike 1 "$words"
done
call 0 check - < sheet.txt
prints 'accepted, byte-elements: 12'
# A text with errors is told as asm tells it, by every command.
sed 's/size 4/size 0/' sheet.txt > bad.txt
for words in 'check bad.txt' 'run bad.txt memory' 'tape bad.txt' 'run-tape bad.txt tape memory' 'trace bad.txt -o out' \
    'replay bad.txt trace' 'divisions bad.txt' 'where bad.txt 1' 'touched bad.txt 1 0' 'show bad.txt' \
    'diff bad.txt memory --card c=after'; do
    # shellcheck disable=SC2086
    call 3 $words
    silent
    errors 'bad.txt:4:12: size 0 is not within 1 to 4096'
done
absent out
# What is no text is read as bytes: three first bytes tell.
for hex in '61 62 00' '23 07 0A' '20 0800' '7F 41 41' 'EF BB BF 00' 'FF 41 41 41'; do
    bytes odd "$hex"
    tool check odd > stdout 2> stderr
    case $hex-$(cat stderr) in
        'EF BB BF 00-odd:1:1: '* | ??' '*-'moonbleat: refusal '*) pass ;;
        *) fail "bytes $hex: $(cat stderr)" ;;
    esac
done
for line in 'edition 1' '# c' '' ' edition 1' '	edition 1' 'x'; do
    printf '%s\nedition 1 1\n' "$line" > odd
    tool check odd > stdout 2> stderr
    case $(cat stderr) in
        odd:*) pass ;;
        *) fail "a text that begins '$line': $(cat stderr)" ;;
    esac
done
yes '# comment' | head -c 1048577 > long
broken 'long: longer than 1048576 bytes' check long
# A text may allow what the library refuses.
printf 'allow refused\nedition 9\n' > refused.txt
call 1 check refused.txt
errors 'moonbleat: refusal 6 at byte 0: edition 9 is not within 1 to 3'

# -- Lines of warnings -----------------------------------------------------------------------------

# warns LINE TEXT: asm warns at this line of the text.
warns() {
    printf '%b' "$2" > warned
    call 0 asm warned -o out
    contains "warned:$1: warning: refusal " stderr
}
start='edition 1\nlayout L0 Undefined\n  dim size 8 stride 1 span 8\n'
warns 5 "${start}fill r0 1x8 u8 0\nload r0 L0 base 8\n"
errors 'warned:5: warning: refusal 9 at step 1: load: base 8 is not a multiple of 16'
warns 4 "${start}store r0 L0 base 0\nfill r0 1x8 u8 0\n"
warns 7 "\n\n${start}# comment\nstore r0 L0 base 0\n"
warns 6 "${start}fill r0 1x8 u8 0\n\nload r0 L0 base 65536\n"
warns 3 'allow refused\nedition 1\nlayout L0 9\n  dim size 1 stride 1 span 1\nfill r0 1x1 u8 0\n'
warns 2 'allow refused\n# nothing\n'
warns 4 'allow refused\nedition 1\n# bytes\nbytes 12 0000\nbytes 12 0000\n'

# -- An OUT in the night's folder ------------------------------------------------------------------

mkdir night
cp sheet night/a.sheet
cp memory night/a.memory
cp after night/a.card.after
ls night > before
for name in report.txt b.sheet b.memory b.card.after b.card.registers b.card.trace b.card.refusal; do
    for out in "night/$name" "./night/../night/$name" "$work/night/$name"; do
        broken "$out: the next night would read this as a file of its folder" night night -o "$out"
        broken "$out: the next night would read this as a file of its folder" night night --html "$out"
    done
done
ln -s ../report night/linked.txt
broken 'night/linked.txt: the next night would read this as a file of its folder' night night -o night/linked.txt
rm night/linked.txt
ln -s night/a.memory outside
broken 'outside: the next night would read this as a file of its folder' night night -o outside
same 'a memory of the night' night/a.memory memory
ls night > stdout
same 'the files of the night' stdout before
call 0 night night -o night/report --html night/report.html --json
call 0 night night -o report.txt
call 0 night night -o /dev/stdout
contains 'a card agrees' stdout
kept night/report night --merge night/report -o night/report
# The last night's report is read too, and stays; standard input can be it, once.
for words in 'night' '--merge night/report'; do
    cp night/report last
    # shellcheck disable=SC2086
    for option in -o --html; do
        kept last night $words --since last "$option" ./last
    done
    # shellcheck disable=SC2086
    call 0 night $words --since - < last
    contains 'since night night, ' stdout
done
kept last night night --since - -o last < last
says 'moonbleat: last: -o would replace a file that is read, -'
wrong 'standard input can be read only once' night --merge - --since - < last
rm night/report night/report.html

# -- Files of other forms --------------------------------------------------------------------------

call 0 show trace
prints 'trace: 192 bytes, 16 accesses' "$(tool trace sheet | sed 's/ ([a-z]*)//')"
call 0 show - < trace
same 'a trace from standard input' stdout expected
json '.form == "trace" and .accepted and .bytes == 192 and (.accesses | length) == 16 and
    .accesses[8] == {step: 2, element: 0, sort: "discarded", byte: null}' call 0 show trace
head -c 30 trace > short
call 1 show short
errors 'moonbleat: refusal 1 at byte 24 of the trace: access 2: length 9 runs past the end of the trace by 6'
prints 'trace: 30 bytes, refused' '0: step 1, element 0: byte 16' '1: step 1, element 1: byte 16' \
    "^ $(sed 's/^moonbleat: //' stderr)" '6 more bytes'
json '(.accepted | not) and .refusal.at == "byte 24 of the trace" and (.accesses | length) == 2' call 1 show short
: > empty
call 0 show empty --as trace
prints 'trace: 0 bytes, 0 accesses'
call 1 show empty
errors 'moonbleat: refusal 3 at byte 0: the sheet has no edition'

call 0 show tape
prints 'tape: 5 records' '0: whole step 0' '1: take into register 0, 3 from element 0 on, byte 16, step 0' \
    '2: take into register 0, 3 from element 3 on, byte 17, step 1' \
    '3: take into register 0, 2 from element 6 on, byte 19, step 0' \
    '4: put from register 0, 4 from element 2 on, byte 0, step 1'
printf ' 0 1 2 0 0 0\n3 1 0 4 -1 0\n-1 0 0 0 0 0\n' > records
call 0 show records
prints 'tape: 3 records' '0: copy register 2 to register 1' '1: fill register 1, 4 from element 0 on, with bits -1' \
    '2: no op has number -1'
json '.form == "tape" and .records == [[0,1,2,0,0,0],[3,1,0,4,-1,0],[-1,0,0,0,0,0]]' call 0 show records
call 0 show empty --as tape
prints 'tape: 0 records'
printf '4 0 0\n' > records
broken 'records: line 1 is no record of six 32-bit numbers' show records
yes '4 0 0 0 0 0' | head -n 1025 > records
broken 'records: a tape has at most 1024 records' show records

call 0 show masks
prints 'masks: 32 steps' 'step 1: 8 elements: 0 to 7' 'step 2: 4 elements: 2 to 5' '30 steps: nothing'
json '.form == "masks" and .masks[2] == [2,3,4,5] and (.masks | length) == 32' call 0 show masks
cp masks odd_masks
printf '\201' | dd of=odd_masks bs=1 seek=34 conv=notrunc status=none
call 0 show odd_masks
prints 'masks: 32 steps' 'step 1: 2 elements: 0, 7; its count is 8' 'step 2: 4 elements: 2 to 5' '30 steps: nothing'
printf '\001' | dd of=odd_masks bs=1 conv=notrunc status=none
call 1 show odd_masks
call 0 show odd_masks --as masks
contains 'step 0: 1 element: 0; its count is 0' stdout
broken 'trace: it has fewer bytes than the 1088 of masks' show trace --as masks
cat masks masks > twice
broken 'twice: it has more bytes than the 1088 of masks' show twice --as masks
call 1 show masks --as sheet
call 1 show masks --as trace
call 0 show sheet --as sheet
call 3 show sheet --as tape
broken 'masks: --asm prints sheets, and the form of this file is masks' show masks --asm
wrong '--as card: not sheet, trace, tape or masks' show sheet --as card
json '.form == "sheet"' call 0 show sheet.txt

# -- What masks say, and positions -----------------------------------------------------------------

for element in 0 1 2 3 4 5 6 7; do
    for words in "sheet 2 $element" "sheet 2 0,$element" "--masks masks 2 $element"; do
        # shellcheck disable=SC2086
        tool touched $words > stdout 2> stderr
        case $?-$element in
            0-[2-5] | 1-[0167]) pass ;;
            *) fail "touched $words: $(cat stdout stderr)" ;;
        esac
    done
done
call 0 touched sheet 2 0,5
prints 'touched: step 2, element 5: byte 3'
call 1 touched sheet 0 0,5
prints 'not touched: step 0, row 0, column 5: fill is no load or store; loads and stores: 1 (load), 2 (store)'
json '.element == null and .step == 0 and (.touched | not)' call 1 touched sheet 0 0,5
json '.element == 5 and .touched' call 0 touched sheet 2 0,5
wrong '1,0: the matrix of step 2 is 1 by 8' touched sheet 2 1,0
wrong '0,8: the matrix of step 2 is 1 by 8' touched sheet 2 0,8
call 0 touched --masks masks 2 5
prints 'touched: step 2, element 5: bit 5 of byte 68 is set'
call 1 touched 2 --masks=masks 0x0
prints 'not touched: step 2, element 0: bit 0 of byte 68 is not set'
call 1 touched --masks - 32 0 < masks
prints 'not touched: step 32, element 0: masks have 32 steps of 256 elements, from 0 on'
call 1 touched --masks masks 31 256
json '. == {command: "touched", accepted: true, refusal: null, step: 2, element: 5, touched: true,
    reason: "bit 5 of byte 68 is set"}' call 0 touched --masks masks 2 5
broken 'trace: it has fewer bytes than the 1088 of masks' touched --masks trace 2 5
broken 'nowhere: No such file or directory' touched --masks nowhere 2 5
wrong '0,5: masks have no rows and columns, ELEMENT must be a number' touched --masks masks 2 0,5
wrong 'touched takes one of --masks and --memory' touched --masks masks 2 5 --memory 64
wrong 'touched takes SHEET STEP ELEMENT' touched 2 5

# -- Memory in hex ---------------------------------------------------------------------------------

# dump FILE: as xxd prints it, without the characters.
dump() {
    od -An -v -tx1 -w16 "$1" | awk '{
        printf "%08x:", 16 * (NR - 1)
        for (i = 1; i <= 16; i++) printf "%s%2s", i % 2 == 1 ? " " : "", i <= NF ? $i : ""
        print ""
    }'
}
cat > stores.txt << 'END'
edition 1
layout L0 Undefined
  dim size 16 stride 1 span 16
fill r0 1x3 u16 0x4142
fill r1 1x1 u8 0x7F
store r0 L0 base 0
store r1 L0 base 32
store r1 L0 base 0
END
zeros room 45
call 0 run stores.txt room --hex -o out
sed -n 's/^\([0-9a-f]\{8\}:.\{40\}\).*/\1/p' stdout > hex
dump out > expected
same 'a memory in hex' hex expected
sed -n 's/^00000000: .*  \([^ ]*\)$/\1/p' stdout > text
echo '.ABABA..........' > expected
same 'its characters' text expected
tail -n 4 stdout > writers
printf '%s\n' 'byte 0: step 4 (store)' 'bytes 1 to 5: step 2 (store)' 'byte 32: step 3 (store)' \
    'no step writes 38 bytes' > expected
same 'who wrote it' writers expected
if command -v xxd > exists; then
    xxd out > expected
    grep '^[0-9a-f]\{8\}: ' stdout > hex
    same 'a memory as xxd prints it' hex expected
fi
call 0 run stores.txt room -o out
if grep -q '^00000000' stdout; then fail 'hex that nobody asked for'; else pass; fi
: > empty
printf 'edition 1\n' > nothing.txt
call 0 run nothing.txt empty --hex
contains 'no step writes 0 bytes' stdout
call 1 run stores.txt empty --hex
silent
wrong 'run prints one of --hex and --json' run stores.txt room --hex --json

# -- The text form's own edges ---------------------------------------------------------------------

# A byte-order mark is passed over, and columns count from behind it.
{ printf '\357\273\277'; cat sheet.txt; } > marked.txt
call 0 asm marked.txt -o out
same 'a text with a byte-order mark' out sheet
call 0 check marked.txt
printf '\357\273\277edition 9\n' > marked.txt
call 3 check marked.txt
errors 'marked.txt:1:9: edition 9 is not within 1 to 3'
# Numbers of a dimension in any order.
order() {
    sed "s/^  dim .*/  dim $1/" sheet.txt > ordered.txt
}
for words in 'span 8 offset -2 stride 1 size 4' 'offset -2 size 4 span 8 stride 1' 'span 8 block 1 stride 1 size 4 offset -2'; do
    order "$words"
    call 0 asm ordered.txt -o out
    same "dim $words" out sheet
done
cat > view.txt << 'END'
edition 1
layout L0 Repeat
  dim size 8 stride 1 span 8
view V0 permutation 0
  dim stride 2 size 4
END
call 0 show view.txt
contains '  dimension 0: size 4, stride 2' stdout
# disordered WORDS ERROR..: the errors of a dimension.
disordered() {
    order "$1"
    shift
    call 3 check ordered.txt
    errors "$@"
}
disordered 'span 8 size 4' "ordered.txt:4:20: expected 'stride' and a number"
disordered 'span 8 size 4 size 5 stride 1' "ordered.txt:4:21: 'size' is given twice"
disordered 'span 9999 sise 4 stride 1' 'ordered.txt:4:12: span 9999 is not within 1 to 4096' \
    "ordered.txt:4:17: expected 'size' and a number, not 'sise'; did you mean 'size'?"
disordered 'size stride 1 span 8' "ordered.txt:4:12: expected the size, a number, not 'stride'"
disordered 'size 4 stride 1 span 8 ofset -2' \
    "ordered.txt:4:30: expected the end of the line, not 'ofset'; did you mean 'offset'?"
disordered 'size 4 stride 1 span 8 9' "ordered.txt:4:30: expected the end of the line, not '9'"
disordered 'sise 4 strid 1 spam 8' "ordered.txt:4:7: expected 'size' and a number, not 'sise'; did you mean 'size'?" \
    "ordered.txt:4:14: expected 'stride' and a number, not 'strid'; did you mean 'stride'?" \
    "ordered.txt:4:22: expected 'span' and a number, not 'spam'; did you mean 'span'?"
# means WORD MEANT LINE: a word in a text, and the one that may be meant.
means() {
    printf 'edition 1\n%b\n' "$3" > near.txt
    call 3 check near.txt
    contains "'$1'; did you mean '$2'?" stderr
}
printf 'edition 1\nlaod r0 L0 base 0\n' > near.txt
call 3 check near.txt
errors "near.txt:2:1: 'laod' begins no field; did you mean 'load'?"
means clampToEdge ClampToEdge 'layout L0 clampToEdge\n  dim size 1 stride 1 span 1'
means MirorRepeat MirrorRepeat 'layout L0 MirorRepeat\n  dim size 1 stride 1 span 1'
means colum column 'fill r0 1x1 u8 0\nreduce r1 of r0 1x1 colum add'
means ofsett offset 'layout L0 Repeat\n  dim size 1 stride 1 ofsett 3 span 1'
means bass base 'layout L0 Repeat\n  dim size 1 stride 1 span 1\nfill r0 1x1 u8 0\nload r0 L0 bass 0'
for line in 'frob r0' 'x' 'layout L0 Mirror\n  dim size 1 stride 1 span 1' 'fill r0 1x1 s7 0'; do
    printf 'edition 1\n%b\n' "$line" > near.txt
    call 3 check near.txt
    if grep -q 'did you mean' stderr; then fail "near words of '$line': $(cat stderr)"; else pass; fi
done
# A step of a later edition is told where it stands, whatever else is wrong there.
printf 'edition 1\nfill r0 1x1 u8 0\n vector r9 s32 of r0 as u8 matrix s8 1x1 row-major stride 0 offset 0\nfill r8 1x1 u8 0\n' \
    > later.txt
call 3 check later.txt
errors 'later.txt:3:2: tag 0x26 (vector) comes with edition 2, and the sheet has edition 1' \
    'later.txt:3:9: result 9 is not within 0 to 3' 'later.txt:4:6: register 8 is not within 0 to 3'

# -- What is said ----------------------------------------------------------------------------------

# Names that cannot be read are quoted, others stand as they are.
name=$(printf 'a\nb\033[1m')
quoted='"a\nb\x1B[1m"'
gone='No such file or directory'
broken "$quoted: $gone" check "$name"
broken "$quoted: $gone" run sheet "$name"
broken "$quoted: $gone" run-tape sheet "$name" memory
broken "$quoted: $gone" touched --masks "$name" 0 0
broken "\"a\\nb/out\": $gone" run sheet memory -o "$(printf 'a\nb/out')"
broken "a b: $gone" check 'a b'
broken 'été: No such file or directory' check 'été'
broken "\"\\xFF\": $gone" check "$(printf '\377')"
wrong "unknown command $quoted" "$name"
wrong "unknown command $quoted" help "$name"
wrong 'check does not take "-\n-"' check sheet "$(printf -- '-\n-')"
wrong "check takes SHEET, and $quoted is one more" check sheet "$name"
wrong "--memory $quoted: not a length in bytes" check sheet --memory "$name"
wrong "$quoted: not the number of a step" where sheet "$name"
wrong "$quoted: not the number of a step" touched sheet "$name" 0
wrong "--element $quoted: not the number of an element, and not ROW,COLUMN" where sheet 1 --element "$name"
wrong "-j $quoted: not a number of processes, 1 to 1024" night night -j "$name"
wrong "--as $quoted: not sheet, trace, tape or masks" show sheet --as "$name"
wrong "--card $quoted: not a NAME=AFTER" diff sheet memory --card "$name"
wrong "--trace $quoted: no card has this name" diff sheet memory --card c=after --trace "$name=trace"
wrong "--trace $quoted is given twice" diff sheet memory --card "$name=after" --trace "$name=a" --trace "$name=b"
long=$(printf '\n%0255d' 0)
wrong "--name \"\\n${long#?}\": not a name of 1 to 255 bytes" night night --name "$long"
broken "night: no card $quoted is there" night night --card "$name"
broken "$quoted: $gone" night night --since "$name"
cp bad.txt "$name"
call 3 asm "$name" -o out
errors "$quoted:4:12: size 0 is not within 1 to 4096"
printf 'edition 1\nfill r0 1x1 u8 0\ntranspose r1 of r2\n' > "$name"
call 0 asm "$name" -o out
errors "$quoted:3: warning: refusal 7 at step 1: transpose: register 2 is empty"
call 3 night --merge "$name"
says "moonbleat: $quoted: line 1: not a whole report of moonbleat night"
tool night night --json -o part.json --shard 1/2
tool night night --json -o "$name" --shard 2/2 --name other
call 3 night --merge part.json "$name"
errors "moonbleat: $quoted: its night has another name than that of part.json: parts of two nights are not merged"
call 3 night --merge "$name" part.json
contains "than that of $quoted: parts" stderr
sed 's/"format": 2/"format": 1/' part.json > "$name"
broken "$quoted: a report of format 1, and this is for format 2: make it anew" night night --since "$name"
rm "$name"

# The nearest command or option.
wrong 'unknown command chek; did you mean check?' chek
wrong 'unknown command Tape; did you mean tape?' Tape
wrong 'unknown command run_tape; did you mean run-tape?' help run_tape
wrong 'unknown command frobnicate' frobnicate
wrong 'check does not take --memroy; did you mean --memory?' check sheet --memroy 64
wrong 'check does not take --memry=64; did you mean --memory?' check sheet --memry=64
wrong 'night does not take --jsno; did you mean --json?' night night --jsno
wrong 'night does not take --sinse; did you mean --since?' night night --sinse last
wrong 'run does not take --registrs; did you mean --registers?' run sheet memory --registrs out
wrong 'check does not take --halp; did you mean --help?' check --halp
wrong 'check does not take --frobnicate' check sheet --frobnicate
wrong 'check does not take -x' check sheet -x

# Usage and help.
call 2
contains '  moonbleat --version' stderr
call 2 nothing
contains '  moonbleat --version' stderr
# writes COMMAND WHAT: the help of -o says what this command writes.
writes() {
    call 0 help "$1"
    contains "      write $2 to OUT" stdout
}
writes asm 'the sheet'
writes run 'the memory afterwards'
writes run-tape 'the memory afterwards'
writes trace 'the trace, which is then not printed,'
writes night 'the report'
wrong 'night takes DIR' night
wrong 'night --merge takes the JSON reports of all parts, PART.json ..' night --merge
wrong 'night --merge takes the JSON reports of all parts, PART.json ..' night --merge --csv

# unhex says what it is.
for word in --help -h; do
    "$bin/unhex" "$word" > stdout 2> stderr < /dev/null
    if [ $? -eq 0 ]; then pass; else fail "unhex $word"; fi
    contains 'usage: unhex < HEX > BYTES' stdout
done
"$bin/unhex" file > stdout 2> stderr < /dev/null
if [ $? -eq 2 ]; then pass; else fail 'unhex with a word'; fi
silent
contains 'usage: unhex < HEX > BYTES' stderr

echo "tests of the edges: $passed passed, $failed failed"
[ "$failed" -eq 0 ]
