#!/bin/sh
# Tests of diff and night: a card's memory and registers beside what a sheet must leave, a night's folder
# in all forms of report, its parts merged, and bad input.
#
#   tests/night.sh FOLDER      FOLDER has the programs moonbleat and unhex

# shellcheck source=tests/common.sh
. "$(dirname "$0")/common.sh"
tests=$root/tests

# lines LINE..: standard output must be these lines.
lines() {
    printf '%s\n' "$@" > expected
    same 'standard output' stdout expected
}

# errors LINE..: standard error must be these lines.
errors() {
    printf '%s\n' "$@" > expected
    same 'standard error' stderr expected
}

# pairs REPORT: the lines of sheets and cards of a report in text, which stand behind its first paragraph.
pairs() {
    awk -v RS= 'NR == 2' "$1"
}

# body REPORT: these and the totals, without the night's name and its causes.
body() {
    awk -v RS= 'NR == 2 { print; print "" } { last = $0 } END { print last }' "$1"
}

# put NAME BYTE OCTAL..: writes bytes, each as three octal digits, into a file from a byte on.
put() {
    file=$1
    at=$2
    shift 2
    printf '%b' "$(printf '\\0%s' "$@")" | dd of="$file" bs=1 seek="$at" conv=notrunc status=none
}

# -- diff ----------------------------------------------------------------------------------------

# Steps 5 and 6 store r1 and r2, 16 words each, from bytes 240 and 256 on: of r1's only the first four
# words are left. Bytes 1 and 2 of the words of 1 are 0.
cat > text << 'END'
edition 1
layout L0 Constant value 0
  dim size 1024 stride 1 span 1024
fill r0 1x16 u32 7
fill r1 1x16 u32 1
fill r2 1x16 u32 0
load r0 object r0 L0 base 0
transpose r3 of r0
store r1 L0 base 240
store r2 L0 base 256
END
tool asm text -o sheet || fail 'the sheet'
zeros memory 512
call 0 run sheet memory -o wanted --registers wanted_registers

cp wanted agreeing
call 0 diff sheet memory --card card9=agreeing
lines 'card9 agrees'
call 0 diff sheet memory --card card9=agreeing --registers card9=wanted_registers
lines 'card9 agrees'

# Three runs: words 11 and 13 of r2, and bytes that no step stores to.
cp wanted differing
put differing 300 125 125 125 125
put differing 308 125 125 125 125
put differing 400 125 125 125 125
first='step 2 fill r2, element 11 (0, 11); byte 300 wants 00, has 55; step 6 store r2, element 11 (0, 11), byte 0 of 4; 12 bytes differ in 3 runs'
call 1 diff sheet memory --card card7=differing --card card9=agreeing
lines "card7 differs: $first" 'card9 agrees'
call 1 diff sheet memory --all --card card9=agreeing --card card7=differing
lines 'card9 agrees' "card7 differs: $first" \
    '  bytes 300 to 303: step 6 store r2, element 11 (0, 11), byte 0 of 4, to element 11 (0, 11), byte 3' \
    '    300 wants 00 00 00 00, has 55 55 55 55' \
    '  bytes 308 to 311: step 6 store r2, element 13 (0, 13), byte 0 of 4, to element 13 (0, 13), byte 3' \
    '    308 wants 00 00 00 00, has 55 55 55 55' \
    '  bytes 400 to 403: no step writes there' \
    '    400 wants 00 00 00 00, has 55 55 55 55'

# Bytes next to each other that two steps store are two runs; a long run takes more than one line.
cp wanted differing
put differing 254 001 001 001 001 001 001 001 001 001 001 001 001 001 001 001 001 001 001 001
call 1 diff sheet memory --all --card card7=differing
lines 'card7 differs: step 1 fill r1, element 3 (0, 3); byte 254 wants 00, has 01; step 5 store r1, element 3 (0, 3), byte 2 of 4; 19 bytes differ in 2 runs' \
    '  bytes 254 to 255: step 5 store r1, element 3 (0, 3), byte 2 of 4, to element 3 (0, 3), byte 3' \
    '    254 wants 00 00, has 01 01' \
    '  bytes 256 to 272: step 6 store r2, element 0 (0, 0), byte 0 of 4, to element 4 (0, 4), byte 0' \
    '    256 wants 00 00 00 00 00 00 00 00 00 00 00 00 00 00 00 00, has 01 01 01 01 01 01 01 01 01 01 01 01 01 01 01 01' \
    '    272 wants 00, has 01'
cp wanted differing
put differing 0 001
call 1 diff sheet memory --card card7=differing
lines 'card7 differs: byte 0 wants 00, has 01; no step writes there; 1 byte differs in 1 run'

# Registers: elements 3 to 5 of r1, then another type of r3, an empty one, and one that is not.
cp wanted_registers registers
put registers 1052 002
put registers 1056 377 377 377 377
put registers 1060 003
call 1 diff sheet memory --card card7=agreeing --registers card7=registers --all
lines 'card7 differs: step 1 fill r1, element 3 (0, 3); register 1, element 3 (0, 3) wants 1, has 2; step 1 fill r1; 1 register differs' \
    '  register 1, elements 3 (0, 3) to 5 (0, 5): step 1 fill r1' \
    '    3 wants 1 1 1, has 2 4294967295 3'
put registers 12 005 001 020
call 1 diff sheet memory --registers card7=registers --card card7=agreeing
lines 'card7 differs: step 1 fill r1, element 3 (0, 3); register 1, element 3 (0, 3) wants 1, has 2; step 1 fill r1; 2 registers differ'
cp wanted_registers registers
put registers 12 005 001 020
call 1 diff sheet memory --card card7=differing --registers card7=registers --all
lines "card7 differs: step 4 transpose r3, element 0 (0, 0); byte 0 wants 00, has 01; no step writes there; 1 byte differs in 1 run; register 3 wants \
16 by 1 of u32, has 1 by 16 of s32; step 4 transpose r3; 1 register differs" \
    '  bytes 0 to 0: no step writes there' '    0 wants 00, has 01' \
    '  register 3 wants 16 by 1 of u32, has 1 by 16 of s32; step 4 transpose r3'
put registers 12 000 000 000
call 1 diff sheet memory --card card7=agreeing --registers card7=registers
lines 'card7 differs: step 4 transpose r3, element 0 (0, 0); register 3 wants 16 by 1 of u32, has nothing; step 4 transpose r3; 1 register differs'
put registers 12 310 010 010
call 1 diff sheet memory --card card7=agreeing --registers card7=registers
lines 'card7 differs: step 4 transpose r3, element 0 (0, 0); register 3 wants 16 by 1 of u32, has 8 by 8 of an unknown kind; step 4 transpose r3; 1 register differs'
bytes few_steps 01 0100 01
call 1 diff few_steps memory --card card7=memory --registers card7=wanted_registers
lines "card7 differs: register 0 wants nothing, has 1 by 16 of u32; no step gives it; 4 registers differ"
# What an empty register's other bytes are does not matter, nor do elements past a matrix.
zeros registers 4112
put registers 0 003 000 000
put registers 16 001
call 0 diff few_steps memory --card card7=memory --registers card7=registers
lines 'card7 agrees'

# The network of strip 13: a register that a vector step gives, and a byte that comes from one.
network=$root/strips/13-two-layer-network
tool asm "$network/sheet.txt" -o network || fail 'the sheet of a network'
"$bin/unhex" < "$network/memory.hex" > network_memory || fail 'the memory of a network'
call 0 run network network_memory -o network_after --registers registers
put registers 1048 000 000 000 000
call 1 diff network network_memory --card card7=network_after --registers card7=registers
lines "card7 differs: step 2 vector r1, element 2 (2, 0), with a matrix that is column-major with an input as \
packed-u8 with a matrix of s8; register 1, element 2 (2, 0) wants -140, has 0; step 2 vector r1; 1 register differs"
put network_after 84 000
call 1 diff network network_memory --card card7=network_after
lines "card7 differs: step 3 vector r2, element 1 (1, 0), with a matrix that is row-major with a bias with an input \
as u8 with a matrix of s16; byte 84 wants C5, has 00; step 4 store r2, element 1 (1, 0), byte 0 of 4; 1 byte differs in \
1 run"

# A clipped load without an object, then a store. In edition 3 a card that keeps what its register held differs, by the
# bytes and by the register; in edition 2 one that starts from zeros does. Each is right in the other edition.
cat > keeping_text << 'END'
edition 2
layout L0 Undefined
  dim size 8 stride 1 span 8
view V0 permutation 0
  clip columns 2 65535
fill r0 2x4 u8 100
load r0 L0 V0 base 16
store r0 L0 base 32
END
sed 's/^edition 2/edition 3/;s/^load r0/& object zeros/' keeping_text > zeroing_text
for card in keeping zeroing; do
    call 0 asm "${card}_text" -o "${card}_sheet"
    call 0 run "${card}_sheet" memory -o "$card" --registers "${card}_registers"
done
both='--card keeping=keeping --registers keeping=keeping_registers
    --card zeroing=zeroing --registers zeroing=zeroing_registers'
lead='step 1 load r0, element 0 (0, 0), which a load skips'
at='step 2 store r0, element 0 (0, 0), byte 0 of 1; 4 bytes differ in 2 runs; register 0, element 0 (0, 0) wants'
# shellcheck disable=SC2086
call 1 diff zeroing_sheet memory $both
lines "keeping differs: $lead; byte 32 wants 00, has 64; $at 0, has 100; step 1 load r0; 1 register differs" 'zeroing agrees'
# shellcheck disable=SC2086
call 1 diff keeping_sheet memory $both
lines 'keeping agrees' "zeroing differs: $lead; byte 32 wants 64, has 00; $at 100, has 0; step 1 load r0; 1 register differs"
mkdir editions
for sheet in keeping zeroing; do
    cp "${sheet}_sheet" "editions/$sheet.sheet"
    cp memory "editions/$sheet.memory"
    for card in keeping zeroing; do
        cp "$card" "editions/$sheet.$card.after"
        cp "${card}_registers" "editions/$sheet.$card.registers"
    done
done
call 1 night editions
pairs stdout | sed 's/^\(.* differs\): .*; \(byte [0-9]* wants [^;]*\);.*/\1: \2/' > found
printf '%s\n' 'keeping keeping agrees' 'keeping zeroing differs: byte 32 wants 64, has 00' \
    'zeroing keeping differs: byte 32 wants 00, has 64' 'zeroing zeroing agrees' > expected
same 'a night of two editions' found expected

# Files that cannot be read, or have the wrong length, are no difference; and one card hides no other.
cp wanted differing
put differing 0 001
head -c 511 wanted > short
{ cat wanted; echo; } > long
zeros longest 65537
call 3 diff sheet memory --card a=nowhere --card b=. --card c=short --card d=long --card e=longest --card f=agreeing
lines 'a missing: nowhere' 'b unreadable: .: Is a directory' "c unreadable: short: it has 511 bytes, not the memory's 512" \
    "d unreadable: long: it has more than the memory's 512 bytes" \
    "e unreadable: longest: it has more than the memory's 512 bytes" 'f agrees'
call 3 diff sheet memory --card a=agreeing --registers a=short
lines "a unreadable: short: it has 511 bytes, not a registers file's 4112"
call 3 diff sheet memory --card a=agreeing --registers a=nowhere
lines 'a missing: nowhere'
call 1 diff sheet memory --card a=differing --registers a=nowhere
lines 'a differs: byte 0 wants 00, has 01; no step writes there; 1 byte differs in 1 run'
call 1 diff sheet memory --card a=nowhere --card b=differing --card c=agreeing
lines 'a missing: nowhere' 'b differs: byte 0 wants 00, has 01; no step writes there; 1 byte differs in 1 run' 'c agrees'
call 3 diff nowhere memory --card a=agreeing
silent
errors 'moonbleat: nowhere: No such file or directory'
call 3 diff sheet nowhere --card a=agreeing
silent
errors 'moonbleat: nowhere: No such file or directory'

# A refused sheet has a status of its own.
bytes refused 01 0100 01 24 0200 00 01
call 4 diff refused memory --card a=agreeing
silent
says 'moonbleat: refusal 7 at step 0'
call 4 diff sheet longest --card a=agreeing
silent
says 'moonbleat: refusal 18'

# Standard input, pipes, and names that a line cannot hold.
call 0 diff - memory --card a=agreeing < sheet
lines 'a agrees'
call 0 diff sheet - --card a=agreeing < memory
lines 'a agrees'
mkfifo pipe
cat wanted > pipe &
call 0 diff sheet memory --card a=pipe
lines 'a agrees'
wait
new_line='a
b'
call 0 diff sheet memory --card "$new_line=agreeing" --card 'a b=agreeing' --card 'Märchen=agreeing'
lines '"a\nb" agrees' '"a b" agrees' 'Märchen agrees'

# wrong TEXT WORD..: exit status 2, nothing printed, and the text on standard error.
wrong() {
    text=$1
    shift
    call 2 "$@"
    silent
    says "moonbleat: $text
usage: moonbleat $1 "
}
wrong 'diff takes SHEET MEMORY' diff sheet --card a=agreeing
wrong 'diff needs --card NAME=AFTER' diff sheet memory
wrong 'diff needs --card NAME=AFTER' diff sheet memory --registers a=registers
wrong '--card a: not a NAME=AFTER' diff sheet memory --card a
wrong '--card =agreeing: not a NAME=AFTER' diff sheet memory --card =agreeing
wrong '--card a=: not a NAME=AFTER' diff sheet memory --card a=
wrong '--registers b: not a NAME=FILE' diff sheet memory --card a=agreeing --registers b
wrong 'card a is given twice' diff sheet memory --card a=agreeing --card a=agreeing
wrong '--registers a is given twice' diff sheet memory --card a=agreeing --registers a=registers --registers a=registers
wrong '--registers b: no card has this name' diff sheet memory --card a=agreeing --registers b=registers
wrong 'standard input can be read only once' diff - - --card a=agreeing

# -- A night in all its forms --------------------------------------------------------------------

# reports STATUS NAME FOLDER WORD..: makes NAME.txt, NAME.json, NAME.csv and NAME.html.
reports() {
    wanted_status=$1
    report=$2
    shift 2
    call "$wanted_status" night "$@" --html "$report.html"
    cp stdout "$report.txt"
    call "$wanted_status" night "$@" --json -o "$report.json"
    silent
    call "$wanted_status" night "$@" --csv
    cp stdout "$report.csv"
}

# agree WHAT ONE OTHER: two nights' reports must be equal, in every form.
agree() {
    for form in txt json csv html; do
        same "$1: $form" "$2.$form" "$3.$form"
    done
}

# checked WORD..: the forms of a report must say the same.
checked() {
    if python3 "$tests/night_check.py" "$@" > problems 2>&1; then
        pass
    else
        fail "$(tail -n 1 problems)"
    fi
}

# The worked example: what its README and its report say.
python3 "$root/examples/night/make_night.py" example || fail 'the example'
reports 1 example_report example
sed '1s/.*/night example/' example_report.txt > found
same 'the example' found "$root/examples/night/report.txt"
checked example_report.txt example_report.json example_report.csv example_report.html
sed -n 's/^    \(.* differs: .*\)/\1/p' "$root/examples/night/README.md" > shown
if [ -s shown ]; then pass; else fail 'the example shows no line'; fi
while read -r line; do
    contains "$line" example_report.txt
done < shown

# The night that the manual shows.
mkdir shown_night
cp example/border-mirror-u16.* shown_night
rm shown_night/*.alder.registers shown_night/*.birch.registers shown_night/*.cedar.after
call 1 night shown_night
sed -n '/^    border-mirror-u16 alder agrees$/,/^    night: /p' "$root/docs/NIGHT.md" | sed 's/^    //' > shown
sed 1,2d stdout > found
same 'the night in docs/NIGHT.md' found shown

# Random sheets, and what an independent reading of the rules expects of them.
mkdir random
python3 "$tests/night_oracle.py" random 1 "${ORACLE_SHEETS:-60}" || fail 'the random sheets'
reports 1 random_report random/night
body random_report.txt > found
same 'random sheets' found random/report.txt
contains ' elements differ, and nothing explains it' random_report.txt
checked random_report.txt random_report.json random_report.csv random_report.html random/maps.json
same 'no message' stderr /dev/null

# More processes, also more than there are sheets, and the same output.
for jobs in 2 3 100; do
    reports 1 parallel_report random/night -j "$jobs"
    agree "-j $jobs" parallel_report random_report
done

# Parts on two machines, merged in any order, are the report of one run.
call 1 night random/night --shard 1/2 --json -o part1.json
call 1 night random/night --shard 2/2 --json -o part2.json -j 2
for part in part1 part2; do
    if [ "$(grep -c '"sheet"' "$part.json")" -ge 10 ]; then pass; else fail "$part has too few sheets"; fi
done
reports 1 merged_report --merge part1.json part2.json
agree 'two parts' merged_report random_report
reports 1 merged_report --merge part2.json part1.json
agree 'two parts, the second first' merged_report random_report
reports 1 merged_report --merge random_report.json
agree 'one part' merged_report random_report
merged=
for part in 1 2 3 4 5 6 7; do
    tool night example --shard "$part/7" --json -o "seventh$part.json" > stdout 2> stderr
    merged="$merged seventh$part.json"
done
# shellcheck disable=SC2086
reports 1 merged_report --merge $merged
agree 'seven parts, some without a sheet' merged_report example_report

# One page of cards that all agree, with many sheets as one row; one where none differs but files lack.
mkdir alike
for i in 1 2 3 4 5 6 7 8 9; do
    cp sheet "alike/s$i.sheet"
    cp memory "alike/s$i.memory"
    cp wanted "alike/s$i.card1.after"
done
reports 0 alike_report alike
checked alike_report.txt alike_report.json alike_report.csv alike_report.html
contains '<h1>Every card agrees on every sheet</h1>' alike_report.html
contains '<th>s1 to s9<span class="count">, 9 sheets</span></th>' alike_report.html
rm alike/s4.card1.after
reports 3 alike_report alike
checked alike_report.txt alike_report.json alike_report.csv alike_report.html
contains '<h1>No card differs, but 1 comparison could not be made</h1>' alike_report.html
cp refused alike/s5.sheet
rm alike/s4.* alike/s5.card1.after
reports 4 alike_report alike
checked alike_report.txt alike_report.json alike_report.csv alike_report.html
contains 's5 card1 refused: refusal 7 at step 0' alike_report.txt

# Progress, where standard error is a terminal, changes nothing else.
if python3 "$tests/night_progress.py" "$bin/moonbleat" random/night random_report.txt > problems 2>&1; then
    pass
else
    fail "progress: $(tail -n 1 problems)"
fi

# -- Bad input -----------------------------------------------------------------------------------

# good NAME: a sheet on which card `ok` agrees.
good() {
    cp "$top/sheet" "./$1.sheet"
    cp "$top/memory" "./$1.memory"
    cp "$top/wanted" "./$1.ok.after"
}

top=$work
mkdir bad
cd bad || exit 2
good 'a b'
good "$new_line"
good "$(printf 'l\303\244nge')"
good "$(printf 'no\377utf8')"
good "<i>&\"'"
good '-o'
good 'one.two'
good plain
# The sheet: none, two, no regular file, a folder, links.
cp "$top/wanted" nosheet.ok.after
good two
cp "$top/text" two.txt
good folder
rm folder.sheet
mkdir folder.sheet
good pipe
rm pipe.sheet
mkfifo pipe.sheet
good linked
mv linked.sheet ../linked_elsewhere
ln -s ../linked_elsewhere linked.sheet
good dangling
rm dangling.sheet
ln -s nowhere dangling.sheet
good looped
rm looped.sheet
ln -s looped.sheet looped.sheet
# The text form: right, wrong, and too long.
good text
rm text.sheet
cp "$top/text" text.txt
good wrongtext
rm wrongtext.sheet
printf 'edition 1\nfill r0 1x99 u8 0\n' > wrongtext.txt
good longtext
rm longtext.sheet
yes '# no end' | head -c 1048577 > longtext.txt
# The memory: none, too long, shorter than the card's.
good nomemory
rm nomemory.memory
good longmemory
zeros longmemory.memory 65537
good shortmemory
head -c 320 "$top/memory" > shortmemory.memory
# The card's files: none, empty, a folder, a pipe, too short, differing with unreadable registers.
good noafter
mv noafter.ok.after noafter.other.after
good empty
: > empty.ok.after
good afterfolder
rm afterfolder.ok.after
mkdir afterfolder.ok.after
good afterpipe
rm afterpipe.ok.after
mkfifo afterpipe.ok.after
good shortregisters
head -c 4111 "$top/wanted_registers" > shortregisters.ok.registers
good both
cp "$top/differing" both.ok.after
mkdir both.ok.registers
# A sheet that is refused.
good refused
cp "$top/refused" refused.sheet
# No night's files.
mkdir inner
: > notes
: > .sheet
: > card.after
: > x..after
cd "$top" || exit 2

reports 1 bad_report bad
cp stderr bad_errors
checked bad_report.txt bad_report.json bad_report.csv bad_report.html
reports 1 parallel_report bad -j 3
agree 'bad input in three processes' parallel_report bad_report
# Pairs of a sheet and the card `other`, which has one file, are all missing but for the sheet's own faults.
pairs bad_report.txt | grep -v -e ' other missing: ' > found
cat > expected << 'END'
-o ok agrees
"<i>&\"'" ok agrees
"a\nb" ok agrees
"a b" ok agrees
afterfolder ok unreadable: afterfolder.ok.after: Is a directory
afterpipe ok unreadable: afterpipe.ok.after: not a regular file
both ok differs: byte 0 wants 00, has 01; no step writes there; 1 byte differs in 1 run
dangling ok unreadable: dangling.sheet: No such file or directory
dangling other unreadable: dangling.sheet: No such file or directory
empty ok unreadable: empty.ok.after: it has 0 bytes, not the memory's 512
folder ok unreadable: folder.sheet: Is a directory
folder other unreadable: folder.sheet: Is a directory
linked ok agrees
longmemory ok differs: the reference refuses it with 18 at 0, 0, the card accepts it
longmemory other refused: refusal 18: the memory is longer than 65536 bytes
longtext ok unreadable: longtext.txt: it has more than 1048576 bytes
longtext other unreadable: longtext.txt: it has more than 1048576 bytes
looped ok unreadable: looped.sheet: Too many levels of symbolic links
looped other unreadable: looped.sheet: Too many levels of symbolic links
länge ok agrees
noafter ok missing: noafter.ok.after
noafter other agrees
nomemory ok missing: nomemory.memory
nosheet ok missing: nosheet.sheet
"no\xFFutf8" ok agrees
one.two ok agrees
pipe ok unreadable: pipe.sheet: not a regular file
pipe other unreadable: pipe.sheet: not a regular file
plain ok agrees
refused ok differs: the reference refuses it with 7 at 0, 0, the card accepts it
refused other refused: refusal 7 at step 0: transpose: register 1 is empty
shortmemory ok unreadable: shortmemory.ok.after: it has more than the memory's 320 bytes
shortregisters ok unreadable: shortregisters.ok.registers: it has 4111 bytes, not a registers file's 4112
text ok agrees
two ok unreadable: two.sheet: there are two sheets of this name, .sheet and .txt
two other unreadable: two.sheet: there are two sheets of this name, .sheet and .txt
wrongtext ok unreadable: wrongtext.txt: 2:11: columns 99 is not within 1 to 16
wrongtext other unreadable: wrongtext.txt: 2:11: columns 99 is not within 1 to 16
END
same 'bad input' found expected
sort bad_errors > stderr
for name in .sheet card.after inner notes x..after; do
    echo "moonbleat: bad: passing over $name: not the name of a night's file"
done | sort > expected
same 'files that are no night'"'"'s' stderr expected

# A file that may not be read; root may read all.
mkdir closed
for part in sheet memory card.after; do
    cp "alike/s1.$(echo "$part" | sed 's/card/card1/')" "closed/s.$part"
done
chmod 000 closed/s.card.after
if [ ! -r closed/s.card.after ]; then
    call 3 night closed
    contains 's card unreadable: s.card.after: Permission denied' stdout
fi

# A memory of 0 bytes is one.
mkdir small
cp few_steps small/s.sheet
: > small/s.memory
: > small/s.card.after
call 0 night small
sed -i 1,2d stdout
lines 's card agrees' '' 'card: 1 agree, 0 differ, 0 missing, 0 refused, 0 unreadable' \
    'night: 1 sheet, 1 card: 1 agree, 0 differ, 0 missing, 0 refused, 0 unreadable'

# Nothing to compare is no agreement, and writes nothing.
mkdir nothing cardless
cp sheet cardless/s.sheet
echo old > old
cp old out
for folder in nothing cardless; do
    call 3 night "$folder" -o out --html out.html
    silent
    errors "moonbleat: $folder: no card's file, NAME.CARD.after, is there: nothing to compare"
    same 'an output file' out old
    absent out.html
done
call 3 night nowhere
errors 'moonbleat: nowhere: No such file or directory'
call 3 night sheet
errors 'moonbleat: sheet: Not a directory'

wrong 'night takes DIR' night
wrong 'one folder is a night, and small is one more' night example small
wrong '-j 0: not a number of processes, 1 to 1024' night example -j 0
wrong '-j x: not a number of processes, 1 to 1024' night example -j x
wrong '-j 1025: not a number of processes, 1 to 1024' night example -j 1025
for shard in 0/2 3/2 1 1/ /2 1/0 a/b 1/2/3 1/4294967296; do
    wrong "--shard $shard: not K/N, K from 1 to N" night example --shard "$shard"
done
wrong 'a report is --json or --csv, not both' night example --json --csv
wrong 'standard output can take only one of the report and --html' night example --html -
wrong '--merge takes neither --shard nor -j' night --merge part1.json --shard 1/2
wrong '--merge takes neither --shard nor -j' night --merge part1.json -j 2
call 1 night example --html - -o out
same 'the page on standard output' stdout example_report.html
same 'the report in a file' out example_report.txt

# Outputs are written whole or not at all, and nothing else is.
mkdir outputs
cp old outputs/report
cp old outputs/page
(
    trap '' XFSZ
    ulimit -f 1
    tool night example -o outputs/report --html outputs/page > stdout 2> stderr
)
if [ $? -eq 3 ]; then pass; else fail 'a full disk'; fi
silent
contains 'File too large' stderr
same 'the report on a full disk' outputs/report old
same 'the page on a full disk' outputs/page old
if [ "$(ls -A outputs | tr '\n' ' ')" = 'page report ' ]; then pass; else fail "left: $(ls -A outputs)"; fi
call 3 night example -o outputs/report --html nowhere/page
errors 'moonbleat: nowhere/page: No such file or directory'
same 'the report beside a page that cannot be written' outputs/report old
call 3 night example -o outputs/report --html outputs/../outputs/report
same 'a report and a page in one file' outputs/report old
if [ -c /dev/full ]; then
    tool night example > /dev/full 2> stderr
    if [ $? -eq 3 ]; then pass; else fail 'a report to a full device'; fi
    says 'moonbleat: standard output: No space left on device'
fi

# -- Reports that cannot be merged ---------------------------------------------------------------

# unmerged TEXT REPORT..: exit status 3, nothing printed or written, and standard error is the text.
unmerged() {
    text=$1
    shift
    cp old out
    call 3 night --merge "$@" -o out --html page.html
    errors "moonbleat: $text"
    same 'a report of unfit parts' out old
    absent page.html
}
unmerged 'part 2 of 2 is missing' part1.json
unmerged 'part 1 of 2 is missing' part2.json
unmerged 'part 1 of 2 is given twice' part1.json part1.json
unmerged 'part 1 of 2 is given twice' part1.json part2.json part1.json
unmerged 'example_report.json: part 1 of 1, but part1.json is one of 2' part1.json example_report.json
tool night example --card alder --shard 2/2 --json -o other2.json
tool night example --shard 1/2 --json -o half1.json
unmerged 'other2.json: its cards are not those of half1.json' half1.json other2.json
# Two nights of the same name, cards and sheets, one of which has a file less.
mkdir other
cp -pr example other
rm other/example/turned-u8.alder.registers
tool night example --shard 1/2 --json -o half1.json
tool night other/example --shard 2/2 --json -o other2.json
unmerged 'other2.json: its night has another digest than that of half1.json: parts of two nights are not merged' \
    half1.json other2.json
tool night example --shard 2/2 --json -o half2.json
sed 's/"name": "example"/"name": "another"/' half1.json > half1b.json
unmerged 'half2.json: its night has another name than that of half1b.json: parts of two nights are not merged' \
    half1b.json half2.json
sed 's/"date": "2/"date": "1/' half1.json > half1b.json
unmerged 'half2.json: its night has another date than that of half1b.json: parts of two nights are not merged' \
    half1b.json half2.json
sed 's/"version": "/"version": "1/' half1.json > half1b.json
unmerged 'half2.json: its night has another version than that of half1b.json: parts of two nights are not merged' \
    half1b.json half2.json
# What is wrong at the very end of the second part is found before the first line is printed.
sed '$s/"sheets": [0-9]*/"sheets": 99/' half2.json > broken.json
call 3 night --merge half1.json broken.json
silent
unmerged 'nowhere.json: No such file or directory' part1.json nowhere.json

# faulty LINE WHAT: broken.json is no report from this line on.
faulty() {
    cp old out
    call 3 night --merge broken.json -o out
    errors "moonbleat: broken.json: line $1: not a whole report of moonbleat night"
    same "$2" out old
}
# Cut anywhere, it is no report: here after each of its lines and amid them.
count=$(wc -l < alike_report.json)
line=1
while [ "$line" -lt "$count" ]; do
    head -n "$line" alike_report.json > broken.json
    faulty "$((line + 1))" "cut after line $line"
    head -c -3 broken.json > cut.json && mv cut.json broken.json
    call 3 night --merge broken.json
    line=$((line + 1))
done
: > broken.json
faulty 1 'an empty report'
echo '{}' > broken.json
faulty 1 'another object'
cp example_report.txt broken.json
faulty 1 'a text report'
{ cat alike_report.json; echo x; } > broken.json
faulty "$((count + 1))" 'more behind the report'
# altered SED LINE: a report that was edited.
altered() {
    sed "$1" example_report.json > broken.json
    if cmp -s example_report.json broken.json; then fail "nothing is altered by $1"; fi
    faulty "$2" "$1"
}
head_lines=$(grep -n '^ "sheets": \[' example_report.json | cut -d: -f1)
for format in 1 3; do
    sed "s/\"format\": 2/\"format\": $format/" example_report.json > broken.json
    call 3 night --merge broken.json -o out
    errors "moonbleat: broken.json: a report of format $format, and this is for format 2: make it anew"
    same "format $format" out old
done
altered 's/moonbleat night/moonbleat/' 1
altered 's/"edition": 3/"edition": x/' 3
altered 's/"part": 1/"part": 2/' 4
altered 's/"parts": 1/"parts": 0/' 4
altered 's/"alder", "birch"/"birch", "birch"/' 5
altered '0,/"made": 5/s/"made": 5/"made": 99/' "$(grep -n '"made": 5' example_report.json | head -n 1 | cut -d: -f1)"
altered '0,/"made": 5, "remainder": 1/s/"made": 5, "remainder": 1/"remainder": 1, "made": 5/' \
    "$(grep -n '"made": 5' example_report.json | head -n 1 | cut -d: -f1)"
altered '0,/"agrees"/s/"agrees"/"agreed"/' "$((head_lines + 2))"
altered '0,/"agrees"}/s/"agrees"}/"differs"}/' "$((head_lines + 2))"
altered 's/"byte": 80/"byte": -80/' "$(grep -n '"byte": 80,' example_report.json | cut -d: -f1)"
altered 's/"byte": 80/"byte": 4294967296/' "$(grep -n '"byte": 80,' example_report.json | cut -d: -f1)"
altered 's/"byte": 80/"bytes": 80/' "$(grep -n '"byte": 80,' example_report.json | cut -d: -f1)"
altered '0,/xxxxxxxx/s/xxxxxxxx/xxxxxyxx/' "$(grep -n 'xxxxxxxx' example_report.json | head -n 1 | cut -d: -f1)"
altered '0,/xxxxxxxx/s/xxxxxxxx/xxxxxxx/' "$(grep -n 'xxxxxxxx' example_report.json | head -n 1 | cut -d: -f1)"
altered 's/"tag": 33/"tag": 32801/' "$(grep -n '"tag": 33' example_report.json | head -n 1 | cut -d: -f1)"
altered 's/"sheet": "turned-u8"/"sheet": "aaa"/' "$(grep -n '"sheet": "turned-u8"' example_report.json | cut -d: -f1)"
last=$(wc -l < example_report.json)
altered "${last}s/\"differs\": [0-9]*/\"differs\": 0/" "$last"
altered "${last}s/\"sheets\": [0-9]*/\"sheets\": 0/" "$last"
# A sheet whose name is of the other part, by FNV-1a.
name=$(python3 -c '
def part(name):
    value = 14695981039346656037
    for byte in name.encode():
        value = (value ^ byte) * 1099511628211 % 2**64
    return value % 2 + 1
print(next(n for n in map(str, range(100)) if part(n) == 2))')
sed "0,/\"sheet\": \"sheet[0-9]*/s//\"sheet\": \"$name/" part1.json > broken.json
call 3 night --merge broken.json part2.json
head_lines=$(grep -n '^ "sheets": \[' part1.json | cut -d: -f1)
errors "moonbleat: broken.json: line $((head_lines + 1)): not a whole report of moonbleat night"
# Damaged in many ways.
if python3 "$tests/night_fuzz.py" "$bin/moonbleat" example_report.json "${DAMAGED:-60}" > problems 2>&1; then
    pass
else
    fail "$(tail -n 1 problems)"
fi
# Blanks and escapes as another program writes them.
python3 -c 'import json, sys; json.dump(json.load(open(sys.argv[1])), open(sys.argv[2], "w"), indent=3)' \
    bad_report.json rewritten.json
reports 1 merged_report --merge rewritten.json
agree 'a report that another program wrote' merged_report bad_report

echo "tests of diff and night: $passed passed, $failed failed"
[ "$failed" -eq 0 ]
