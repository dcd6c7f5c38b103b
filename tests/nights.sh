#!/bin/sh
# Tests of nights that know each other, of cards' traces and refusals, and of nights that are run pair by pair.
#
#   tests/nights.sh FOLDER      FOLDER has the programs moonbleat and unhex

# shellcheck source=tests/common.sh
. "$(dirname "$0")/common.sh"
tests=$root/tests

# found FILTER TEXT: what a filter of lines leaves of standard output must be these lines.
found() {
    sed -n "$1" stdout > lines
    printf '%s' "${2:+$2
}" > expected
    same "sed -n '$1'" lines expected
}

# checked NAME WORD..: the forms of a night's report must say the same.
checked() {
    report=$1
    shift
    tool night "$@" --html "$report.html" > "$report.txt" 2> stderr
    tool night "$@" --json -o "$report.json" 2> stderr
    tool night "$@" --csv > "$report.csv" 2> stderr
    sed '/^since /,/^$/d' "$report.txt" > "$report.plain"
    if python3 "$tests/night_check.py" "$report.plain" "$report.json" "$report.csv" "$report.html" > problems 2>&1; then
        pass
    else
        fail "$report: $(tail -n 1 problems)"
    fi
}

# wrong TEXT WORD..: exit status 2, nothing printed, and the text on standard error.
wrong() {
    text=$1
    shift
    call 2 "$@"
    silent
    says "moonbleat: $text"
}

python3 "$root/examples/night/make_night.py" first || fail 'the example'
touch -d 2026-03-04T12:00:00Z first/*

# -- Which night it is ---------------------------------------------------------------------------

call 1 night first
found '1s/, digest [0-9a-f]\{16\}$//p' 'night first, 2026-03-04, moonbleat 2.0.0, editions 1 to 3, 72 files'
call 1 night first/
found '1s/,.*//p' 'night first'
(cd first && tool night . > ../stdout)
found '1s/,.*//p' 'night first'
call 1 night first --name 'a night'
found '1s/,.*//p' 'night "a night"'
checked named first --name 'a <night>'
wrong '--name : not a name of 1 to 255 bytes' night first --name ''
# The digest goes by names, lengths and times, whatever the order and the shard.
digest() {
    tool night "$@" --json 2> stderr | grep -o '"digest": "[0-9a-f]*"'
}
wanted=$(digest first)
if [ "$wanted" = "$(digest first --shard 2/3 -j 2)" ]; then pass; else fail 'a shard has another digest'; fi
cp -pr first second
if [ "$wanted" = "$(digest second)" ]; then pass; else fail 'a copy has another digest'; fi
touch -d 2026-03-05T12:00:00Z second/turned-u8.memory
if [ "$wanted" != "$(digest second)" ]; then pass; else fail 'another time has the same digest'; fi

# -- One team's report ---------------------------------------------------------------------------

checked birch first --card birch
contains '"cards": ["birch"]' birch.json
if grep -q -e alder -e cedar birch.txt birch.html; then fail 'other cards are in the report of one'; else pass; fi
call 1 night first --json -o whole.json
tool night --merge whole.json --card birch > stdout
same 'one card of a merged report' stdout birch.txt
call 1 night first --card cedar --card alder
# shellcheck disable=SC2016
found '$s/:.*:/:/p' 'night: 16 agree, 2 differ, 0 missing, 0 refused, 0 unreadable'
call 0 night first --card alder
call 3 night first --card 'oak tree'
says 'moonbleat: first: no card oak tree is there'
silent

# -- Since another night -------------------------------------------------------------------------

call 1 night first --since whole.json
found '/^since/,/^$/p' 'since night first, 2026-03-04:
  birch: still on 2 sheets: elements that MirrorRepeat clamps
  cedar: still on 2 sheets: elements where a store must discard
'
# birch is mended on one sheet, alder now does on one what cedar does, and cedar is not compared on one.
for part in after registers; do
    cp "first/border-mirror-u8.alder.$part" "second/border-mirror-u8.birch.$part"
done
cp first/moved-u32.cedar.after second/moved-u32.alder.after
rm second/moved-u8.cedar.after
call 1 night second --since whole.json
found '/^since/,/^$/p' 'since night first, 2026-03-04:
  alder: new on 1 sheet: elements where a store must discard as u32
  birch: still on 1 sheet: elements that MirrorRepeat clamps as u16
  cedar: still on 1 sheet: elements where a store must discard
  birch: mended on 1 sheet: elements that MirrorRepeat clamps
  cedar: open on 1 sheet: elements where a store must discard
'
checked since second --since whole.json
contains '<h2>Since night first, 2026-03-04</h2>' since.html
contains '<li><b>alder</b>: new on 1 sheet: elements where a store must discard as u32</li>' since.html
if python3 - << 'END_CHECK' > problems 2>&1
import csv, json
report = json.load(open("since.json"))
changes = {(c["card"], c["change"]): c["sheets"] for c in report["since"]["changes"]}
assert changes == {("alder", "new"): 1, ("birch", "still"): 1, ("cedar", "still"): 1, ("birch", "mended"): 1,
                   ("cedar", "open"): 1}, changes
rows = {(r["sheet"], r["card"]): r["since"] for r in csv.DictReader(open("since.csv", newline=""))}
assert {pair: change for pair, change in rows.items() if change} == {
    ("moved-u32", "alder"): "new", ("border-mirror-u16", "birch"): "still", ("moved-u32", "cedar"): "still",
    ("border-mirror-u8", "birch"): "mended", ("moved-u8", "cedar"): "open"}, rows
END_CHECK
then pass; else fail "$(tail -n 1 problems)"; fi
call 0 night first --card alder --json -o agreeing.json
call 0 night first --card alder --since agreeing.json
found '/^since/,/^$/p' 'since night first, 2026-03-04: no card differs or did
'
# A report with what has changed is a report, and can be merged or be the last.
call 1 night --merge since.json --json -o once.json
call 1 night second --json -o plain.json
same 'a report with changes, merged' once.json plain.json
call 1 night second --since since.json
call 3 night first --since nowhere.json
silent
says 'moonbleat: nowhere.json: No such file'
tool night first --shard 1/2 --json -o half.json
call 3 night first --since half.json
says 'moonbleat: part 2 of 2 is missing'
sed 's/"format": 2/"format": 1/' whole.json > old.json
call 3 night first --since old.json
says 'moonbleat: old.json: a report of format 1, and this is for format 2: make it anew'

# -- Traces --------------------------------------------------------------------------------------

cat > text << 'END_TEXT'
edition 1
layout L0 Constant value 9
  dim size 2 stride 1 offset -1 span 4
fill r0 1x4 u16 0
load r1 object r0 L0 base 16
store r1 L0 base 32
END_TEXT
tool asm text -o sheet || fail 'the sheet'
zeros memory 64
tool run sheet memory -o after > stdout
tool trace sheet --memory 64 -o right || fail 'the trace'
head -c 84 right > wrong
echo '30 0900  0200 0300  03 24000000' | "$bin/unhex" >> wrong
head -c 36 right > short
head -c 35 right > ./cut
{ head -c 12 right; head -c 12 right; } > unordered
zeros long 98305
call 0 diff sheet memory --card a=after --trace a=right
found p 'a agrees'
call 1 diff sheet memory --card a=after --trace a=wrong --card b=after --trace b=short
found p 'a differs: access 7 of the trace wants step 2, element 3: discarded, has step 2, element 3: byte 36; 8 of 8 accesses
b differs: access 3 of the trace wants step 1, element 3: filled, has nothing more; 3 of 8 accesses'
call 3 diff sheet memory --card a=after --trace a=cut --card b=after --trace b=unordered --card c=after --trace c=long \
    --card d=after --trace d=nowhere
found p 'a unreadable: cut: refusal 1 at byte 24 of the trace: access 2: length 9 runs past the end of the trace by 1
b unreadable: unordered: refusal 26 at byte 12 of the trace: access 1: step 1, element 0 is not after step 1, element 0 of the access before
c unreadable: long: it has more than 98304 bytes
d missing: nowhere'
# A memory that differs is told beside the trace, also where the trace cannot be read.
cp after spoiled
printf '\001' | dd of=spoiled bs=1 seek=32 conv=notrunc status=none
call 1 diff sheet memory --card a=spoiled --trace a=wrong --card b=spoiled --trace b=cut
found 's/; 1 byte differs in 1 run//;s/differs: .*\(byte 32 wants 00, has 01\); step 2[^;]*/differs: \1/p' \
    'a differs: byte 32 wants 00, has 01; access 7 of the trace wants step 2, element 3: discarded, has step 2, element 3: byte 36; 8 of 8 accesses
b differs: byte 32 wants 00, has 01'
wrong '--trace b: no card has this name' diff sheet memory --card a=after --trace b=right
wrong '--trace a is given twice' diff sheet memory --card a=after --trace a=right --trace a=right
wrong '--trace a: not a NAME=FILE' diff sheet memory --card a=after --trace a

# -- diff in JSON --------------------------------------------------------------------------------

diff_all() {
    tool diff sheet memory --card a=after --card b=spoiled --trace b=wrong --card "c
d=nowhere" "$@" > stdout 2> stderr
}
json '.command == "diff" and .accepted and .refusal == null and .memory == 64 and (.cards | length == 3)' diff_all
json '.cards[0] == {card: "a", verdict: "agrees", detail: "", file: null, lead: null, memory: null, registers: null,
    trace: null}' diff_all
json '.cards[1] | .verdict == "differs" and .lead.step == 1 and .lead.element == 1 and .memory.byte == 32
    and .memory.has == 1 and .trace.index == 7 and .trace.has_byte == 36' diff_all
json '.cards[2] | .card == "c\nd" and .verdict == "missing" and .file == "nowhere"' diff_all
bytes refused 01 0100 01 24 0200 00 01
diff_refused() {
    tool diff refused memory --card a=after "$@" > stdout 2> stderr
}
json '.accepted == false and .refusal.number == 7 and .cards == null' diff_refused

# -- Cards' own files in a night -----------------------------------------------------------------

mkdir own
for name in right wrong cut; do
    cp sheet "own/$name.sheet"
    cp memory "own/$name.memory"
    cp after "own/$name.card.after"
    cp "$name" "own/$name.card.trace"
done
# The reference refuses: the card too, elsewhere, not at all, and in words that are none.
for name in same other accepts words empty both; do
    cp refused "own/refused-$name.sheet"
    cp memory "own/refused-$name.memory"
done
echo '7 0' > own/refused-same.card.refusal
echo '7 1 0' > own/refused-other.card.refusal
cp memory own/refused-accepts.card.after
echo 'seven' > own/refused-words.card.refusal
: > own/refused-empty.card.refusal
printf '7 0 0' > own/refused-both.card.refusal
cp memory own/refused-both.card.after
cp refused own/refused-neither.sheet
cp memory own/refused-neither.memory
# The reference accepts: the card does not.
cp sheet own/accepted.sheet
cp memory own/accepted.memory
echo '13 1 0' > own/accepted.card.refusal
checked own own
cp own.txt stdout
found '3,/^$/p' "accepted card differs: the reference accepts it, the card refuses it with 13 at 1, 0
cut card unreadable: cut.card.trace: refusal 1 at byte 24 of the trace: access 2: length 9 runs past the end of the trace by 1
refused-accepts card differs: the reference refuses it with 7 at 0, 0, the card accepts it
refused-both card agrees
refused-empty card unreadable: refused-empty.card.refusal: it is not a line with a refusal's number and place
refused-neither card refused: refusal 7 at step 0: transpose: register 1 is empty
refused-other card differs: the reference refuses it with 7 at 0, 0, the card refuses it with 7 at 1, 0
refused-same card agrees
refused-words card unreadable: refused-words.card.refusal: it is not a line with a refusal's number and place
right card agrees
wrong card differs: access 7 of the trace wants step 2, element 3: discarded, has step 2, element 3: byte 36; 8 of 8 accesses
"
found '/^card: [0-9]* sheet/p' 'card: 1 sheet, 1 trace differs
card: 3 sheets, 3 refusals differ'
call 1 night --merge own.json --json -o merged.json
same 'a merged report of traces and refusals' merged.json own.json

# -- What is missing -----------------------------------------------------------------------------

mkdir pairs
for name in a b 'c d'; do
    cp sheet "pairs/$name.sheet"
    cp memory "pairs/$name.memory"
done
cp memory pairs/nosheet.memory
cp sheet pairs/nomemory.sheet
cp after pairs/a.one.after
echo '7 0' > pairs/b.one.refusal
tab=$(printf '\t')
call 0 night pairs --missing
found p "c d${tab}one"
call 0 night pairs --missing --card one --card two
found p "a${tab}two
b${tab}two
c d${tab}one
c d${tab}two"
call 0 night pairs --missing -0 --card two
tr '\000\t' '\n ' < stdout > lines
printf '%s\n' 'a two' 'b two' 'c d two' > expected
same 'ended by NUL' lines expected
call 0 night pairs --missing --card two --shard 1/2
cp stdout parts
call 0 night pairs --missing --card two --shard 2/2
cat parts stdout | sort > lines
call 0 night pairs --missing --card two
sort stdout > expected
same 'the parts of what is missing' lines expected
call 0 night first --missing
silent
cp sheet "pairs/x${tab}y.sheet"
cp memory "pairs/x${tab}y.memory"
call 3 night pairs --missing --card two
says 'moonbleat: a line cannot hold "x\ty": ask for NUL bytes with -0'
rm "pairs/x${tab}y.sheet" "pairs/x${tab}y.memory"
wrong '-0 goes with --missing' night pairs -0
wrong '--missing does not go with --json' night pairs --missing --json
wrong '--missing does not go with -j' night pairs --missing -j 2
call 3 night nowhere --missing

# A night that is run by GNU parallel with a stand-in for a card: stopped once and resumed, it runs each pair once, and
# what never ends is stopped by its time limit and stays missing.
cat > card << 'END_CARD'
#!/bin/sh
# card TOOL FOLDER LOG SHEET CARD: what a card would leave; card `slow` never ends.
echo "$4 $5" >> "$3"
if [ "$5" = slow ]; then exec sleep 60; fi
"$1" run "$2/$4.sheet" "$2/$4.memory" -o "$2/$4.$5.part" > /dev/null && mv "$2/$4.$5.part" "$2/$4.$5.after"
END_CARD
chmod +x card
if command -v parallel > /dev/null && parallel --version 2> /dev/null | grep -q GNU; then
    run_night() {
        tool night pairs --missing -0 "$@" |
            parallel --will-cite -0 --colsep '\t' -j 2 --timeout 2 ./card "$bin/moonbleat" pairs log '{1}' '{2}' \
                > stdout 2> stderr
    }
    : > log
    tool night pairs --missing -0 --card two | head -z -n 1 |
        parallel --will-cite -0 --colsep '\t' ./card "$bin/moonbleat" pairs log '{1}' '{2}'
    run_night --card one --card two
    sort log > lines
    printf '%s\n' 'a two' 'b two' 'c d one' 'c d two' > expected
    same 'each pair once' lines expected
    call 0 night pairs --missing --card one --card two
    silent
    run_night --card slow
    call 0 night pairs --missing --card slow
    found p "a${tab}slow
b${tab}slow
c d${tab}slow"
else
    echo 'GNU parallel is not installed: nights are not run with it'
fi

echo "tests of nights: $passed passed, $failed failed"
[ "$failed" -eq 0 ]
