#!/bin/sh
# Tests of `moonbleat where`: the maps of the strips' loads and stores, the ways of their elements, and what
# else a map and a way can show, all worked by hand.
#
#   tests/where.sh FOLDER      FOLDER has the programs moonbleat and unhex

# shellcheck source=tests/common.sh
. "$(dirname "$0")/common.sh"

# strip NAME: makes the sheet of a strip, and says how long its memory is.
strip() {
    what=$1
    call 0 asm "$root/strips/$1/sheet.txt" -o sheet
    "$bin/unhex" < "$root/strips/$1/memory.hex" > memory || fail "$1: memory"
    length=$(wc -c < memory)
}

# text: makes a sheet of the text on standard input.
text() {
    what='the sheet'
    length=65536
    cat > text
    call 0 asm text -o sheet
}

# shows WORD..: what where prints for the sheet must be standard input, and standard error empty.
shows() {
    cat > expected
    call 0 where sheet "$@" --memory "$length"
    same "$what: where $*" stdout expected
    if [ -s stderr ]; then fail "$what: where $*: standard error is '$(head -c 100 stderr)'"; else pass; fi
}

# refuses LINE WORD..: where prints this line, and nothing on standard output.
refuses() {
    echo "moonbleat: $1" > expected
    shift
    call 1 where sheet "$@" --memory "$length"
    silent
    same "$what: where $*" stderr expected
}

# -- The strips: maps ----------------------------------------------------------------------------

strip 01-constant
shows 1 << 'END'
step 1: load register 1, object register 0, layout 0, no view, base 0
matrix 1 by 8 of u8, clamp mode Constant

col    0   1   2   3   4   5   6   7
row 0  #<0 #<0 0   1   2   3   #>0 #>0

  number  its byte in memory
  #       filled with 9: outside the tensor
  <0      below in dimension 0, the first outside: under 0
  >0      above in dimension 0, the first outside: past 3

8 elements: 4 with a byte, 4 filled; 2 below in dimension 0, 2 above in dimension 0
mask, byte 34: 3C; 4 set
END

strip 02-clamp-to-edge
shows 1 << 'END'
step 1: load register 1, object register 0, layout 0, no view, base 0
matrix 1 by 8 of u8, clamp mode ClampToEdge

col    0   1   2   3   4   5   6   7
row 0  0<0 0<0 0   1   2   3   3>0 3>0

  number  its byte in memory
  <0      below in dimension 0, the first outside: under 0
  >0      above in dimension 0, the first outside: past 3

8 elements: 8 with a byte; 2 below in dimension 0, 2 above in dimension 0
mask, byte 34: FF; 8 set
END

strip 03-repeat
shows 1 << 'END'
step 1: load register 1, object register 0, layout 0, no view, base 0
matrix 1 by 8 of u8, clamp mode Repeat

col    0   1   2   3   4   5   6   7
row 0  2<0 3<0 0   1   2   3   0>0 1>0

  number  its byte in memory
  <0      below in dimension 0, the first outside: under 0
  >0      above in dimension 0, the first outside: past 3

8 elements: 8 with a byte; 2 below in dimension 0, 2 above in dimension 0
mask, byte 34: FF; 8 set
END

strip 04-mirror-repeat
shows 1 << 'END'
step 1: load register 1, object register 0, layout 0, no view, base 0
matrix 1 by 8 of u8, clamp mode MirrorRepeat

col    0   1   2   3   4   5   6   7
row 0  2<0 1<0 0   1   2   3   2>0 1>0

  number  its byte in memory
  <0      below in dimension 0, the first outside: under 0
  >0      above in dimension 0, the first outside: past 3

8 elements: 8 with a byte; 2 below in dimension 0, 2 above in dimension 0
mask, byte 34: FF; 8 set
END

strip 04-mirror-repeat-of-one
shows 1 << 'END'
step 1: load register 1, object register 0, layout 0, no view, base 0
matrix 1 by 8 of u8, clamp mode MirrorRepeat

col    0   1   2   3   4   5   6   7
row 0  0<0 0<0 0   0>0 0>0 0>0 0>0 0>0

  number  its byte in memory
  <0      below in dimension 0, the first outside: under 0
  >0      above in dimension 0, the first outside: past 0

8 elements: 8 with a byte; 2 below in dimension 0, 5 above in dimension 0
mask, byte 34: FF; 8 set
END

# A refused strip shows its refusal, whatever is asked.
for name in 05-undefined 09-large-index 10-stride-zero-pair; do
    strip "$name"
    line=$(cat "$root/strips/$name/refusal.txt")
    refuses "$line" 1
    refuses "$line" 1 --element 0
    refuses "$line" 1 --element 1,1
    refuses "$line" 0
    refuses "$line" 7 --element 9
done

strip 06-clamped-store
shows 1 << 'END'
step 1: load register 0, its own object, layout 0, no view, base 16
matrix 1 by 8 of u8, clamp mode ClampToEdge

col     0    1    2    3    4    5    6    7
row 0  16<0 16<0 16   17   18   19   19>0 19>0

  number  its byte in memory
  <0      below in dimension 0, the first outside: under 0
  >0      above in dimension 0, the first outside: past 3

8 elements: 8 with a byte; 2 below in dimension 0, 2 above in dimension 0
mask, byte 34: FF; 8 set
END
shows 2 << 'END'
step 2: store register 0, layout 0, no view, base 0
matrix 1 by 8 of u8, clamp mode ClampToEdge

col    0   1   2   3   4   5   6   7
row 0  x<0 x<0 0   1   2   3   x>0 x>0

  number  its byte in memory
  x       discarded: outside the tensor, not stored
  <0      below in dimension 0, the first outside: under 0
  >0      above in dimension 0, the first outside: past 3

8 elements: 4 with a byte, 4 discarded; 2 below in dimension 0, 2 above in dimension 0
mask, byte 68: 3C; 4 set
END

strip 07-permuted-view
shows 1 << 'END'
step 1: load register 0, its own object, layout 0, view 0, base 0
matrix 3 by 2 of u8, clamp mode Undefined

col    0 1
row 0  0 3
row 1  1 4
row 2  2 5

  number  its byte in memory

6 elements: 6 with a byte; none outside
mask, byte 34: 3F; 6 set
END

strip 08-clip
shows 1 << 'END'
step 1: load register 0, its own object, layout 0, view 0, base 0
matrix 2 by 4 of u8, clamp mode Undefined

col    0 1 2 3
row 0  . . 0 1
row 1  . . 4 5

  number  its byte in memory
  .       skipped: outside the clip, keeps what the object has

8 elements: 4 with a byte, 4 skipped; none outside
mask, byte 34: CC; 4 set
END

strip 10-stride-zero-single
shows 1 << 'END'
step 1: store register 0, layout 0, no view, base 0
matrix 1 by 1 of u8, clamp mode Undefined

col    0
row 0  0

  number  its byte in memory

1 element: 1 with a byte; none outside
mask, byte 34: 01; 1 set
END

# Strip 15: the same load in editions 2 and 3 skips the same elements, which are then what the register held, or 0.
clipped_load() {
    shows 1 << END
step 1: load register 0, $1, layout 0, view 0, base 16
matrix 2 by 4 of u8, clamp mode Undefined

col     0  1  2  3
row 0   .  . 16 17
row 1   .  . 20 21

  number  its byte in memory
  .       skipped: outside the clip, keeps $2

8 elements: 4 with a byte, 4 skipped; none outside
mask, byte 34: CC; 4 set
END
}
strip 15-no-object-kept
clipped_load 'its own object' 'what the object has'
strip 15-no-object-zeros
clipped_load 'from zeros' 'the 0 that the load starts from'
# With an object, also the register itself, nothing depends on the edition.
for edition in 1 2 3; do
    for object in 0 1; do
        sed "s/^edition .*/edition $edition/;s/^load r0 object zeros/load r0 object r$object/
            s/^fill r0 .*/&\\nfill r1 2x4 u8 7/" "$root/strips/15-no-object-zeros/sheet.txt" > edited
        text < edited
        call 0 where sheet 2
        grep -e '^step' -e 'skipped: ' stdout > part
        printf '%s\n' "step 2: load register 0, object register $object, layout 0, view 0, base 16" \
            '  .       skipped: outside the clip, keeps what the object has' > expected
        same "where, edition $edition, object $object" part expected
    done
done

# -- The strips: ways ----------------------------------------------------------------------------

# way WORD..: the lines behind the first two, which are the map's, must be standard input and where the element's bit is
# in the mask, which has it if its outcome is a byte.
way() {
    cat > rules
    element=$(sed -n 's/^element \([0-9]*\):.*/\1/p' rules)
    if grep -q '^outcome: byte' rules; then bit='set'; else bit='not set'; fi
    {
        tool where sheet "$1" --memory "$length" | head -n 2
        cat rules
        echo "mask: byte 34 * $1 + $element / 8 = $((34 * $1 + element / 8)), bit $element mod 8 = $((element % 8)): $bit"
    } > way
    shows "$@" < way
}

# clamped STEP ELEMENT COORDINATE REST: the way of an element of strips 1 to 6, whose matrices are 1 by 8, from
# what rule 4 says of its coordinate on.
clamped() {
    way "$1" --element "$2" << END
element $2: row 0, column $2
rule 1: no view; row * columns + column: 0 * 8 + $2 = $2
rule 2: no view; the index stays $2
rule 3: dimension 0, by its span: $2 mod 8 = $2, left 0, dropped
rule 4: dimension 0, with its offset: $2 + -2 = $3
$4
END
}

# byte COORDINATE BASE BYTE: the lines of rule 5 for them.
byte() {
    echo "rule 5: coordinate / block * stride: $1 / 1 * 1 = $1"
    echo "rule 5: base + tensor index * element size: $2 + $1 * 1 = $3"
}

below='dimension 0 is the first outside, below'
above='dimension 0 is the first outside, above'
strip 01-constant
clamped 1 0 '-2, below 0 to 3; Constant fills' "rule 5: does not apply
outcome: filled with 9; $below"
clamped 1 1 '-1, below 0 to 3; Constant fills' "rule 5: does not apply
outcome: filled with 9; $below"
clamped 1 2 '0, inside 0 to 3' "$(byte 0 0 0)
outcome: byte 0; inside in every dimension"
clamped 1 5 '3, inside 0 to 3' "$(byte 3 0 3)
outcome: byte 3; inside in every dimension"
clamped 1 6 '4, above 0 to 3; Constant fills' "rule 5: does not apply
outcome: filled with 9; $above"

strip 02-clamp-to-edge
clamped 1 1 '-1, below 0 to 3; ClampToEdge gives 0' "$(byte 0 0 0)
outcome: byte 0; $below"
clamped 1 3 '1, inside 0 to 3' "$(byte 1 0 1)
outcome: byte 1; inside in every dimension"
clamped 1 7 '5, above 0 to 3; ClampToEdge gives 3' "$(byte 3 0 3)
outcome: byte 3; $above"

strip 03-repeat
clamped 1 0 '-2, below 0 to 3; Repeat gives 2' "$(byte 2 0 2)
outcome: byte 2; $below"
clamped 1 4 '2, inside 0 to 3' "$(byte 2 0 2)
outcome: byte 2; inside in every dimension"
clamped 1 7 '5, above 0 to 3; Repeat gives 1' "$(byte 1 0 1)
outcome: byte 1; $above"

strip 04-mirror-repeat
clamped 1 0 '-2, below 0 to 3; MirrorRepeat gives 2' "$(byte 2 0 2)
outcome: byte 2; $below"
clamped 1 3 '1, inside 0 to 3' "$(byte 1 0 1)
outcome: byte 1; inside in every dimension"
clamped 1 7 '5, above 0 to 3; MirrorRepeat gives 1' "$(byte 1 0 1)
outcome: byte 1; $above"

strip 04-mirror-repeat-of-one
clamped 1 1 '-1, below 0 to 0; MirrorRepeat gives 0' "$(byte 0 0 0)
outcome: byte 0; $below"
clamped 1 2 '0, inside 0 to 0' "$(byte 0 0 0)
outcome: byte 0; inside in every dimension"
clamped 1 3 '1, above 0 to 0; MirrorRepeat gives 0' "$(byte 0 0 0)
outcome: byte 0; $above"

strip 06-clamped-store
clamped 1 0 '-2, below 0 to 3; ClampToEdge gives 0' "$(byte 0 16 16)
outcome: byte 16; $below"
clamped 1 2 '0, inside 0 to 3' "$(byte 0 16 16)
outcome: byte 16; inside in every dimension"
clamped 1 6 '4, above 0 to 3; ClampToEdge gives 3' "$(byte 3 16 19)
outcome: byte 19; $above"
clamped 2 1 '-1, below 0 to 3; a store discards' "rule 5: does not apply
outcome: discarded; $below"
clamped 2 4 '2, inside 0 to 3' "$(byte 2 0 2)
outcome: byte 2; inside in every dimension"
clamped 2 6 '4, above 0 to 3; a store discards' "rule 5: does not apply
outcome: discarded; $above"

strip 07-permuted-view
way 1 --element 3 << 'END'
element 3: row 1, column 1
rule 1: inside the clip; width 2, the smaller of 2 columns and column span 65535
rule 1: (row - offset) * width + column - offset: (1 - 0) * 2 + 1 - 0 = 3
rule 2: permutation entry 1, coordinate 0: 3 mod 2 = 1, left 1
rule 2: permutation entry 0, coordinate 1: 1 mod 3 = 1, left 0
rule 2: coordinate * stride, of the layout's spans: 1 * 3 + 1 * 1 = 4
rule 3: dimension 1, by its span: 4 mod 3 = 1, left 1
rule 3: dimension 0, by its span: 1 mod 2 = 1, left 0, dropped
rule 4: dimension 0, with its offset: 1 + 0 = 1, inside 0 to 1
rule 4: dimension 1, with its offset: 1 + 0 = 1, inside 0 to 2
rule 5: coordinate / block * stride: 1 / 1 * 3 + 1 / 1 * 1 = 4
rule 5: base + tensor index * element size: 0 + 4 * 1 = 4
outcome: byte 4; inside in every dimension
END

strip 08-clip
way 1 --element 1 << 'END'
element 1: row 0, column 1
rule 1: outside the clip: column 1 is below column offset 2
rules 2 to 5: do not apply
outcome: skipped
END
way 1 --element 6 << 'END'
element 6: row 1, column 2
rule 1: inside the clip; width 4, the smaller of 4 columns and column span 65535
rule 1: (row - offset) * width + column - offset: (1 - 0) * 4 + 2 - 2 = 4
rule 2: permutation entry 0, coordinate 0: 4 mod 8 = 4, left 0
rule 2: coordinate * stride, of the layout's spans: 4 * 1 = 4
rule 3: dimension 0, by its span: 4 mod 8 = 4, left 0, dropped
rule 4: dimension 0, with its offset: 4 + 0 = 4, inside 0 to 7
rule 5: coordinate / block * stride: 4 / 1 * 1 = 4
rule 5: base + tensor index * element size: 0 + 4 * 1 = 4
outcome: byte 4; inside in every dimension
END

# That an element is skipped does not depend on the edition; what the load starts from is said before the way.
for edition in kept:'its own object' zeros:'from zeros'; do
    strip "15-no-object-${edition%%:*}"
    shows 1 --element 1,0 << END
step 1: load register 0, ${edition#*:}, layout 0, view 0, base 16
matrix 2 by 4 of u8, clamp mode Undefined
element 4: row 1, column 0
rule 1: outside the clip: column 0 is below column offset 2
rules 2 to 5: do not apply
outcome: skipped
mask: byte 34 * 1 + 4 / 8 = 34, bit 4 mod 8 = 4: not set
END
done

strip 10-stride-zero-single
way 1 --element 0 << 'END'
element 0: row 0, column 0
rule 1: no view; row * columns + column: 0 * 1 + 0 = 0
rule 2: no view; the index stays 0
rule 3: dimension 0, by its span: 0 mod 8 = 0, left 0, dropped
rule 4: dimension 0, with its offset: 0 + 0 = 0, inside 0 to 7
rule 5: coordinate / block * stride: 0 / 1 * 0 = 0
rule 5: base + tensor index * element size: 0 + 0 * 1 = 0
outcome: byte 0; inside in every dimension
END

# -- Maps and ways of other sheets ---------------------------------------------------------------

# Two dimensions, each padded on both sides. In the corners both are outside, and the first one counts. The clamp
# value's low bits are -1 of an s8.
text << 'END'
edition 1
layout L0 Constant value 0x1FF
  dim size 2 stride 2 offset -1 span 4
  dim size 2 stride 1 offset -1 span 4
fill r0 4x4 s8 0
load r1 object r0 L0 base 16
store r1 L0 base 0
END
shows 1 << 'END'
step 1: load register 1, object register 0, layout 0, no view, base 16
matrix 4 by 4 of s8, clamp mode Constant

col     0    1    2    3
row 0   #<0  #<0  #<0  #<0
row 1   #<1 16   17    #>1
row 2   #<1 18   19    #>1
row 3   #>0  #>0  #>0  #>0

  number  its byte in memory
  #       filled with 255 (-1 as s8): outside the tensor
  <0      below in dimension 0, the first outside: under 0
  >0      above in dimension 0, the first outside: past 1
  <1      below in dimension 1, the first outside: under 0
  >1      above in dimension 1, the first outside: past 1

16 elements: 4 with a byte, 12 filled; 4 below in dimension 0, 4 above in dimension 0, 2 below in dimension 1, 2 above in dimension 1
mask, bytes 34 to 35: 60 06; 4 set
END
shows 2 << 'END'
step 2: store register 1, layout 0, no view, base 0
matrix 4 by 4 of s8, clamp mode Constant

col    0   1   2   3
row 0  x<0 x<0 x<0 x<0
row 1  x<1 0   1   x>1
row 2  x<1 2   3   x>1
row 3  x>0 x>0 x>0 x>0

  number  its byte in memory
  x       discarded: outside the tensor, not stored
  <0      below in dimension 0, the first outside: under 0
  >0      above in dimension 0, the first outside: past 1
  <1      below in dimension 1, the first outside: under 0
  >1      above in dimension 1, the first outside: past 1

16 elements: 4 with a byte, 12 discarded; 4 below in dimension 0, 4 above in dimension 0, 2 below in dimension 1, 2 above in dimension 1
mask, bytes 68 to 69: 60 06; 4 set
END
way 1 --element 3,0 << 'END'
element 12: row 3, column 0
rule 1: no view; row * columns + column: 3 * 4 + 0 = 12
rule 2: no view; the index stays 12
rule 3: dimension 1, by its span: 12 mod 4 = 0, left 3
rule 3: dimension 0, by its span: 3 mod 4 = 3, left 0, dropped
rule 4: dimension 0, with its offset: 3 + -1 = 2, above 0 to 1; Constant fills
rule 4: dimension 1, with its offset: 0 + -1 = -1, below 0 to 1; Constant fills
rule 5: does not apply
outcome: filled with 255 (-1 as s8); dimension 0 is the first outside, above
END
way 2 --element 7 << 'END'
element 7: row 1, column 3
rule 1: no view; row * columns + column: 1 * 4 + 3 = 7
rule 2: no view; the index stays 7
rule 3: dimension 1, by its span: 7 mod 4 = 3, left 1
rule 3: dimension 0, by its span: 1 mod 4 = 1, left 0, dropped
rule 4: dimension 0, with its offset: 1 + -1 = 0, inside 0 to 1
rule 4: dimension 1, with its offset: 3 + -1 = 2, above 0 to 1; a store discards
rule 5: does not apply
outcome: discarded; dimension 1 is the first outside, above
END

# A clip on all four sides and a view with a size and a stride of its own: the four elements inside have indices
# 0 2 4 6, span coordinates (0,0) (0,2) (1,1) (2,0) and coordinates (4,-1) (4,1) (5,0) (6,-1). The load's blocks of
# 2 make them 8 7 6 2 elements of two bytes from 32 on; the store has the two inside, at 13 and 15 from 64 on.
text << 'END'
edition 1
layout L0 Repeat
  dim block 2 size 6 stride 3 offset 4 span 4
  dim size 3 stride 1 offset -1 span 3
layout L1 Repeat
  dim size 6 stride 3 offset 4 span 4
  dim size 3 stride 1 offset -1 span 3
view V0 permutation 0
  dim size 5 stride 2
  clip rows 1 2 columns 1 2
fill r0 4x4 u16 0
load r0 L0 V0 base 32
store r0 L1 V0 base 64
END
shows 1 << 'END'
step 1: load register 0, its own object, layout 0, view 0, base 32
matrix 4 by 4 of u16, clamp mode Repeat

col     0    1    2    3
row 0   .    .    .    .
row 1   .   48<1 46    .
row 2   .   44   36>0  .
row 3   .    .    .    .

  number  its first byte in memory
  .       skipped: outside the clip, keeps what the object has
  >0      above in dimension 0, the first outside: past 5
  <1      below in dimension 1, the first outside: under 0

16 elements: 4 with a byte, 12 skipped; 1 above in dimension 0, 1 below in dimension 1
mask, bytes 34 to 35: 60 06; 4 set
END
shows 2 << 'END'
step 2: store register 0, layout 1, view 0, base 64
matrix 4 by 4 of u16, clamp mode Repeat

col     0    1    2    3
row 0   .    .    .    .
row 1   .    x<1 90    .
row 2   .   94    x>0  .
row 3   .    .    .    .

  number  its first byte in memory
  .       skipped: outside the clip, not stored
  x       discarded: outside the tensor, not stored
  >0      above in dimension 0, the first outside: past 5
  <1      below in dimension 1, the first outside: under 0

16 elements: 2 with a byte, 2 discarded, 12 skipped; 1 above in dimension 0, 1 below in dimension 1
mask, bytes 68 to 69: 40 02; 2 set
END
way 1 --element 0x2,0x2 << 'END'
element 10: row 2, column 2
rule 1: inside the clip; width 2, the smaller of 4 columns and column span 2
rule 1: (row - offset) * width + column - offset: (2 - 1) * 2 + 2 - 1 = 3
rule 2: permutation entry 0, coordinate 0: 3 mod 5 = 3, left 0
rule 2: coordinate * stride, the view's own: 3 * 2 = 6
rule 3: dimension 1, by its span: 6 mod 3 = 0, left 2
rule 3: dimension 0, by its span: 2 mod 4 = 2, left 0, dropped
rule 4: dimension 0, with its offset: 2 + 4 = 6, above 0 to 5; Repeat gives 0
rule 4: dimension 1, with its offset: 0 + -1 = -1, below 0 to 2; Repeat gives 2
rule 5: coordinate / block * stride: 0 / 2 * 3 + 2 / 1 * 1 = 2
rule 5: base + tensor index * element size: 32 + 2 * 2 = 36
outcome: byte 36; dimension 0 is the first outside, above
END

# clipped ELEMENT WHY: each bound of the clip; the row's comes first.
clipped() {
    way 1 --element "$1" << END
element $1: row $(($1 / 4)), column $(($1 % 4))
rule 1: outside the clip: $2
rules 2 to 5: do not apply
outcome: skipped
END
}
clipped 0 'row 0 is below row offset 1'
clipped 2 'row 0 is below row offset 1'
clipped 13 'row 3 is not below row offset + span, 1 + 2 = 3'
clipped 4 'column 0 is below column offset 1'
clipped 11 'column 3 is not below column offset + span, 1 + 2 = 3'

# An index past all spans begins again.
text << 'END'
edition 1
layout L0 Undefined
  dim size 2 stride 16 span 2
  dim size 3 stride 1 span 3
fill r0 1x8 u32 0
load r0 L0 base 0
END
way 1 --element 7 << 'END'
element 7: row 0, column 7
rule 1: no view; row * columns + column: 0 * 8 + 7 = 7
rule 2: no view; the index stays 7
rule 3: dimension 1, by its span: 7 mod 3 = 1, left 2
rule 3: dimension 0, by its span: 2 mod 2 = 0, left 1, dropped
rule 4: dimension 0, with its offset: 0 + 0 = 0, inside 0 to 1
rule 4: dimension 1, with its offset: 1 + 0 = 1, inside 0 to 2
rule 5: coordinate / block * stride: 0 / 1 * 16 + 1 / 1 * 1 = 1
rule 5: base + tensor index * element size: 0 + 1 * 4 = 4
outcome: byte 4; inside in every dimension
END

# Five dimensions, the longest way.
text << 'END'
edition 1
layout L0 ClampToEdge
  dim size 2 stride 16 span 2
  dim size 2 stride 8 span 2
  dim size 2 stride 4 offset 1 span 2
  dim size 2 stride 2 offset 4095 span 2
  dim size 2 stride 1 offset -4096 span 2
view V0 permutation 4 3 2 1 0
fill r0 1x2 u32 0
load r0 L0 V0 base 0
END
way 1 --element 1 << 'END'
element 1: row 0, column 1
rule 1: inside the clip; width 2, the smaller of 2 columns and column span 65535
rule 1: (row - offset) * width + column - offset: (0 - 0) * 2 + 1 - 0 = 1
rule 2: permutation entry 4, coordinate 0: 1 mod 2 = 1, left 0
rule 2: permutation entry 3, coordinate 1: 0 mod 2 = 0, left 0
rule 2: permutation entry 2, coordinate 2: 0 mod 2 = 0, left 0
rule 2: permutation entry 1, coordinate 3: 0 mod 2 = 0, left 0
rule 2: permutation entry 0, coordinate 4: 0 mod 2 = 0, left 0
rule 2: coordinate * stride, of the layout's spans: 1 * 16 + 0 * 8 + 0 * 4 + 0 * 2 + 0 * 1 = 16
rule 3: dimension 4, by its span: 16 mod 2 = 0, left 8
rule 3: dimension 3, by its span: 8 mod 2 = 0, left 4
rule 3: dimension 2, by its span: 4 mod 2 = 0, left 2
rule 3: dimension 1, by its span: 2 mod 2 = 0, left 1
rule 3: dimension 0, by its span: 1 mod 2 = 1, left 0, dropped
rule 4: dimension 0, with its offset: 1 + 0 = 1, inside 0 to 1
rule 4: dimension 1, with its offset: 0 + 0 = 0, inside 0 to 1
rule 4: dimension 2, with its offset: 0 + 1 = 1, inside 0 to 1
rule 4: dimension 3, with its offset: 0 + 4095 = 4095, above 0 to 1; ClampToEdge gives 1
rule 4: dimension 4, with its offset: 0 + -4096 = -4096, below 0 to 1; ClampToEdge gives 0
rule 5: coordinate / block * stride: 1 / 1 * 16 + 0 / 1 * 8 + 1 / 1 * 4 + 1 / 1 * 2 + 0 / 1 * 1 = 22
rule 5: base + tensor index * element size: 0 + 22 * 4 = 88
outcome: byte 88; dimension 3 is the first outside, above
END

# The largest map, whose cells are as wide as they get; row r begins at byte 61440 + 256 * r. Element 255 goes to
# the edge of its row.
text << 'END'
edition 1
layout L0 ClampToEdge
  dim size 16 stride 64 span 16
  dim size 15 stride 4 span 16
fill r0 16x16 u32 0
load r0 L0 base 61440
END
call 0 where sheet 1
sed -n 4,6p stdout > part
cat > expected << 'END'
col        0       1       2       3       4       5       6       7       8       9      10      11      12      13      14      15
row 0  61440   61456   61472   61488   61504   61520   61536   61552   61568   61584   61600   61616   61632   61648   61664   61664>1
row 1  61696   61712   61728   61744   61760   61776   61792   61808   61824   61840   61856   61872   61888   61904   61920   61920>1
END
same 'the largest map, its first rows' part expected
{ sed -n 20p stdout && tail -n 2 stdout; } > part
cat > expected << 'END'
row 15 65280   65296   65312   65328   65344   65360   65376   65392   65408   65424   65440   65456   65472   65488   65504   65504>1
256 elements: 256 with a byte; 16 above in dimension 1
mask, bytes 34 to 65: FF FF FF FF FF FF FF FF FF FF FF FF FF FF FF FF FF FF FF FF FF FF FF FF FF FF FF FF FF FF FF FF; 256 set
END
same 'the largest map, its last row, summary and mask' part expected

# A column's number may be wider than its bytes.
text << 'END'
edition 1
layout L0 Undefined
  dim size 16 stride 0 span 16
fill r0 1x12 u8 0
load r0 L0 base 0
END
call 0 where sheet 1
sed -n 4,5p stdout > part
cat > expected << 'END'
col     0  1  2  3  4  5  6  7  8  9 10 11
row 0   0  0  0  0  0  0  0  0  0  0  0  0
END
same 'a map of narrow bytes' part expected

# -- What is refused -----------------------------------------------------------------------------

# Every step but loads and stores, steps past the end, and elements past the matrix: a load has its object's
# elements, whatever its register had.
text << 'END'
edition 2
layout L0 Constant
  dim size 4 stride 1 span 4
fill r0 2x2 u32 0
fill r1 4x4 u32 0
load r1 object r0 L0 base 0
store r0 L0 base 16
reduce r2 of r0 2x1 row add
transpose r3 of r0
multiply-add r3 A r0 B r0 C r0
vector r3 u32 of r2 as u32 matrix u8 1x2 row-major stride 0 offset 0
END
both='loads and stores: 2 (load), 3 (store)'
refuses "refusal 5 at step 0, element 0: fill is no load or store; $both" 0
refuses "refusal 5 at step 4, element 0: reduce is no load or store; $both" 4
refuses "refusal 5 at step 5, element 0: transpose is no load or store; $both" 5
refuses "refusal 5 at step 6, element 0: multiply-add is no load or store; $both" 6
refuses "refusal 5 at step 7, element 0: vector is no load or store; $both" 7
refuses "refusal 5 at step 7, element 5: vector is no load or store; $both" 7 --element 5
refuses "refusal 5 at step 1, element 0: fill is no load or store; $both" 1 --element 2,2
refuses "refusal 5 at step 8, element 0: the sheet has 8 steps, from 0 on; $both" 8
refuses "refusal 5 at step 8, element 3: the sheet has 8 steps, from 0 on; $both" 8 --element 3
refuses "refusal 5 at step 4294967295, element 4294967295: the sheet has 8 steps, from 0 on; $both" \
    4294967295 --element 4294967295
for step in '2 load' '3 store'; do
    for element in 4 15 256 4294967295; do
        refuses "refusal 5 at step ${step% *}, element $element: ${step#* }: the matrix is 2 by 2, elements 0 to 3" \
            "${step% *}" --element "$element"
    done
    for element in 0 3; do
        call 0 where sheet "${step% *}" --element "$element"
    done
done

text << 'END'
edition 1
fill r0 1x1 u8 0
END
refuses 'refusal 5 at step 0, element 0: fill is no load or store; loads and stores: none' 0
refuses 'refusal 5 at step 1, element 0: the sheet has 1 step, from 0 on; loads and stores: none' 1
text << 'END'
edition 1
END
refuses 'refusal 5 at step 0, element 0: the sheet has no steps' 0

# Where a number of the sheet is out of its range, the place is a byte, also where a step of that number is asked for.
printf '\001\001\000\001\044\002\000\001\004' > sheet
refuses 'refusal 5 at byte 4: step 0 (transpose): source 4 is not within 0 to 3' 4
refuses 'refusal 5 at byte 4: step 0 (transpose): source 4 is not within 0 to 3' 0 --element 0

# A position outside the matrix could be another element's number.
strip 08-clip
for position in 2,0 0,4 1,4 4294967295,0; do
    call 2 where sheet 1 --element "$position"
    silent
    says "moonbleat: --element $position: the matrix of step 1 is 2 by 4
usage: moonbleat where SHEET STEP "
done

# -- JSON, and standard input --------------------------------------------------------------------

strip 01-constant
json '.command == "where" and .accepted and .refusal == null and .memory == 16 and .step == 1 and .rows == 1 and
    .columns == 8 and .mask == [2, 3, 4, 5] and (has("touched") | not) and (has("way") | not) and ([.outcomes[].element] == [range(8)]) and
    ([.outcomes[].sort] | . == ["filled", "filled", "byte", "byte", "byte", "byte", "filled", "filled"]) and
    ([.outcomes[].byte] == [null, null, 0, 1, 2, 3, null, null]) and
    ([.outcomes[].bits] == [9, 9, null, null, null, null, 9, 9]) and
    ([.outcomes[].dimension] == [0, 0, null, null, null, null, 0, 0]) and
    ([.outcomes[].side] == ["below", "below", "inside", "inside", "inside", "inside", "above", "above"])' \
    call 0 where sheet 1 --memory 16
json '(has("outcomes") | not) and .outcome == {element: 7, sort: "filled", byte: null, bits: 9, dimension: 0,
    side: "above"} and .mask == [2, 3, 4, 5] and .touched == false and (.way | length) == 8 and
    .way[0] == "element 7: row 0, column 7" and
    .way[6] == "outcome: filled with 9; dimension 0 is the first outside, above" and
    .way[7] == "mask: byte 34 * 1 + 7 / 8 = 34, bit 7 mod 8 = 7: not set"' call 0 where sheet 1 --element 7
for name in 08-clip 15-no-object-zeros; do
    strip "$name"
    json '.outcomes[0] == {element: 0, sort: "skipped", byte: null, bits: null, dimension: null, side: "inside"}' \
        call 0 where sheet 1
done
strip 06-clamped-store
json '.outcomes[0] == {element: 0, sort: "discarded", byte: null, bits: null, dimension: 0, side: "below"}' \
    call 0 where sheet 2
json '. == {command: "where", accepted: false, refusal: {number: 5, place: 0, second_place: 3,
    at: "step 0, element 3", sentence: "fill is no load or store; loads and stores: 1 (load), 2 (store)"}}' \
    call 1 where sheet 0 --element 3
json '. == {command: "where", accepted: false, refusal: {number: 14, place: 1, second_place: 5,
    at: "step 1, element 5", sentence: "load: row 0, column 5: byte 19 does not lie in the memory of 19 bytes"}}' \
    call 1 where sheet 2 --memory 19

call 0 where sheet 2 --element 0,6
mv stdout expected
call 0 where - 2 --element=6 < sheet
same 'where -' stdout expected
call 0 where --element 6 -- sheet 0x2
same 'where --' stdout expected

echo "tests of where: $passed passed, $failed failed"
[ "$failed" -eq 0 ]
