Operations, index maps and reductions of the language, each through `eval`.

  $ venice() { "$TESTDIR/../../venice" "$@"; }
  $ try() { echo "$1" > try.ven; echo "$2" > try.arrays; venice eval try.ven try.arrays; }

Results wrap into their type.

  $ try 'input a i8[1,1]; output p = -a; output q = a - 1; output r = abs(a);' 'a i8[1,1] -128'
  p i8[1,1]
  -128
  q i8[1,1]
  127
  r i8[1,1]
  -128
  $ try 'input a u8[1,1]; output z = 10 - a * 2 + 1;' 'a u8[1,1] 6'
  z u8[1,1]
  255
  $ try 'input a u16[1,2]; output y = u8(a);' 'a u16[1,2] 300 7'
  y u8[1,2]
  44 7

The amount of a shift counts modulo the width.

  $ try 'input a i8[1,1]; output y = a << -1;' 'a i8[1,1] 1'
  y i8[1,1]
  -128

Saturating sums and differences stay at the end of their type.

  $ try 'input a u8[1,2]; output p = sadd(a, 10); output q = ssub(a, 5);' 'a u8[1,2] 250 4'
  p u8[1,2]
  255 14
  q u8[1,2]
  245 0
  $ try 'input a i8[1,2]; output p = sadd(a, 1); output q = ssub(a, 1);' 'a i8[1,2] 127 -128'
  p i8[1,2]
  127 -127
  q i8[1,2]
  126 -128

A choice, where the condition isn't 0.

  $ try 'input a u8[1,3]; output y = select(a < 10, a, 0);' 'a u8[1,3] 9 10 255'
  y u8[1,3]
  9 0 0
  $ try 'input a i8[1,1]; output y = select(a < 10, a, 0);' 'a i8[1,1] -1'
  y i8[1,1]
  -1

Index maps.

  $ try 'input a u8[1,3]; output p = shift(a,0,1,7); output q = shift(a,0,-1,7); output r = shift(a,0,5,7);' 'a u8[1,3] 1 2 3'
  p u8[1,3]
  2 3 7
  q u8[1,3]
  7 1 2
  r u8[1,3]
  7 7 7
  $ try 'input a u8[1,3]; output p = rotate(a,0,-1); output q = rotate(a,0,3); output r = a;' 'a u8[1,3] 1 2 3'
  p u8[1,3]
  3 1 2
  q u8[1,3]
  1 2 3
  r u8[1,3]
  1 2 3
  $ try 'input a u8[2,4]; output y = section(a,0,2,1,1,2,2);' 'a u8[2,4] 1 2 3 4 5 6 7 8'
  y u8[2,2]
  2 4
  6 8
  $ try 'input a u8[1,2]; output y = stretch(a,2,3);' 'a u8[1,2] 1 2'
  y u8[2,6]
  1 1 1 2 2 2
  1 1 1 2 2 2
  $ try 'input a u8[2,3]; output y = transpose(a);' 'a u8[2,3] 1 2 3 4 5 6'
  y u8[3,2]
  1 4
  2 5
  3 6

Reductions.

  $ try 'input a u8[1,5]; output s = sum(a);' 'a u8[1,5] 100 100 100 100 100'
  s u8[1,1]
  244
  $ try 'input b u8[1,5]; output l = rowmin(b); output m = rowmax(b);' 'b u8[1,5] 5 3 9 1 7'
  l u8[1,1]
  1
  m u8[1,1]
  9
  $ try 'input a u16[2,9]; output y = rowsum(a);' "a u16[2,9] 1 2 3 4 5 6 7 8 9 $(printf '10000 %.0s' 1 2 3 4 5 6 7 8 9)"
  y u16[2,1]
  45
  24464
