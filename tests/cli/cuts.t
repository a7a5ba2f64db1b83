Where `check` cuts a program into passes, and what they need.

  $ venice() { "$TESTDIR/../../venice" "$@"; }
  $ plan() { echo "input a u8[2,3]; input b u8[2,3]; $1" > try.ven; venice check try.ven ${2-1000}; }

An output is one pass, however many operations it has. A literal takes no buffer, an input that occurs twice only one pair.

  $ plan 'output y = a;'
  y u8[2,3]
  need 5
  pass 1 map 2 3 tile 2 3 tiles 1
  bound 15616
  $ plan 'output y = a + a;'
  y u8[2,3]
  need 5
  pass 1 map 2 3 tile 2 3 tiles 1
  bound 17152
  $ plan 'output y = a + b;'
  y u8[2,3]
  need 7
  pass 1 map 2 3 tile 2 3 tiles 1
  bound 17152
  $ plan 'output y = (a + b) * 2 - ~a;'
  y u8[2,3]
  need 8
  pass 1 map 2 3 tile 2 3 tiles 1
  bound 24832
  $ plan 'output y = (a + b) * (a - b);'
  y u8[2,3]
  need 8
  pass 1 map 2 3 tile 2 3 tiles 1
  bound 23296

A `let` that is used once is no pass of its own; one that is used twice is, in one statement or in two, and in an unused one
too.

  $ plan 'let t = a + b; output y = t * 2;'
  y u8[2,3]
  need 7
  pass 1 map 2 3 tile 2 3 tiles 1
  bound 20224
  $ plan 'let t = a + b; output y = t * t;'
  y u8[2,3]
  need 7
  pass 1 map 2 3 tile 2 3 tiles 1
  pass 2 map 2 3 tile 2 3 tiles 1
  bound 34048
  $ plan 'let t = a + b; output y = t * 2; output z = t - 2;'
  y u8[2,3]
  z u8[2,3]
  need 7
  pass 1 map 2 3 tile 2 3 tiles 1
  pass 2 map 2 3 tile 2 3 tiles 1
  pass 3 map 2 3 tile 2 3 tiles 1
  bound 50944
  $ plan 'let t = a + b; let u = t * 2; output z = t - 2;'
  z u8[2,3]
  need 7
  pass 1 map 2 3 tile 2 3 tiles 1
  pass 2 map 2 3 tile 2 3 tiles 1
  bound 34048
  $ plan 'let t = a; output z = t + t;'
  z u8[2,3]
  need 5
  pass 1 map 2 3 tile 2 3 tiles 1
  pass 2 map 2 3 tile 2 3 tiles 1
  bound 32512

A `let` that nothing uses is no pass, but its cuts are.

  $ plan 'let t = a + b; output y = a;'
  y u8[2,3]
  need 5
  pass 1 map 2 3 tile 2 3 tiles 1
  bound 15616
  $ plan 'let t = sum(a + b) + 1; output y = a;'
  y u8[2,3]
  need 8
  pass 1 sum 2 3 tile 2 3 tiles 1
  pass 2 sum 1 2 tile 1 2 tiles 1
  pass 3 map 2 3 tile 2 3 tiles 1
  bound 37632
  $ plan 'let t = shift(a + b, 0, 1, 0); output y = a;'
  y u8[2,3]
  need 7
  pass 1 map 2 3 tile 2 3 tiles 1
  pass 2 map 2 3 tile 2 3 tiles 1
  bound 32512
  $ plan 'let t = shift(a, 0, 1, 0); output y = a;'
  y u8[2,3]
  need 5
  pass 1 map 2 3 tile 2 3 tiles 1
  bound 15616

What stands in a map is a pass, a name of an input isn't, and a `let` is where its name itself stands there.

  $ plan 'output y = shift(a, 0, 1, 0) + a;'
  y u8[2,3]
  need 7
  pass 1 map 2 3 tile 2 3 tiles 1
  bound 17152
  $ plan 'output y = shift(a + b, 0, 1, 0);'
  y u8[2,3]
  need 7
  pass 1 map 2 3 tile 2 3 tiles 1
  pass 2 map 2 3 tile 2 3 tiles 1
  bound 32512
  $ plan 'let t = a + b; output y = shift(t, 0, 1, 0);'
  y u8[2,3]
  need 7
  pass 1 map 2 3 tile 2 3 tiles 1
  pass 2 map 2 3 tile 2 3 tiles 1
  bound 32512
  $ plan 'let t = a; output y = shift(t, 0, 1, 0);'
  y u8[2,3]
  need 5
  pass 1 map 2 3 tile 2 3 tiles 1
  pass 2 map 2 3 tile 2 3 tiles 1
  bound 30976
  $ plan 'let t = a + b; output y = shift(t + 1, 0, 1, 0);'
  y u8[2,3]
  need 7
  pass 1 map 2 3 tile 2 3 tiles 1
  pass 2 map 2 3 tile 2 3 tiles 1
  bound 35584
  $ plan 'output y = rotate(shift(a, 0, 1, 0), 1, 0);'
  y u8[2,3]
  need 5
  pass 1 map 2 3 tile 2 3 tiles 1
  pass 2 map 2 3 tile 2 3 tiles 1
  bound 30976
  $ plan 'output t = a + b; output y = shift(t, 0, 1, 0) - t;'
  t u8[2,3]
  y u8[2,3]
  need 7
  pass 1 map 2 3 tile 2 3 tiles 1
  pass 2 map 2 3 tile 2 3 tiles 1
  bound 34048

A reduction is a pass of rows, and a whole one a second pass over the column, also where there is one row, one column, or one
element.

  $ plan 'output y = rowsum(a * b);'
  y u8[2,1]
  need 8
  pass 1 sum 2 3 tile 2 3 tiles 1
  bound 17152
  $ plan 'output y = maxval(a);'
  y u8[1,1]
  need 6
  pass 1 max 2 3 tile 2 3 tiles 1
  pass 2 max 1 2 tile 1 2 tiles 1
  bound 20736
  $ plan 'output y = sum(rowmin(a));'
  y u8[1,1]
  need 6
  pass 1 min 2 3 tile 2 3 tiles 1
  pass 2 sum 2 1 tile 2 1 tiles 1
  pass 3 sum 1 2 tile 1 2 tiles 1
  bound 25856
  $ plan 'output y = minval(sum(section(a, 0, 1, 1, 0, 1, 1)));'
  y u8[1,1]
  need 6
  pass 1 sum 1 1 tile 1 1 tiles 1
  pass 2 sum 1 1 tile 1 1 tiles 1
  pass 3 min 1 1 tile 1 1 tiles 1
  pass 4 min 1 1 tile 1 1 tiles 1
  bound 10496
  $ plan 'output y = u16(rowsum(a)) + 1;'
  y u16[2,1]
  need 10
  pass 1 sum 2 3 tile 2 3 tiles 1
  pass 2 map 2 1 tile 2 1 tiles 1
  bound 21760
  $ plan 'let t = sum(a); output y = stretch(t, 2, 3) + b;'
  y u8[2,3]
  need 7
  pass 1 sum 2 3 tile 2 3 tiles 1
  pass 2 sum 1 2 tile 1 2 tiles 1
  pass 3 map 2 3 tile 2 3 tiles 1
  bound 37632
  $ plan 'output y = sum(transpose(a));'
  y u8[1,1]
  need 6
  pass 1 sum 3 2 tile 3 2 tiles 1
  pass 2 sum 1 3 tile 1 3 tiles 1
  bound 23296

Passes come in the order of statements, and in a statement operands first, from left to right.

  $ plan 'output y = stretch(rowmax(a), 1, 3) - stretch(sum(b), 2, 3); output z = transpose(a + b);' | grep pass
  pass 1 max 2 3 tile 2 3 tiles 1
  pass 2 sum 2 3 tile 2 3 tiles 1
  pass 3 sum 1 2 tile 1 2 tiles 1
  pass 4 map 2 3 tile 2 3 tiles 1
  pass 5 map 2 3 tile 2 3 tiles 1
  pass 6 map 3 2 tile 3 2 tiles 1

Two leaves are one where array and map are the same as they are written.

  $ plan 'output y = shift(a, 0, 1, 0) + shift(a, 0, 1, 0);' | grep need
  need 5
  $ plan 'output y = shift(a, 0, 1, 0) + shift(a, 0, 1, 1);' | grep need
  need 7
  $ plan 'output y = shift(a, 0, 1, 0) + shift(a, 0x0, 01, -0);' | grep need
  need 5
  $ plan 'output y = rotate(a, 0, 0) + a;' | grep need
  need 7
  $ plan 'output y = rotate(a, 2, 0) + rotate(a, 0, 0);' | grep need
  need 7
  $ plan 'output y = section(a, 0, 2, 1, 0, 3, 1) + stretch(a, 1, 1);' | grep need
  need 7

The condition of a `select` is compared with 0, unless it is a comparison, in its place or by a `let` that is no pass.

  $ plan 'output y = select(a, a, b);'
  y u8[2,3]
  need 8
  pass 1 map 2 3 tile 2 3 tiles 1
  bound 24832
  $ plan 'output y = select(a < b, a, b);'
  y u8[2,3]
  need 8
  pass 1 map 2 3 tile 2 3 tiles 1
  bound 24832
  $ plan 'let t = a < b; output y = select(t, a, b);'
  y u8[2,3]
  need 8
  pass 1 map 2 3 tile 2 3 tiles 1
  bound 24832
  $ plan 'let t = a < b; output y = select(t, a, b); output z = t;'
  y u8[2,3]
  z u8[2,3]
  need 10
  pass 1 map 2 3 tile 2 3 tiles 1
  pass 2 map 2 3 tile 2 3 tiles 1
  pass 3 map 2 3 tile 2 3 tiles 1
  bound 57088
  $ plan 'output y = select(a < b, a, b + 1);'
  y u8[2,3]
  need 8
  pass 1 map 2 3 tile 2 3 tiles 1
  bound 26368
  $ plan 'output y = select(a, select(b, 1, 2), select(a, 3, 4)) + 1;'
  y u8[2,3]
  need 9
  pass 1 map 2 3 tile 2 3 tiles 1
  bound 43264

The greatest element of a pass counts for all its buffers; a cast that changes the size holds two results.

  $ plan 'output y = u16(a);'
  y u16[2,3]
  need 10
  pass 1 map 2 3 tile 2 3 tiles 1
  bound 15616
  $ plan 'output y = u16(a + b);'
  y u16[2,3]
  need 16
  pass 1 map 2 3 tile 2 3 tiles 1
  bound 18688
  $ plan 'output y = i8(a + b);'
  y i8[2,3]
  need 7
  pass 1 map 2 3 tile 2 3 tiles 1
  bound 18688
  $ plan 'output y = u8(u32(a) + u32(b) >> 1);'
  y u8[2,3]
  need 32
  pass 1 map 2 3 tile 2 3 tiles 1
  bound 24832
  $ plan 'input c u32[2,3]; output y = u8(c);'
  y u8[2,3]
  need 20
  pass 1 map 2 3 tile 2 3 tiles 1
  bound 15616
  $ plan 'input c u32[2,3]; output y = u8(shift(c, 0, 1, 0)) + a;'
  y u8[2,3]
  need 28
  pass 1 map 2 3 tile 2 3 tiles 1
  bound 18688
  $ plan 'output y = rowsum(u32(a));'
  y u32[2,1]
  need 24
  pass 1 sum 2 3 tile 2 3 tiles 1
  bound 15616

A `let` with a tree above height 64 is a pass; with one of 64 it isn't. Its tree counts as it stands there, with the `let`s in
it.

  $ signs() { printf '%s' '~~~~~~~~~~~~~~~~~~~~~~~~~~~~~~~~~~~~~~~~~~~~~~~~~~~~~~~~~~~~' | cut -c "1-$1"; }
  $ plan "let t = $(signs 40)a; let u = $(signs 23)t; output y = u + 1;" | grep pass
  pass 1 map 2 3 tile 2 3 tiles 1
  $ plan "let t = $(signs 40)a; let u = $(signs 24)t; output y = u + 1;" | grep pass
  pass 1 map 2 3 tile 2 3 tiles 1
  pass 2 map 2 3 tile 2 3 tiles 1
  $ plan "let t = $(signs 40)a; let u = $(signs 24)t; let v = $(signs 40)u; output y = v + 1;" | grep -c pass
  2
  $ plan "let t = $(signs 40)a; output y = $(signs 50)t;" | grep -c pass
  1

The tiles that fit: a part of a row, whole rows, all of them; the last may be narrower or lower.

  $ plan 'output y = a + b;' 6
  error: scratchpad need 7 have 6
  [5]
  $ plan 'output y = a + b;' 7
  y u8[2,3]
  need 7
  pass 1 map 2 3 tile 1 1 tiles 6
  bound 17152
  $ plan 'output y = a + b;' 14
  y u8[2,3]
  need 7
  pass 1 map 2 3 tile 1 2 tiles 4
  bound 17152
  $ plan 'output y = a + b;' 20
  y u8[2,3]
  need 7
  pass 1 map 2 3 tile 1 2 tiles 4
  bound 17152
  $ plan 'output y = a + b;' 21
  y u8[2,3]
  need 7
  pass 1 map 2 3 tile 1 3 tiles 2
  bound 17152
  $ plan 'output y = a + b;' 41
  y u8[2,3]
  need 7
  pass 1 map 2 3 tile 1 3 tiles 2
  bound 17152
  $ plan 'output y = a + b;' 42
  y u8[2,3]
  need 7
  pass 1 map 2 3 tile 2 3 tiles 1
  bound 17152
  $ plan 'output y = rowsum(u16(a)); output z = a - b;' 13
  y u16[2,1]
  z u8[2,3]
  need 12
  pass 1 sum 2 3 tile 1 1 tiles 6
  pass 2 map 2 3 tile 1 1 tiles 6
  bound 32512
  $ plan 'output y = rowsum(u16(a)); output z = a - b;' 14
  y u16[2,1]
  z u8[2,3]
  need 12
  pass 1 sum 2 3 tile 1 1 tiles 6
  pass 2 map 2 3 tile 1 2 tiles 4
  bound 32512
  $ plan 'output y = rowsum(u16(a)); output z = a - b;' 28
  y u16[2,1]
  z u8[2,3]
  need 12
  pass 1 sum 2 3 tile 1 2 tiles 4
  pass 2 map 2 3 tile 1 3 tiles 2
  bound 32512
