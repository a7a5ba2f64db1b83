Orders of evaluation that `explain` prints: the operand with the greater label first, the left one where they are equal.

  $ venice() { "$TESTDIR/../../venice" "$@"; }
  $ order() { echo "input a u8[1,2]; input b u8[1,2]; output y = $1;" > try.ven; venice explain try.ven; }

A single operation, and a move of an input.

  $ order 'a'
  pass 1 map
  order 1
  held 1
  most 1
  least 1
  $ order 'a + b'
  pass 1 map
  order 1
  held 1
  most 1
  least 1
  $ order '-a'
  pass 1 map
  order 1
  held 1
  most 1
  least 1

Equal labels, and a greater one at the left and at the right.

  $ order '(a + b) * (a - b)'
  pass 1 map
  order 2 3 1
  held 1 2 1
  most 2
  least 2
  $ order '(a + b) * (a - b) + a * b'
  pass 1 map
  order 3 4 2 5 1
  held 1 2 1 2 1
  most 2
  least 2
  $ order 'a * b + (a + b) * (a - b)'
  pass 1 map
  order 4 5 3 2 1
  held 1 2 1 2 1
  most 2
  least 2
  $ order 'a + (b + (a + (b + a)))'
  pass 1 map
  order 4 3 2 1
  held 1 1 1 1
  most 1
  least 1
  $ order '((a + b) * (a - b)) * ((a & b) * (a | b))'
  pass 1 map
  order 3 4 2 6 7 5 1
  held 1 2 1 2 3 2 1
  most 3
  least 3
  $ order '(a + b) * ((a - b) * ((a & b) * (a | b)))'
  pass 1 map
  order 6 7 5 4 3 2 1
  held 1 2 1 2 1 2 1
  most 2
  least 2

Three operands: of a `select` whose condition is compared and whose third place is moved.

  $ order 'select(a, a, b)'
  pass 1 map
  order 3 4 2 1
  held 1 2 1 1
  most 2
  least 2
  $ order 'select(a < b, a + 1, b + 1)'
  pass 1 map
  order 3 4 5 2 1
  held 1 2 3 1 1
  most 3
  least 3
  $ order 'select(a + b, a * b, a - b) + 1'
  pass 1 map
  order 4 3 5 6 2 1
  held 1 1 2 3 1 1
  most 3
  least 3
  $ order 'select(a, select(b, a, b), select(b, b, a))'
  pass 1 map
  order 5 6 4 8 9 7 3 2 1
  held 1 2 1 2 3 2 3 1 1
  most 3
  least 3
  $ order 'select((a + b) * (a - b) == 1, a, (a & b) * (a | b))'
  pass 1 map
  order 5 6 4 3 8 9 7 2 1
  held 1 2 1 1 2 3 2 1 1
  most 3
  least 3

A cast that changes the size holds its operand and its result, another doesn't.

  $ order 'u16(a)'
  pass 1 map
  order 1
  held 1
  most 1
  least 1
  $ order 'u16(a + b)'
  pass 1 map
  order 2 1
  held 1 2
  most 2
  least 2
  $ order 'i8(a + b)'
  pass 1 map
  order 2 1
  held 1 1
  most 1
  least 1
  $ order 'u8(u16(a + b) * 2)'
  pass 1 map
  order 4 3 2 1
  held 1 2 1 2
  most 2
  least 2
  $ order 'u8(u16(u8(u16(a + b))))'
  pass 1 map
  order 5 4 3 2 1
  held 1 2 2 2 2
  most 2
  least 2
  $ order 'u32(u16(u8(a)))'
  pass 1 map
  order 3 2 1
  held 1 2 2
  most 2
  least 2
  $ order 'u8(u16(a + b)) + (a - b)'
  pass 1 map
  order 4 3 2 5 1
  held 1 2 2 2 1
  most 2
  least 2
  $ order '(a - b) + u8(u16(a + b))'
  pass 1 map
  order 5 4 3 2 1
  held 1 2 2 2 1
  most 2
  least 2

Passes have orders of their own, numbered from 1 in each.

  $ order 'rowsum(a * b + 1)'
  pass 1 sum
  order 2 1
  held 1 1
  most 1
  least 1
  $ order 'shift((a + b) * (a - b), 0, 1, 0) - shift(a, 0, 1, 0)'
  pass 1 map
  order 2 3 1
  held 1 2 1
  most 2
  least 2
  pass 2 map
  order 1
  held 1
  most 1
  least 1
  $ order 'stretch(maxval(a + b), 1, 2) + (a - b)'
  pass 1 max
  order 1
  held 1
  most 1
  least 1
  pass 2 max
  order 1
  held 1
  most 1
  least 1
  pass 3 map
  order 2 1
  held 1 1
  most 1
  least 1

A full tree of 64 sums of two holds seven results, one of 62 operations in a row one.

  $ full() { if [ $1 = 0 ]; then printf '(a+b)'; else printf '('; full $(($1 - 1)); printf '*'; full $(($1 - 1)); printf ')'; fi; }
  $ order "$(full 6)" | tail -n 2
  most 7
  least 7
  $ order "$(full 6)" | sed -n 2p | cut -d ' ' -f 1-12
  order 7 8 6 10 11 9 5 14 15 13 17
  $ order "$(full 6)" | sed -n 3p | cut -d ' ' -f 1-12
  held 1 2 1 2 3 2 1 2 3 2 3
  $ row() { printf a; for k in $(seq 62); do printf '+b'; done; }
  $ order "$(row)" | sed -n 2p | cut -d ' ' -f 1-12
  order 62 61 60 59 58 57 56 55 54 53 52
  $ order "$(row)" | tail -n 2
  most 1
  least 1

The refusals are those of `check` but for the scratchpad.

  $ order 'a + c'
  error: program unknown at 49
  [3]
  $ order 'a +'
  error: program unexpected at 48
  [3]
  $ order 'a + 256'
  error: program literal range at 49
  [3]
  $ venice explain no.ven
  error: file
  [8]
