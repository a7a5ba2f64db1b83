`check` prints what a program would need of the machine: the outputs' shapes, the bytes of scratchpad, its passes with the tiles
that a scratchpad of SPAD bytes holds, and the greatest number of steps.

  $ venice() { "$TESTDIR/../../venice" "$@"; }
  $ echo 'input a u8[1,4]; input b u8[1,4]; output y = a + b;' > add.ven
  $ venice check add.ven 7
  y u8[1,4]
  need 7
  pass 1 map 1 4 tile 1 1 tiles 4
  bound 11520
  $ venice check add.ven 6
  error: scratchpad need 7 have 6
  [5]
  $ venice check add.ven 1048576
  y u8[1,4]
  need 7
  pass 1 map 1 4 tile 1 4 tiles 1
  bound 11520

A row that the scratchpad doesn't hold is cut; whole rows are put together while they fit.

  $ echo 'input a u16[2,9]; output y = rowsum(a);' > rows.ven
  $ venice check rows.ven 48
  y u16[2,1]
  need 12
  pass 1 sum 2 9 tile 1 4 tiles 6
  bound 46336
  $ echo 'input a u8[1024,1024]; input b u8[1024,1024]; output y = a + b;' > great.ven
  $ venice check great.ven 65536
  y u8[1024,1024]
  need 7
  pass 1 map 1024 1024 tile 9 1024 tiles 114
  bound 2952790272

A picture that is blurred, and of whose pixels the sum, the least and the greatest are taken.

  $ cat > picture.ven <<END
  > input a u8[240,320];
  > let w = u16(a);
  > let y = u8((shift(w,-1,-1,0) + shift(w,-1,0,0)*2 + shift(w,-1,1,0) + shift(w,0,-1,0)*2 + w*4 + shift(w,0,1,0)*2 + shift(w,1,-1,0) + shift(w,1,0,0)*2 + shift(w,1,1,0)) >> 4);
  > output total = sum(u32(y));
  > output low = minval(y);
  > output high = maxval(y);
  > END
  $ venice check picture.ven 16384
  total u32[1,1]
  low u8[1,1]
  high u8[1,1]
  need 44
  pass 1 map 240 320 tile 5 320 tiles 48
  pass 2 map 240 320 tile 1 320 tiles 240
  pass 3 sum 240 320 tile 2 320 tiles 120
  pass 4 sum 1 240 tile 1 240 tiles 1
  pass 5 min 240 320 tile 8 320 tiles 30
  pass 6 min 1 240 tile 1 240 tiles 1
  pass 7 max 240 320 tile 8 320 tiles 30
  pass 8 max 1 240 tile 1 240 tiles 1
  bound 1535385856
  $ sed -i 's/240,320/1,2/' picture.ven
  $ venice check picture.ven 65536
  total u32[1,1]
  low u8[1,1]
  high u8[1,1]
  need 44
  pass 1 map 1 2 tile 1 2 tiles 1
  pass 2 map 1 2 tile 1 2 tiles 1
  pass 3 sum 1 2 tile 1 2 tiles 1
  pass 4 sum 1 1 tile 1 1 tiles 1
  pass 5 min 1 2 tile 1 2 tiles 1
  pass 6 min 1 1 tile 1 1 tiles 1
  pass 7 max 1 2 tile 1 2 tiles 1
  pass 8 max 1 1 tile 1 1 tiles 1
  bound 47872

The program that docs/COMPILER.md works through by hand.

  $ cat > worked.ven <<END
  > input a u8[2,8];
  > let t = a + 1;
  > output m = rowmax(t * a);
  > output s = shift(t, 0, 1, 0) ^ a;
  > END
  $ venice check worked.ven 40
  m u8[2,1]
  s u8[2,8]
  need 8
  pass 1 map 2 8 tile 1 8 tiles 2
  pass 2 max 2 8 tile 1 5 tiles 4
  pass 3 map 2 8 tile 1 5 tiles 4
  bound 135424

The greatest tree of a pass: 1,365 selects of names, each with a condition that has to be compared and a move.

  $ tree() {
  >   [ $1 = 0 ] && printf a && return
  >   local more=$(($1 - 1))
  >   printf 'select('; tree $((more / 3)); printf ','; tree $(((more + 1) / 3)); printf ','; tree $(((more + 2) / 3)); printf ')'
  > }
  $ { printf 'input a u8[1,1]; output y = '; tree 1365; echo ';'; } > selects.ven
  $ venice check selects.ven 8192
  y u8[1,1]
  need 18
  pass 1 map 1 1 tile 1 1 tiles 1
  bound 1936640

SPAD is 1 to 1,048,576, a plain decimal; there are no further words.

  $ for spad in 0 07 +7 -7 7.0 1048577 '' seven; do
  >   line=$(venice check add.ven "$spad")
  >   echo "$? $line: '$spad'"
  > done
  2 error: usage: '0'
  2 error: usage: '07'
  2 error: usage: '+7'
  2 error: usage: '-7'
  2 error: usage: '7.0'
  2 error: usage: '1048577'
  2 error: usage: ''
  2 error: usage: 'seven'
  $ venice check add.ven
  error: usage
  [2]
  $ venice check add.ven 7 7
  error: usage
  [2]
