Pictures on the machine: what it leaves is what the program means, in large scratchpads and in the least, within the printed bound.

  $ venice() { "$TESTDIR/../../venice" "$@"; }

A picture that is blurred, and of whose pixels the sum, the least and the greatest are taken: of two pixels, where (4 · 60 + 2 · 94) / 16
is 26, rounded down, and (2 · 60 + 4 · 94) / 16 is 31; and then of more.

  $ picture() {
  >   cat <<END
  > input a u8[$1,$2];
  > let w = u16(a);
  > let y = u8((shift(w,-1,-1,0) + shift(w,-1,0,0)*2 + shift(w,-1,1,0) + shift(w,0,-1,0)*2 + w*4 + shift(w,0,1,0)*2 + shift(w,1,-1,0) + shift(w,1,0,0)*2 + shift(w,1,1,0)) >> 4);
  > output total = sum(u32(y));
  > output low = minval(y);
  > output high = maxval(y);
  > END
  > }
  $ pixels() {
  >   echo "a u8[$1,$2]"
  >   awk -v n=$(($1 * $2)) 'BEGIN { x = 1; while (n--) { x = (1664525 * x + 1013904223) % 4294967296; print int(x / 16777216) } }'
  > }
  $ picture 1 2 > picture.ven
  $ pixels 1 2 > picture.arrays
  $ cat picture.arrays
  a u8[1,2]
  60
  94
  $ venice run picture.ven picture.arrays picture.image 4 65536
  total u32[1,1]
  57
  low u8[1,1]
  26
  high u8[1,1]
  31
  steps 2033
  cycles 1983
  $ compared() { # ROWS COLS LANES SPAD
  >   picture $1 $2 > picture.ven; pixels $1 $2 > picture.arrays
  >   venice run picture.ven picture.arrays picture.image $3 $4 > said
  >   cat said
  >   sed '/^steps /,$d' said > outputs
  >   venice eval picture.ven picture.arrays | cmp - outputs
  >   bound=$(venice check picture.ven $4 | sed -n 's/^bound //p')
  >   [ "$(sed -n 's/^steps //p' said)" -le "$bound" ] || echo "more steps than $bound"
  > }
  $ compared 20 21 4 16384
  total u32[1,1]
  51947
  low u8[1,1]
  25
  high u8[1,1]
  198
  steps 6478
  cycles 5152
  $ compared 60 80 2 44
  total u32[1,1]
  597142
  low u8[1,1]
  27
  high u8[1,1]
  222
  steps 5772520
  cycles 5625714
  $ compared 240 320 4 16384
  total u32[1,1]
  9708301
  low u8[1,1]
  30
  high u8[1,1]
  228
  steps 639455
  cycles 461997
