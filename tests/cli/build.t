`build` compiles a program and saves its image, and prints nothing. `exec` runs the image, `disasm` shows it.

  $ venice() { "$TESTDIR/../../venice" "$@"; }
  $ echo 'input a u8[1,4]; input b u8[1,4]; output y = a + b;' > add.ven
  $ echo 'a u8[1,4] 1 2 3 250 b u8[1,4] 4 5 6 10' > add.arrays
  $ venice build add.ven add.image 7
  $ od -An -tx1 -N4 add.image
   56 4e 43 32
  $ venice exec add.image add.arrays 3 7 11520
  y u8[1,4]
  5 7 9 4
  steps 712
  cycles 696

Whoever may step in which cycle, as many steps.

  $ repeat() { for k in $(seq $1); do echo $2; done; }
  $ repeat 40 01 > host.grants
  $ repeat 40 04 > read.grants
  $ for grants in host read; do venice exec add.image add.arrays 3 7 11520 $grants.grants; done
  y u8[1,4]
  5 7 9 4
  steps 712
  cycles 696
  y u8[1,4]
  5 7 9 4
  steps 712
  cycles 736

It saves what `run` saves, however many lanes.

  $ for lanes in 1 2 3 4; do
  >   venice run add.ven add.arrays run.image $lanes 7 > said
  >   cmp run.image add.image
  >   venice exec add.image add.arrays $lanes 7 11520 | cmp - said
  > done

An image says for which scratchpad it was made. Its code has loops over the tiles, so it is as small where there are many: here four of one
element, then one, and further below 114.

  $ venice disasm add.image | sed -n 2p
  spad 7
  $ venice build add.ven large.image 65536
  $ venice disasm large.image | sed -n 2p
  spad 65536
  $ wc -c < add.image
  1972
  $ wc -c < large.image
  1812

Refusals: the program's, and a scratchpad of less than the need. No image is saved then.

  $ venice build add.ven no.image 6
  error: scratchpad need 7 have 6
  [5]
  $ echo 'input a u8[1,4]; input b u8[4,1]; output y = a + b;' > bad.ven
  $ venice build bad.ven no.image 7
  error: program shape mismatch at 47
  [3]
  $ venice build add.arrays no.image 7
  error: program unexpected at 0
  [3]
  $ ls no.image 2> /dev/null
  [2]

A name that can't be saved under.

  $ mkdir folder
  $ venice build add.ven folder 7
  error: save
  [14]
  $ venice build add.ven no/such/folder 7
  error: save
  [14]

Streams are files.

  $ venice build /dev/stdin /dev/stdout 7 < add.ven | cmp - add.image

The sum of two arrays of 1,048,576 elements each, and a picture in the least scratchpad, with tiles of one element.

  $ echo 'input a u8[1024,1024]; input b u8[1024,1024]; output y = a + b;' > great.ven
  $ venice build great.ven great.image 65536
  $ wc -c < great.image
  1828
  $ venice disasm great.image | sed -n 3,6p
  memory 3145728
  array a in u8[1024,1024] 0
  array b in u8[1024,1024] 1048576
  array y out u8[1024,1024] 2097152
  $ cat > picture.ven <<END
  > input a u8[240,320];
  > let w = u16(a);
  > let y = u8((shift(w,-1,-1,0) + shift(w,-1,0,0)*2 + shift(w,-1,1,0) + shift(w,0,-1,0)*2 + w*4 + shift(w,0,1,0)*2 + shift(w,1,-1,0) + shift(w,1,0,0)*2 + shift(w,1,1,0)) >> 4);
  > output total = sum(u32(y));
  > output low = minval(y);
  > output high = maxval(y);
  > END
  $ venice build picture.ven picture.image 43
  error: scratchpad need 44 have 43
  [5]
  $ venice build picture.ven picture.image 44
  $ venice build picture.ven picture.image 16384
  $ wc -c < picture.image
  25949

