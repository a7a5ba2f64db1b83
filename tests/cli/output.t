A standard output that takes nothing: status 9, whatever the status would have been.

  $ venice() { "$TESTDIR/../../venice" "$@"; }
  $ echo 'input a u8[1,4]; input b u8[1,4]; output y = a + b;' > add.ven
  $ echo 'a u8[1,4] 1 2 3 250 b u8[1,4] 4 5 6 10' > add.arrays

It is full. What was to be saved is saved: the text is put behind the save.

  $ venice build add.ven build.image 28
  $ venice run add.ven add.arrays add.image 4 28 > /dev/full
  [9]
  $ cmp add.image build.image
  $ venice run add.ven add.arrays no.image 4 6 > /dev/full
  [9]
  $ venice run no.ven add.arrays no.image 4 28 > /dev/full
  [9]
  $ mkdir folder
  $ venice run add.ven add.arrays folder 4 28 > /dev/full
  [9]
  $ venice > /dev/full
  [9]

It is closed.

  $ rm add.image
  $ venice run add.ven add.arrays add.image 4 28 >&-
  [9]
  $ cmp add.image build.image
  $ venice run add.ven add.arrays no.image 4 6 >&-
  [9]
  $ venice >&-
  [9]
  $ ls
  add.arrays
  add.image
  add.ven
  build.image
  folder

So it is for the other commands, of whichever length their text is.

  $ venice eval add.ven add.arrays > /dev/full
  [9]
  $ venice eval add.ven no.arrays > /dev/full
  [9]
  $ venice check add.ven 7 > /dev/full
  [9]
  $ venice check add.ven 6 > /dev/full
  [9]
  $ venice explain add.ven > /dev/full
  [9]
  $ venice explain no.ven >&-
  [9]
  $ echo 'input a u8[1,1]; output y = stretch(a, 1024, 1024);' > great.ven
  $ echo 'a u8[1,1] 7' > great.arrays
  $ venice eval great.ven great.arrays > /dev/full
  [9]
  $ { venice eval great.ven great.arrays; echo $? > status; } | head -n 1
  y u8[1024,1024]
  $ cat status
  9

  $ printf 'spad 16\nmemory 0\nhalt\n' > halt.asm
  $ venice asm halt.asm halt.image > /dev/full
  $ venice asm add.ven no.image > /dev/full
  [9]
  $ venice asm halt.asm no/such/folder > /dev/full
  [9]
  $ venice disasm halt.image > /dev/full
  [9]
  $ venice disasm no.image >&-
  [9]
  $ venice exec halt.image /dev/null 1 16 1 > /dev/full
  [9]
  $ venice exec halt.image /dev/null 1 15 1 >&-
  [9]

What prints nothing needs no output, unless it is refused.

  $ rm build.image
  $ venice build add.ven build.image 28 > /dev/full
  $ cmp build.image add.image
  $ venice build add.ven build.image 28 >&-
  $ venice build add.ven build.image 6 > /dev/full
  [9]

An output that is closed while it is written to: the lines before are there, and the image is saved.

  $ echo 'input a u8[1,1]; output y = stretch(a, 1, 100000);' > wide.ven
  $ echo 'a u8[1,1] 7' > wide.arrays
  $ { venice run wide.ven wide.arrays wide.image 4 65536; echo $? > status; } | head -n 1
  y u8[1,100000]
  $ cat status
  9
  $ od -An -tx1 -N4 wide.image
   56 4e 43 32

Nothing is read from standard input, and nothing goes to standard error.

  $ venice run add.ven add.arrays add.image 4 28 <&- | head -n 2
  y u8[1,4]
  5 7 9 4
  $ venice run add.ven add.arrays add.image 4 28 2>&1 >/dev/null
  $ venice run add.ven add.arrays add.image 4 6 2>&1 >/dev/null
  [5]
  $ venice build add.ven no/such/folder 28 2>&1 >/dev/null
  [14]
