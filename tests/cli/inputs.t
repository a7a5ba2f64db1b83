Inputs that aren't an array file, or don't fit the program, are refused by `run` with status 4, as by `eval`.

  $ venice() { "$TESTDIR/../../venice" "$@"; }
  $ echo 'input a u8[1,2]; input b u8[1,2]; output y = a + b;' > add.ven
  $ try() {
  >   echo "$1" > try.arrays
  >   venice run add.ven try.arrays add.image 4 28 > said; local status=$?
  >   sed '/^steps /,$d' said
  >   venice eval add.ven try.arrays > meaning; [ $? = $status ] || echo "eval ends with another status"
  >   sed '/^steps /,$d' said | cmp - meaning
  >   return $status
  > }
  $ try 'a u8[1,2] 1 2 b u8[1,2] 3 4'
  y u8[1,2]
  4 6

A number too few, and one too many.

  $ try 'a u8[1,2] 1 2 b u8[1,2] 3'
  error: inputs count b need 2 have 1
  [4]
  $ try 'a u8[1,2] 1 b u8[1,2] 3 4'
  error: inputs count a need 2 have 1
  [4]
  $ try 'a u8[1,2] 1 2 b u8[1,2] 3 4 5'
  error: inputs count b need 2 have 3
  [4]

Values are 0 to 255.

  $ try 'a u8[1,2] 0 255 b u8[1,2] 0xFF -0'
  y u8[1,2]
  255 255
  $ try 'a u8[1,2] 1 2 b u8[1,2] 3 256'
  error: inputs out of type at 26
  [4]
  $ try 'a u8[1,2] 1 2 b u8[1,2] 3 -4'
  error: inputs out of type at 26
  [4]
  $ try 'a u8[1,2] 1 2 b u8[1,2] 3 4294967296'
  error: inputs out of type at 26
  [4]
  $ try 'a u8[1,2] 1, 2 b u8[1,2] 3, 4'
  error: inputs unexpected at 11
  [4]

The program's inputs in any order, by their names, types and shapes, and nothing else.

  $ try 'b u8[1,2] 3 4 a u8[1,2] 1 2'
  y u8[1,2]
  4 6
  $ try 'a u8[1,2] 1 2 c u8[1,2] 3 4'
  error: inputs missing b
  [4]
  $ try 'a u8[1,2] 1 2 b i8[1,2] 3 4'
  error: inputs type b
  [4]
  $ try 'a u8[1,2] 1 2 b u8[2,1] 3 4'
  error: inputs shape b
  [4]
  $ try 'a u8[1,2] 1 2 b u8[1,2] 3 4 c u8[1,2] 5 6'
  error: inputs extra c
  [4]
  $ try ''
  error: inputs missing a
  [4]

An array file may be longer than a program.

  $ printf 'a u8[1,2] 1 2 b u8[1,2] 3 4#' > long.arrays
  $ head -c 1000000 /dev/zero | tr '\0' x >> long.arrays
  $ venice run add.ven long.arrays add.image 4 28 | head -n 2
  y u8[1,2]
  4 6
