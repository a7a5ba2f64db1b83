`run` and `build` take each program that `eval` and `check` take, and refuse any other by the same line, with status 3.

  $ venice() { "$TESTDIR/../../venice" "$@"; }
  $ echo 'a u8[1,2] 1 2 b u8[1,2] 3 4' > add.arrays
  $ try() {
  >   echo "$1" > try.ven
  >   venice run try.ven add.arrays add.image 4 28 > said; local status=$?
  >   sed '/^steps /,$d' said
  >   venice eval try.ven add.arrays > meaning; [ $? = $status ] || echo "eval ends with another status"
  >   sed '/^steps /,$d' said | cmp - meaning
  >   venice build try.ven build.image 28 > built; [ $? = $status ] || echo "build ends with another status"
  >   if [ $status = 0 ]; then cmp add.image build.image; else cmp built said; fi
  >   return $status
  > }
  $ try 'input a u8[1,2]; input b u8[1,2]; output y = a + b;'
  y u8[1,2]
  4 6
  $ try 'input a u8[1,2]; input b u8[1,2]; output y = (a - b);'
  y u8[1,2]
  254 254
  $ try 'input b u8[1,2]; input a u8[1,2]; output y = b << a; output z = a == b;'
  y u8[1,2]
  6 16
  z u8[1,2]
  0 0
  $ try 'input a u8[1,2]; let c = transpose(a); input b u8[1,2]; output y = rowsum(c); output z = i16(b) - 5;'
  y u8[2,1]
  1
  2
  z i16[1,2]
  -2 -1

A text that is no program, and rules that a program breaks.

  $ try 'input a u8[1,2]; input b u8[1,2]; output y = a + b;;'
  error: program unexpected at 51
  [3]
  $ try 'input a u8[1,2]; input b u8[1,2]; output a = a + b;'
  error: program twice at 41
  [3]
  $ try ''
  error: program no output
  [3]
  $ try 'input a u8[1,2];'
  error: program no output
  [3]
  $ try 'input a u8[1,2]; input b u16[1,2]; output y = a + b;'
  error: program type mismatch at 48
  [3]
  $ try 'input a u8[1024,1024]; output v = a + a; output w = a + a; output x = a + a; output y = a + a; output z = a + a + 1;'
  error: program too much work 17825792
  [3]

A reserved word is no name, and a name has at most 31 bytes.

  $ for word in input let output u8 i8 u16 i16 u32 i32 abs rowsum rowmin rowmax sum minval maxval min max select shift \
  >   rotate section stretch transpose sadd ssub; do
  >   echo "input a u8[1,2]; input b u8[1,2]; output $word = a + b;" > reserved.ven
  >   line=$(venice run reserved.ven add.arrays add.image 4 28)
  >   echo "$? $line"
  > done | sort | uniq -c
       26 3 error: program unexpected at 41
  $ name=abcdefghijklmnopqrstuvwxyz_0123
  $ echo ${#name}
  31
  $ try "input a u8[1,2]; input b u8[1,2]; output $name = a + b;"
  abcdefghijklmnopqrstuvwxyz_0123 u8[1,2]
  4 6
  $ try "input a u8[1,2]; input b u8[1,2]; output ${name}4 = a + b;"
  error: program name too long at 41
  [3]

A program has at most 65,536 bytes, its comments among them.

  $ printf 'input a u8[1,2]; input b u8[1,2]; output y = a + b;#' > long.ven
  $ head -c $((65536 - $(wc -c < long.ven))) /dev/zero | tr '\0' x >> long.ven
  $ wc -c < long.ven
  65536
  $ venice run long.ven add.arrays add.image 4 28 | head -n 2
  y u8[1,2]
  4 6
  $ echo >> long.ven
  $ wc -c < long.ven
  65537
  $ venice run long.ven add.arrays add.image 4 28
  error: program too long
  [3]
  $ venice build long.ven add.image 28
  error: program too long
  [3]
