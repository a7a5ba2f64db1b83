Each operation, cast and reduction on numbers with a sign and without one, at the ends of their types.

  $ venice() { "$TESTDIR/../../venice" "$@"; }
  $ echo 'a i8[1,7] -128 -7 -1 0 1 5 127   b i8[1,7] -128 2 7 -8 9 -5 127' > signed.arrays
  $ echo 'a u8[1,7] 0 1 7 8 128 200 255   b u8[1,7] 255 1 9 3 128 100 255' > unsigned.arrays
  $ operations() {
  >   while read -r expression; do
  >     echo "input a $1[1,7]; input b $1[1,7]; output y = $expression;" > try.ven
  >     echo "$expression: $(venice eval try.ven $2 | tail -n 1)"
  >   done
  > }

Numbers of `i8`.

  $ operations i8 signed.arrays <<END
  > a
  > b
  > -a
  > ~a
  > abs(a)
  > a + b
  > a - b
  > a * b
  > a & b
  > a | b
  > a ^ b
  > a << b
  > a >> b
  > a << 1
  > a >> 1
  > a >> 8
  > a >> -1
  > min(a, b)
  > max(a, b)
  > sadd(a, b)
  > ssub(a, b)
  > a == b
  > a != b
  > a < b
  > a <= b
  > a > b
  > a >= b
  > select(a, b, 0)
  > select(a < b, a, b)
  > select(a, 1, -1)
  > END
  a: -128 -7 -1 0 1 5 127
  b: -128 2 7 -8 9 -5 127
  -a: -128 7 1 0 -1 -5 -127
  ~a: 127 6 0 -1 -2 -6 -128
  abs(a): -128 7 1 0 1 5 127
  a + b: 0 -5 6 -8 10 0 -2
  a - b: 0 -9 -8 8 -8 10 0
  a * b: 0 -14 -7 0 9 -25 1
  a & b: -128 0 7 0 1 1 127
  a | b: -128 -5 -1 -8 9 -1 127
  a ^ b: 0 -5 -8 -8 8 -2 0
  a << b: -128 -28 -128 0 2 40 -128
  a >> b: -128 -2 -1 0 0 0 0
  a << 1: 0 -14 -2 0 2 10 -2
  a >> 1: -64 -4 -1 0 0 2 63
  a >> 8: -128 -7 -1 0 1 5 127
  a >> -1: -1 -1 -1 0 0 0 0
  min(a, b): -128 -7 -1 -8 1 -5 127
  max(a, b): -128 2 7 0 9 5 127
  sadd(a, b): -128 -5 6 -8 10 0 127
  ssub(a, b): 0 -9 -8 8 -8 10 0
  a == b: 1 0 0 0 0 0 1
  a != b: 0 1 1 1 1 1 0
  a < b: 0 1 1 0 1 0 0
  a <= b: 1 1 1 0 1 0 1
  a > b: 0 0 0 1 0 1 0
  a >= b: 1 0 0 1 0 1 1
  select(a, b, 0): -128 2 7 0 9 -5 127
  select(a < b, a, b): -128 -7 -1 -8 1 -5 127
  select(a, 1, -1): 1 1 1 -1 1 1 1

Numbers of `u8`.

  $ operations u8 unsigned.arrays <<END
  > a
  > b
  > -a
  > ~a
  > abs(a)
  > a + b
  > a - b
  > a * b
  > a & b
  > a | b
  > a ^ b
  > a << b
  > a >> b
  > a >> 1
  > a >> 255
  > min(a, b)
  > max(a, b)
  > sadd(a, b)
  > ssub(a, b)
  > a == b
  > a != b
  > a < b
  > a <= b
  > a > b
  > a >= b
  > select(a, b, 0)
  > 255 - a
  > END
  a: 0 1 7 8 128 200 255
  b: 255 1 9 3 128 100 255
  -a: 0 255 249 248 128 56 1
  ~a: 255 254 248 247 127 55 0
  abs(a): 0 1 7 8 128 200 255
  a + b: 255 2 16 11 0 44 254
  a - b: 1 0 254 5 0 100 0
  a * b: 0 1 63 24 0 32 1
  a & b: 0 1 1 0 128 64 255
  a | b: 255 1 15 11 128 236 255
  a ^ b: 255 0 14 11 0 172 0
  a << b: 0 2 14 64 128 128 128
  a >> b: 0 0 3 1 128 12 1
  a >> 1: 0 0 3 4 64 100 127
  a >> 255: 0 0 0 0 1 1 1
  min(a, b): 0 1 7 3 128 100 255
  max(a, b): 255 1 9 8 128 200 255
  sadd(a, b): 255 2 16 11 255 255 255
  ssub(a, b): 0 0 0 5 0 100 0
  a == b: 0 1 0 0 1 0 1
  a != b: 1 0 1 1 0 1 0
  a < b: 1 0 1 0 0 0 0
  a <= b: 1 1 1 0 1 0 1
  a > b: 0 0 0 1 0 1 0
  a >= b: 0 1 0 1 1 1 1
  select(a, b, 0): 0 1 9 3 128 100 255
  255 - a: 255 254 248 247 127 55 0

A cast wraps, from each type to each.

  $ echo 'a i32[1,9] -2147483648 -65536 -32769 -129 -1 128 65535 32768 2147483647' > wide.arrays
  $ for type in u8 i8 u16 i16 u32 i32; do
  >   echo "input a i32[1,9]; output y = $type(a);" > try.ven
  >   venice eval try.ven wide.arrays
  > done
  y u8[1,9]
  0 0 255 127 255 128 255 0 255
  y i8[1,9]
  0 0 -1 127 -1 -128 -1 0 -1
  y u16[1,9]
  0 0 32767 65407 65535 128 65535 32768 65535
  y i16[1,9]
  0 0 32767 -129 -1 128 -1 -32768 -1
  y u32[1,9]
  2147483648 4294901760 4294934527 4294967167 4294967295 128 65535 32768 2147483647
  y i32[1,9]
  -2147483648 -65536 -32769 -129 -1 128 65535 32768 2147483647
  $ for type in u8 i8 u16 i16 u32 i32; do
  >   echo "input a i8[1,7]; input b i8[1,7]; output y = i32($type(a)); output z = u32($type(b));" > try.ven
  >   venice eval try.ven signed.arrays | grep -v '\['
  > done
  128 249 255 0 1 5 127
  128 2 7 248 9 251 127
  -128 -7 -1 0 1 5 127
  4294967168 2 7 4294967288 9 4294967291 127
  65408 65529 65535 0 1 5 127
  65408 2 7 65528 9 65531 127
  -128 -7 -1 0 1 5 127
  4294967168 2 7 4294967288 9 4294967291 127
  -128 -7 -1 0 1 5 127
  4294967168 2 7 4294967288 9 4294967291 127
  -128 -7 -1 0 1 5 127
  4294967168 2 7 4294967288 9 4294967291 127

The greatest types wrap as the others do.

  $ echo 'a u32[1,3] 4294967295 2147483648 65536' > great.arrays
  $ echo 'input a u32[1,3]; output y = a * a; output z = a + 1; output s = sadd(a, 1); output t = a << 31; output u = a >> 63;' > try.ven
  $ venice eval try.ven great.arrays
  y u32[1,3]
  1 0 0
  z u32[1,3]
  0 2147483649 65537
  s u32[1,3]
  4294967295 2147483649 65537
  t u32[1,3]
  2147483648 0 0
  u u32[1,3]
  1 1 0
  $ echo 'a i32[1,3] -2147483648 2147483647 65536' > great.arrays
  $ echo 'input a i32[1,3]; output y = a * a; output z = a - 1; output s = ssub(a, 1); output t = a << 31; output u = a >> 63;' > try.ven
  $ venice eval try.ven great.arrays
  y i32[1,3]
  0 1 0
  z i32[1,3]
  2147483647 2147483646 65535
  s i32[1,3]
  -2147483648 2147483646 65535
  t i32[1,3]
  0 -2147483648 0
  u i32[1,3]
  -1 0 0

Reductions of rows, and of all: sums wrap, and a least or greatest is one of the values.

  $ echo 'a i8[2,3] 100 100 100 -5 -3 -128   b u8[2,3] 7 200 9 255 1 4' > rows.arrays
  $ for reduction in sum rowsum minval rowmin maxval rowmax; do
  >   echo "input a i8[2,3]; input b u8[2,3]; output y = $reduction(a); output z = $reduction(b);" > try.ven
  >   echo "$reduction:" $(venice eval try.ven rows.arrays)
  > done
  sum: y i8[1,1] -92 z u8[1,1] 220
  rowsum: y i8[2,1] 44 120 z u8[2,1] 216 4
  minval: y i8[1,1] -128 z u8[1,1] 1
  rowmin: y i8[2,1] 100 -128 z u8[2,1] 7 1
  maxval: y i8[1,1] 100 z u8[1,1] 255
  rowmax: y i8[2,1] 100 -3 z u8[2,1] 200 255
  $ echo 'input a i8[2,3]; input b u8[2,3]; output p = maxval(section(a, 1, 1, 1, 0, 3, 1)); output q = sum(u16(b)); output r = rowsum(u16(a));' > try.ven
  $ venice eval try.ven rows.arrays
  p i8[1,1]
  -3
  q u16[1,1]
  476
  r u16[2,1]
  300
  65400
