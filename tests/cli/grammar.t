The text of a program: which signs bind tighter, literals with a sign, calls with their arguments, and where a text stops being
a program.

  $ venice() { "$TESTDIR/../../venice" "$@"; }
  $ echo 'a i16[1,1] 6 b i16[1,1] -3' > pair.arrays
  $ values() {
  >   while read -r expression; do
  >     echo "input a i16[1,1]; input b i16[1,1]; output y = $expression;" > try.ven
  >     echo "$expression: $(venice eval try.ven pair.arrays | tail -n 1)"
  >   done
  > }
  $ lines() { while read -r text; do printf '%s' "$text" > try.ven; line=$(venice check try.ven 100); echo "$text: $? $line"; done; }

Signs of one level group to the left.

  $ values <<END
  > a - 2 - b
  > 10 - a * 2 + 1
  > a >> 1 << 1
  > a - 2 + b
  > END
  a - 2 - b: 7
  10 - a * 2 + 1: -1
  a >> 1 << 1: 6
  a - 2 + b: 1

Each level binds tighter than the next: products, sums, shifts, `&`, `^`, `|`, comparisons.

  $ values <<END
  > 2 + a * b
  > a << b + 4
  > a & b << 1
  > a ^ b & 5
  > a | b ^ 7
  > a == b | 6
  > 2 | a == 6
  > 4 < a & 5
  > a * (b + 2)
  > END
  2 + a * b: -16
  a << b + 4: 12
  a & b << 1: 2
  a ^ b & 5: 3
  a | b ^ 7: -2
  a == b | 6: 0
  2 | a == 6: 1
  4 < a & 5: 0
  a * (b + 2): -6

Prefix signs bind tighter than all of them.

  $ values <<END
  > -a * b
  > ~a * b
  > -a - b
  > ~a << 1
  > - -a
  > -~a
  > ~(a * b)
  > END
  -a * b: 18
  ~a * b: 21
  -a - b: -3
  ~a << 1: -14
  - -a: 6
  -~a: 7
  ~(a * b): 17

A `-` whose next token is a number makes a literal with it, where an operand stands; blanks may stand between.

  $ values <<END
  > a - 1
  > a - -1
  > a--1
  > a-- 1
  > a--b
  > - 1 + a
  > -1 - a
  > a + -0x10
  > a * - 2
  > END
  a - 1: 5
  a - -1: 7
  a--1: 7
  a-- 1: 7
  a--b: 3
  - 1 + a: 5
  -1 - a: -7
  a + -0x10: -10
  a * - 2: -12

So `--1` is a sign before a literal, which has no type of its own, and neither has `1 - 1`.

  $ values <<END
  > --1
  > ~-1
  > -(1)
  > 1 - 1
  > END
  --1: error: program literal alone at 48
  ~-1: error: program literal alone at 48
  -(1): error: program literal alone at 49
  1 - 1: error: program literal alone at 47

Comparisons don't chain, but one may be the operand of another in brackets.

  $ values <<END
  > (a == 6) == 1
  > 1 == (a != b)
  > (a < b) + (b < a) * 2
  > a == 1 == 1
  > a < 1 >= b
  > END
  (a == 6) == 1: 1
  1 == (a != b): 1
  (a < b) + (b < a) * 2: 2
  a == 1 == 1: error: program unexpected at 54
  a < 1 >= b: error: program unexpected at 53

Calls with an argument too few, and with one too many.

  $ lines <<END
  > output y = abs();
  > output y = abs(a, b);
  > output y = u8();
  > output y = u8(a, b);
  > output y = min(a);
  > output y = min(a, b, c);
  > output y = sadd(a);
  > output y = ssub(a, b, c);
  > output y = select(a, b);
  > output y = select(a, b, c, d);
  > output y = shift(a, 1, 2);
  > output y = shift(a, 1, 2, 3, 4);
  > output y = rotate(a, 1);
  > output y = rotate(a, 1, 2, 3);
  > output y = section(a, 1, 2, 3, 4, 5);
  > output y = section(a, 1, 2, 3, 4, 5, 6, 7);
  > output y = stretch(a, 1);
  > output y = stretch(a, 1, 2, 3);
  > output y = transpose();
  > output y = transpose(a, 1);
  > output y = rowsum();
  > output y = maxval(a, b);
  > END
  output y = abs();: 3 error: program unexpected at 15
  output y = abs(a, b);: 3 error: program unexpected at 16
  output y = u8();: 3 error: program unexpected at 14
  output y = u8(a, b);: 3 error: program unexpected at 15
  output y = min(a);: 3 error: program unexpected at 16
  output y = min(a, b, c);: 3 error: program unexpected at 19
  output y = sadd(a);: 3 error: program unexpected at 17
  output y = ssub(a, b, c);: 3 error: program unexpected at 20
  output y = select(a, b);: 3 error: program unexpected at 22
  output y = select(a, b, c, d);: 3 error: program unexpected at 25
  output y = shift(a, 1, 2);: 3 error: program unexpected at 24
  output y = shift(a, 1, 2, 3, 4);: 3 error: program unexpected at 27
  output y = rotate(a, 1);: 3 error: program unexpected at 22
  output y = rotate(a, 1, 2, 3);: 3 error: program unexpected at 25
  output y = section(a, 1, 2, 3, 4, 5);: 3 error: program unexpected at 35
  output y = section(a, 1, 2, 3, 4, 5, 6, 7);: 3 error: program unexpected at 38
  output y = stretch(a, 1);: 3 error: program unexpected at 23
  output y = stretch(a, 1, 2, 3);: 3 error: program unexpected at 26
  output y = transpose();: 3 error: program unexpected at 21
  output y = transpose(a, 1);: 3 error: program unexpected at 22
  output y = rowsum();: 3 error: program unexpected at 18
  output y = maxval(a, b);: 3 error: program unexpected at 19

Arguments that are numbers are no expressions. Those of `shift` and `rotate` may have one sign, the others none.

  $ lines <<END
  > output y = shift(a, (1), 2, 3);
  > output y = shift(a, --1, 2, 3);
  > output y = shift(a, ~1, 2, 3);
  > output y = shift(a, b, 2, 3);
  > output y = section(a, -1, 2, 3, 4, 5, 6);
  > output y = stretch(a, 1, -2);
  > output y = stretch(a, 1 + 1, 2);
  > input a u8[-1,1];
  > input a u8[1,n];
  > END
  output y = shift(a, (1), 2, 3);: 3 error: program unexpected at 20
  output y = shift(a, --1, 2, 3);: 3 error: program unexpected at 21
  output y = shift(a, ~1, 2, 3);: 3 error: program unexpected at 20
  output y = shift(a, b, 2, 3);: 3 error: program unexpected at 20
  output y = section(a, -1, 2, 3, 4, 5, 6);: 3 error: program unexpected at 22
  output y = stretch(a, 1, -2);: 3 error: program unexpected at 25
  output y = stretch(a, 1 + 1, 2);: 3 error: program unexpected at 24
  input a u8[-1,1];: 3 error: program unexpected at 11
  input a u8[1,n];: 3 error: program unexpected at 13
  $ echo 'input a u8[1,3]; output y = shift(a, 0, - 1, - 0x0);' > try.ven
  $ echo 'a u8[1,3] 1 2 3' > three.arrays
  $ venice eval try.ven three.arrays
  y u8[1,3]
  0 1 2

Statements, and words that the language keeps.

  $ lines <<END
  > output sadd = a;
  > output ssub = a;
  > output transpose = a;
  > let let = a;
  > input u8 u8[1,1];
  > input a u64[1,1];
  > input a a[1,1];
  > input a u8(1,1);
  > output y = sum;
  > output y = u8;
  > output y = input;
  > output y a;
  > output y == a;
  > output y = ;
  > let y = a
  > let y = (a;
  > let y = a);
  > let y = a b;
  > let y = a 1;
  > let y = 1 a;
  > let y = a, b;
  > y = a;
  > ;
  > END
  output sadd = a;: 3 error: program unexpected at 7
  output ssub = a;: 3 error: program unexpected at 7
  output transpose = a;: 3 error: program unexpected at 7
  let let = a;: 3 error: program unexpected at 4
  input u8 u8[1,1];: 3 error: program unexpected at 6
  input a u64[1,1];: 3 error: program unexpected at 8
  input a a[1,1];: 3 error: program unexpected at 8
  input a u8(1,1);: 3 error: program unexpected at 10
  output y = sum;: 3 error: program unexpected at 14
  output y = u8;: 3 error: program unexpected at 13
  output y = input;: 3 error: program unexpected at 11
  output y a;: 3 error: program unexpected at 9
  output y == a;: 3 error: program unexpected at 9
  output y = ;: 3 error: program unexpected at 11
  let y = a: 3 error: program unexpected at 9
  let y = (a;: 3 error: program unexpected at 10
  let y = a);: 3 error: program unexpected at 9
  let y = a b;: 3 error: program unexpected at 10
  let y = a 1;: 3 error: program unexpected at 10
  let y = 1 a;: 3 error: program unexpected at 10
  let y = a, b;: 3 error: program unexpected at 9
  y = a;: 3 error: program unexpected at 0
  ;: 3 error: program unexpected at 0

A text may end anywhere; a byte that begins no token stops it.

  $ lines <<END
  > output
  > output y
  > output y =
  > output y = a <
  > output y = a !
  > output y = a != b
  > output y = sum(
  > output y = -
  > output y = 0x
  > output y = a . b;
  > output y = a / b;
  > output y = "a";
  > output y = a : b;
  > output y = a [1];
  > END
  output: 3 error: program unexpected at 6
  output y: 3 error: program unexpected at 8
  output y =: 3 error: program unexpected at 10
  output y = a <: 3 error: program unexpected at 14
  output y = a !: 3 error: program unexpected at 13
  output y = a != b: 3 error: program unexpected at 17
  output y = sum(: 3 error: program unexpected at 15
  output y = -: 3 error: program unexpected at 12
  output y = 0x: 3 error: program unexpected at 12
  output y = a . b;: 3 error: program unexpected at 13
  output y = a / b;: 3 error: program unexpected at 13
  output y = "a";: 3 error: program unexpected at 11
  output y = a : b;: 3 error: program unexpected at 13
  output y = a [1];: 3 error: program unexpected at 13

A program of which one byte is left out, byte by byte.

  $ text='input a u8[1,1];output y=a<<1;'
  $ for k in $(seq ${#text}); do echo "$text" | sed "s/.//$k"; done | lines
  nput a u8[1,1];output y=a<<1;: 3 error: program unexpected at 0
  iput a u8[1,1];output y=a<<1;: 3 error: program unexpected at 0
  inut a u8[1,1];output y=a<<1;: 3 error: program unexpected at 0
  inpt a u8[1,1];output y=a<<1;: 3 error: program unexpected at 0
  inpu a u8[1,1];output y=a<<1;: 3 error: program unexpected at 0
  inputa u8[1,1];output y=a<<1;: 3 error: program unexpected at 0
  input  u8[1,1];output y=a<<1;: 3 error: program unexpected at 7
  input au8[1,1];output y=a<<1;: 3 error: program unexpected at 9
  input a 8[1,1];output y=a<<1;: 3 error: program unexpected at 8
  input a u[1,1];output y=a<<1;: 3 error: program unexpected at 8
  input a u81,1];output y=a<<1;: 3 error: program unexpected at 8
  input a u8[,1];output y=a<<1;: 3 error: program unexpected at 11
  input a u8[11];output y=a<<1;: 3 error: program unexpected at 13
  input a u8[1,];output y=a<<1;: 3 error: program unexpected at 13
  input a u8[1,1;output y=a<<1;: 3 error: program unexpected at 14
  input a u8[1,1]output y=a<<1;: 3 error: program unexpected at 15
  input a u8[1,1];utput y=a<<1;: 3 error: program unexpected at 16
  input a u8[1,1];otput y=a<<1;: 3 error: program unexpected at 16
  input a u8[1,1];ouput y=a<<1;: 3 error: program unexpected at 16
  input a u8[1,1];outut y=a<<1;: 3 error: program unexpected at 16
  input a u8[1,1];outpt y=a<<1;: 3 error: program unexpected at 16
  input a u8[1,1];outpu y=a<<1;: 3 error: program unexpected at 16
  input a u8[1,1];outputy=a<<1;: 3 error: program unexpected at 16
  input a u8[1,1];output =a<<1;: 3 error: program unexpected at 23
  input a u8[1,1];output ya<<1;: 3 error: program unexpected at 25
  input a u8[1,1];output y=<<1;: 3 error: program unexpected at 25
  input a u8[1,1];output y=a<1;: 0 y u8[1,1]
  need 5
  pass 1 map 1 1 tile 1 1 tiles 1
  bound 3072
  input a u8[1,1];output y=a<1;: 0 y u8[1,1]
  need 5
  pass 1 map 1 1 tile 1 1 tiles 1
  bound 3072
  input a u8[1,1];output y=a<<;: 3 error: program unexpected at 28
  input a u8[1,1];output y=a<<1: 3 error: program unexpected at 29
