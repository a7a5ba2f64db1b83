`explain` prints for each pass of a program an order in which its tree is worked out: the nodes by their numbers, how many
results are held at each of them, the most of these, and the least that any order holds at its fullest. The numbers count from 1,
a node before its operands, operands from left to right.

  $ venice() { "$TESTDIR/../../venice" "$@"; }
  $ cat > product.ven <<END
  > input a u8[1,1];
  > input b u8[1,1];
  > input c u8[1,1];
  > input d u8[1,1];
  > output y = (a + b) * (c + d);
  > END
  $ venice explain product.ven
  pass 1 map
  order 2 3 1
  held 1 2 1
  most 2
  least 2

A cast that changes the size of a computed operand holds both at once.

  $ echo 'input a u8[1,1]; input b u8[1,1]; output y = u16(a + b);' > cast.ven
  $ venice explain cast.ven
  pass 1 map
  order 2 1
  held 1 2
  most 2
  least 2

A condition is compared, and the third place of a select moved.

  $ echo 'input a u8[1,1]; output y = select(a < 10, a, 0);' > select.ven
  $ venice explain select.ven
  pass 1 map
  order 3 4 2 1
  held 1 2 1 1
  most 2
  least 2

A whole reduction takes two passes.

  $ echo 'input a u8[4,4]; output y = sum(a);' > sum.ven
  $ venice explain sum.ven
  pass 1 sum
  order 1
  held 1
  most 1
  least 1
  pass 2 sum
  order 1
  held 1
  most 1
  least 1

The words are `explain` and PROGRAM alone.

  $ venice explain
  error: usage
  [2]
  $ venice explain sum.ven 7
  error: usage
  [2]
