`eval` prints what a program means on its inputs: its outputs, in the order of its statements.

  $ venice() { "$TESTDIR/../../venice" "$@"; }
  $ cat > pair.ven <<END
  > input a i16[2,2];
  > let b = a * 2;
  > output twice_and_one = b + 1;
  > output total = sum(b);
  > END
  $ cat > pair.arrays <<END
  > a i16[2,2]
  >  1 -2
  >  3  4
  > END
  $ venice eval pair.ven pair.arrays
  twice_and_one i16[2,2]
  3 -3
  7 9
  total i16[1,1]
  12

The inputs may stand in any order in their file. A program without inputs isn't refused for that, but one without an output is.

  $ echo 'input a u8[1,2]; input b u8[1,2]; output y = a - b;' > less.ven
  $ echo 'b u8[1,2] 1 1 a u8[1,2] 5 0' > less.arrays
  $ venice eval less.ven less.arrays
  y u8[1,2]
  4 255
  $ echo 'input a u8[1,2];' > none.ven
  $ venice eval none.ven less.arrays
  error: program no output
  [3]

An operand may reach 64 deep: 63 times `+ a` is accepted, and once more isn't, at the last `;`.

  $ long() { echo 'input a u8[1,1];'; printf 'output y = a'; for k in $(seq $1); do printf ' + a'; done; echo ';'; }
  $ long 63 > long.ven
  $ echo 'a u8[1,1] 5' > one.arrays
  $ venice eval long.ven one.arrays
  y u8[1,1]
  64
  $ long 64 > long.ven
  $ venice eval long.ven one.arrays
  error: program too deep at 285
  [3]

A program has at most 256 statements, and at most 4,096 nodes: 1,365 selects with their names are one expression of so many.

  $ sums() { printf 'input a u8[1,1];'; for k in $(seq $1); do printf "output y$k = a+a+a+a+a+a+a+a;"; done; echo 'output z = a;'; }
  $ sums 254 > sums.ven
  $ venice eval sums.ven one.arrays | tail -n 2
  z u8[1,1]
  5
  $ sums 255 > sums.ven
  $ venice eval sums.ven one.arrays
  error: program too many statements at 7558
  [3]
  $ tree() {
  >   [ $1 = 0 ] && printf a && return
  >   local more=$(($1 - 1))
  >   printf 'select('; tree $((more / 3)); printf ','; tree $(((more + 1) / 3)); printf ','; tree $(((more + 2) / 3)); printf ')'
  > }
  $ { printf 'input a u8[1,1]; output y = '; tree 1365; echo ';'; } > selects.ven
  $ venice eval selects.ven one.arrays
  y u8[1,1]
  5
  $ echo 'output z = a;' >> selects.ven
  $ venice eval selects.ven one.arrays
  error: program too many nodes at 16422
  [3]

A program has at most 65,536 bytes, and is refused before its bytes are looked at. An array file may be longer.

  $ cp pair.ven padded.ven
  $ head -c $((65536 - $(wc -c < pair.ven))) /dev/zero | tr '\0' ' ' >> padded.ven
  $ cp pair.arrays padded.arrays
  $ head -c 1000000 /dev/zero | tr '\0' ' ' >> padded.arrays
  $ venice eval padded.ven padded.arrays | tail -n 1
  12
  $ printf '\303' >> padded.ven
  $ venice eval padded.ven padded.arrays
  error: program too long
  [3]
  $ head -c 67108864 /dev/zero | tr '\0' ' ' > long.arrays
  $ venice eval pair.ven long.arrays
  error: inputs missing a
  [4]
  $ printf '\303' >> long.arrays
  $ venice eval pair.ven long.arrays
  error: inputs too long
  [4]
  $ rm long.arrays padded.arrays padded.ven

The words are `eval`, PROGRAM and INPUTS alone.

  $ venice eval pair.ven
  error: usage
  [2]
  $ venice eval pair.ven pair.arrays 4
  error: usage
  [2]

No file is written, and nothing goes to standard error.

  $ venice eval pair.ven pair.arrays 2>&1 >/dev/null
  $ venice eval none.ven pair.arrays 2>&1 >/dev/null
  [3]
  $ ls
  less.arrays
  less.ven
  long.ven
  none.ven
  one.arrays
  pair.arrays
  pair.ven
  selects.ven
  sums.ven
