The text of an array file: what is one, and the first fault of what is none.

  $ venice() { "$TESTDIR/../../venice" "$@"; }
  $ echo 'input a i8[1,2]; output y = a;' > one.ven
  $ files() { while read -r text; do printf '%s' "$text" > try.arrays; line=$(venice eval one.ven try.arrays | tail -n 1); echo "$text: $line"; done; }

Values have an optional `-`, blanks behind it or not, and are decimal or hexadecimal.

  $ files <<END
  > a i8[1,2] 1 -2
  > a i8[1,2]-128 127
  > a i8[1,2] - 128 0x7F
  > a i8[1,2]-0-0x0
  > a i8[1,2] 0x0000000000001 -0000000000002
  > a i8[0x1,02]1-1
  > END
  a i8[1,2] 1 -2: 1 -2
  a i8[1,2]-128 127: -128 127
  a i8[1,2] - 128 0x7F: -128 127
  a i8[1,2]-0-0x0: 0 0
  a i8[1,2] 0x0000000000001 -0000000000002: 1 -2
  a i8[0x1,02]1-1: 1 -1

A text may stop being an array file at a token: another one than a name, a type, the signs of a shape, a number.

  $ files <<END
  > 1
  > a
  > a i8
  > a i8[
  > a i8[1
  > a i8[1,
  > a i8[1,2
  > a a
  > a i9[1,2] 1 2
  > a i8(1,2) 1 2
  > a i8[-1,2] 1 2
  > a i8[1;2] 1 2
  > a i8[1,x] 1 2
  > a i8[1,2,3] 1 2
  > a i8[1,2] 1, 2
  > a i8[1,2] +1 2
  > a i8[1,2] 1 -
  > a i8[1,2] 1 - - 2
  > a i8[1,2] 1 -b
  > a i8[1,2] 1 2;
  > a i8[1,2] 1 2 3.5
  > a i8[1,2] 1 2 [
  > a i8[1,2] 1 !
  > a i8[1,2] = 1 2
  > END
  1: error: inputs unexpected at 0
  a: error: inputs unexpected at 1
  a i8: error: inputs unexpected at 4
  a i8[: error: inputs unexpected at 5
  a i8[1: error: inputs unexpected at 6
  a i8[1,: error: inputs unexpected at 7
  a i8[1,2: error: inputs unexpected at 8
  a a: error: inputs unexpected at 2
  a i9[1,2] 1 2: error: inputs unexpected at 2
  a i8(1,2) 1 2: error: inputs unexpected at 4
  a i8[-1,2] 1 2: error: inputs unexpected at 5
  a i8[1;2] 1 2: error: inputs unexpected at 6
  a i8[1,x] 1 2: error: inputs unexpected at 7
  a i8[1,2,3] 1 2: error: inputs unexpected at 8
  a i8[1,2] 1, 2: error: inputs unexpected at 11
  a i8[1,2] +1 2: error: inputs unexpected at 10
  a i8[1,2] 1 -: error: inputs unexpected at 13
  a i8[1,2] 1 - - 2: error: inputs unexpected at 14
  a i8[1,2] 1 -b: error: inputs unexpected at 13
  a i8[1,2] 1 2;: error: inputs unexpected at 13
  a i8[1,2] 1 2 3.5: error: inputs unexpected at 15
  a i8[1,2] 1 2 [: error: inputs unexpected at 14
  a i8[1,2] 1 !: error: inputs unexpected at 12
  a i8[1,2] = 1 2: error: inputs unexpected at 10

The words that a program keeps are no names here, but for three of them; a name has at most 31 bytes.

  $ for word in input let output u8 i8 u16 i16 u32 i32 abs rowsum rowmin rowmax sum minval maxval min max select shift rotate \
  >   section stretch; do
  >   echo "$word u8[1,1] 1" | files
  > done | sed 's/.*: //' | sort | uniq -c
       23 inputs unexpected at 0
  $ for word in transpose sadd ssub A _ x9; do echo "$word i8[1,2] 1 2 a i8[1,2] 3 4" | files; done
  transpose i8[1,2] 1 2 a i8[1,2] 3 4: error: inputs extra transpose
  sadd i8[1,2] 1 2 a i8[1,2] 3 4: error: inputs extra sadd
  ssub i8[1,2] 1 2 a i8[1,2] 3 4: error: inputs extra ssub
  A i8[1,2] 1 2 a i8[1,2] 3 4: error: inputs extra A
  _ i8[1,2] 1 2 a i8[1,2] 3 4: error: inputs extra _
  x9 i8[1,2] 1 2 a i8[1,2] 3 4: error: inputs extra x9
  $ files <<END
  > n234567890123456789012345678901 i8[1,2] 1 2
  > n2345678901234567890123456789012 i8[1,2] 1 2
  > a i8[1,2] 1 2 n2345678901234567890123456789012 i8[1,2] 1 2
  > END
  n234567890123456789012345678901 i8[1,2] 1 2: error: inputs missing a
  n2345678901234567890123456789012 i8[1,2] 1 2: error: inputs unexpected at 0
  a i8[1,2] 1 2 n2345678901234567890123456789012 i8[1,2] 1 2: error: inputs unexpected at 14

A shape is looked at once it is whole; its fault stands at its bracket.

  $ files <<END
  > a i8[0,2]
  > a i8[1,0] 1 2
  > a i8[0,0
  > a i8[0,x]
  > a i8[1024,1025] 1 2
  > a i8[4294967296,1]
  > a i8[1,99999999999999999999]
  > a i8[65536,65536]
  > a i8[0,1] ! 300
  > END
  a i8[0,2]: error: inputs unexpected at 4
  a i8[1,0] 1 2: error: inputs unexpected at 4
  a i8[0,0: error: inputs unexpected at 8
  a i8[0,x]: error: inputs unexpected at 7
  a i8[1024,1025] 1 2: error: inputs unexpected at 4
  a i8[4294967296,1]: error: inputs unexpected at 4
  a i8[1,99999999999999999999]: error: inputs unexpected at 4
  a i8[65536,65536]: error: inputs unexpected at 4
  a i8[0,1] ! 300: error: inputs unexpected at 4

A value outside its array's type is refused where it begins, also where too many stand.

  $ files <<END
  > a i8[1,2] 128 1
  > a i8[1,2] 1 -129
  > a i8[1,2] 1 - 129 !
  > a i8[1,2] 1 2 3 128
  > a i8[1,2] 1 4294967296
  > a i8[1,2] 1 -18446744073709551616
  > b u8[1,1] -1
  > b u8[1,1] -0 a i8[1,2] 1 256
  > b u32[1,1] 4294967296
  > b i32[1,1] -2147483649
  > b i32[1,1] 2147483648
  > b u16[1,1] 65536
  > b i16[1,1] -32769
  > END
  a i8[1,2] 128 1: error: inputs out of type at 10
  a i8[1,2] 1 -129: error: inputs out of type at 12
  a i8[1,2] 1 - 129 !: error: inputs out of type at 12
  a i8[1,2] 1 2 3 128: error: inputs out of type at 16
  a i8[1,2] 1 4294967296: error: inputs out of type at 12
  a i8[1,2] 1 -18446744073709551616: error: inputs out of type at 12
  b u8[1,1] -1: error: inputs out of type at 10
  b u8[1,1] -0 a i8[1,2] 1 256: error: inputs out of type at 25
  b u32[1,1] 4294967296: error: inputs out of type at 11
  b i32[1,1] -2147483649: error: inputs out of type at 11
  b i32[1,1] 2147483648: error: inputs out of type at 11
  b u16[1,1] 65536: error: inputs out of type at 11
  b i16[1,1] -32769: error: inputs out of type at 11

A wrong number of values is said at the first token behind them; another fault there comes first.

  $ files <<END
  > a i8[1,2]
  > a i8[1,2] 1
  > a i8[1,2] 1 2 3
  > a i8[1,2] 1 b
  > a i8[1,2] 1 2 3 b u8[0,0]
  > a i8[1,2] 1 a
  > a i8[1,2] 1 2 3 a i8[1,2]
  > a i8[1,2] 1 ;
  > a i8[1,2] 1 sum
  > a i8[1,2] 1 -
  > a i8[1,2] 1 n2345678901234567890123456789012
  > b i8[1,1] 1 a i8[1,2] 1 b
  > END
  a i8[1,2]: error: inputs count a need 2 have 0
  a i8[1,2] 1: error: inputs count a need 2 have 1
  a i8[1,2] 1 2 3: error: inputs count a need 2 have 3
  a i8[1,2] 1 b: error: inputs count a need 2 have 1
  a i8[1,2] 1 2 3 b u8[0,0]: error: inputs count a need 2 have 3
  a i8[1,2] 1 a: error: inputs twice a
  a i8[1,2] 1 2 3 a i8[1,2]: error: inputs twice a
  a i8[1,2] 1 ;: error: inputs unexpected at 12
  a i8[1,2] 1 sum: error: inputs unexpected at 12
  a i8[1,2] 1 -: error: inputs unexpected at 13
  a i8[1,2] 1 n2345678901234567890123456789012: error: inputs unexpected at 12
  b i8[1,1] 1 a i8[1,2] 1 b: error: inputs twice b
  $ printf 'a i8[1,2] 1 # \303\251' > try.arrays
  $ venice eval one.ven try.arrays
  error: inputs unexpected at 14
  [4]
  $ printf 'a i8[1,2] 1 2 # \303\251' > try.arrays
  $ venice eval one.ven try.arrays
  error: inputs unexpected at 16
  [4]
  $ printf 'a i8[1,2] 1 2 \f' > try.arrays
  $ venice eval one.ven try.arrays
  error: inputs unexpected at 14
  [4]
  $ printf 'a i8[1,2] 1 2 # \f\r\000' > try.arrays
  $ venice eval one.ven try.arrays
  y i8[1,2]
  1 2

A name comes twice, whatever its type and shape; the letters' case counts.

  $ files <<END
  > a i8[1,2] 1 2 a u8[1,1] 3
  > a i8[1,2] 1 2 a
  > a i8[1,2] 1 2 b u8[1,1] 3 a
  > a i8[1,2] 1 2 A i8[1,2] 3 4
  > END
  a i8[1,2] 1 2 a u8[1,1] 3: error: inputs twice a
  a i8[1,2] 1 2 a: error: inputs twice a
  a i8[1,2] 1 2 b u8[1,1] 3 a: error: inputs twice a
  a i8[1,2] 1 2 A i8[1,2] 3 4: error: inputs extra A

Then the arrays have to fit: each input is looked for, then its type, then its shape, then the next; last come arrays that are
no input.

  $ echo 'input a u8[1,2]; input b i16[2,1]; output y = a;' > one.ven
  $ files <<END
  > b i16[2,1] 1 -1 a u8[1,2] 5 6
  > b i16[2,1] 1 -1 A u8[1,2] 5 6
  > a i8[2,1] 5 6
  > a u8[2,1] 5 6
  > a u8[1,2] 5 6
  > a i8[1,2] 5 6 b i16[2,1] 1 1
  > a u8[1,2] 5 6 b u16[1,2] 1 1
  > a u8[1,2] 5 6 b i16[1,2] 1 1
  > x u8[1,1] 1 a u8[1,2] 5 6 b i16[1,2] 1 1
  > x u8[1,1] 1 a u8[1,2] 5 6 b i16[2,1] 1 1
  > a u8[1,2] 5 6 b i16[2,1] 1 1 y u8[1,2] 5 6 x u8[1,1] 1
  > END
  b i16[2,1] 1 -1 a u8[1,2] 5 6: 5 6
  b i16[2,1] 1 -1 A u8[1,2] 5 6: error: inputs missing a
  a i8[2,1] 5 6: error: inputs type a
  a u8[2,1] 5 6: error: inputs shape a
  a u8[1,2] 5 6: error: inputs missing b
  a i8[1,2] 5 6 b i16[2,1] 1 1: error: inputs type a
  a u8[1,2] 5 6 b u16[1,2] 1 1: error: inputs type b
  a u8[1,2] 5 6 b i16[1,2] 1 1: error: inputs shape b
  x u8[1,1] 1 a u8[1,2] 5 6 b i16[1,2] 1 1: error: inputs shape b
  x u8[1,1] 1 a u8[1,2] 5 6 b i16[2,1] 1 1: error: inputs extra x
  a u8[1,2] 5 6 b i16[2,1] 1 1 y u8[1,2] 5 6 x u8[1,1] 1: error: inputs extra y

The file's own faults come before all of that.

  $ files <<END
  > x u8[1,1] 256
  > x u8[1,1] 1 2
  > a i8[2,1] 5 6 x
  > END
  x u8[1,1] 256: error: inputs out of type at 10
  x u8[1,1] 1 2: error: inputs count x need 1 have 2
  a i8[2,1] 5 6 x: error: inputs unexpected at 15

Every byte of a file left out, and doubled.

  $ echo 'input a u8[1,2]; output y = a;' > one.ven
  $ text='a u8[1,2] 5 -0'
  $ for k in $(seq ${#text}); do echo "$text" | sed "s/.//$k"; done | files
  u8[1,2] 5 -0: error: inputs unexpected at 0
  au8[1,2] 5 -0: error: inputs unexpected at 3
  a 8[1,2] 5 -0: error: inputs unexpected at 2
  a u[1,2] 5 -0: error: inputs unexpected at 2
  a u81,2] 5 -0: error: inputs unexpected at 2
  a u8[,2] 5 -0: error: inputs unexpected at 5
  a u8[12] 5 -0: error: inputs unexpected at 7
  a u8[1,] 5 -0: error: inputs unexpected at 7
  a u8[1,2 5 -0: error: inputs unexpected at 9
  a u8[1,2]5 -0: 5 0
  a u8[1,2]  -0: error: inputs count a need 2 have 1
  a u8[1,2] 5-0: 5 0
  a u8[1,2] 5 0: 5 0
  a u8[1,2] 5 -: error: inputs unexpected at 13
  $ for k in $(seq ${#text}); do echo "$text" | sed "s/./&&/$k"; done | files
  aa u8[1,2] 5 -0: error: inputs missing a
  a  u8[1,2] 5 -0: 5 0
  a uu8[1,2] 5 -0: error: inputs unexpected at 2
  a u88[1,2] 5 -0: error: inputs unexpected at 2
  a u8[[1,2] 5 -0: error: inputs unexpected at 5
  a u8[11,2] 5 -0: error: inputs count a need 22 have 2
  a u8[1,,2] 5 -0: error: inputs unexpected at 7
  a u8[1,22] 5 -0: error: inputs count a need 22 have 2
  a u8[1,2]] 5 -0: error: inputs unexpected at 9
  a u8[1,2]  5 -0: 5 0
  a u8[1,2] 55 -0: 55 0
  a u8[1,2] 5  -0: 5 0
  a u8[1,2] 5 --0: error: inputs unexpected at 13
  a u8[1,2] 5 -00: 5 0

A file of many small arrays.

  $ { echo 'input a u8[1,2]; output y = a;'; } > one.ven
  $ seq 50000 | sed 's/.*/n& u8[1,1] 7/' > many.arrays
  $ venice eval one.ven many.arrays
  error: inputs missing a
  [4]
  $ echo 'a u8[1,2] 1 2' >> many.arrays
  $ venice eval one.ven many.arrays
  error: inputs extra n1
  [4]
  $ echo 'n25000 u8[1,1] 8' >> many.arrays
  $ venice eval one.ven many.arrays
  error: inputs twice n25000
  [4]
