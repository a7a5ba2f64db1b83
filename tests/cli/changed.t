The sum of two arrays by `eval`, and what is said where a line of the program or of its inputs is another.

  $ venice() { "$TESTDIR/../../venice" "$@"; }
  $ cat > sum.ven <<END
  > input a u8[1,4];
  > input b u8[1,4];
  > output y = a + b;
  > END
  $ cat > sum.arrays <<END
  > a u8[1,4]
  > 1 2 3 250
  > b u8[1,4]
  > 4 5 6 10
  > END
  $ venice eval sum.ven sum.arrays
  y u8[1,4]
  5 7 9 4
  $ program() { sed "$1" sum.ven > try.ven; venice eval try.ven sum.arrays; }
  $ inputs() { sed "$1" sum.arrays > try.arrays; venice eval sum.ven try.arrays; }

Another line of the program.

  $ program '3d'
  error: program no output
  [3]
  $ program '2,3d'
  error: program no output
  [3]
  $ program '2s/1,4/4,1/'
  error: program shape mismatch at 47
  [3]
  $ program '2s/u8/u16/'
  error: program type mismatch at 48
  [3]
  $ program '2s/u8/i8/'
  error: program type mismatch at 47
  [3]
  $ program '2s/b/a/'
  error: program twice at 23
  [3]
  $ program '2d'
  error: program unknown at 32
  [3]
  $ program '1d'
  error: program unknown at 28
  [3]
  $ program '3s/;//'
  error: program unexpected at 51
  [3]
  $ program '3s/a + b/5/'
  error: program literal alone at 45
  [3]
  $ program '3s/b/256/'
  error: program literal range at 49
  [3]
  $ program '3s/b/255/'
  y u8[1,4]
  0 1 2 249
  $ program '3s/a + b/a == 1 == 1/'
  error: program unexpected at 52
  [3]
  $ program '3s/y/sadd/'
  error: program unexpected at 41
  [3]
  $ program '3s/output/let/'
  error: program no output
  [3]
  $ program 's/1,4/512,512/'
  error: inputs shape a
  [4]
  $ program 's/1,4/1024,1025/'
  error: program bad shape at 10
  [3]

Another line of the inputs.

  $ inputs '2s/ 250//'
  error: inputs count a need 4 have 3
  [4]
  $ inputs '2s/250/256/'
  error: inputs out of type at 16
  [4]
  $ inputs '2s/250/-1/'
  error: inputs out of type at 16
  [4]
  $ inputs '4s/10/10 11/'
  error: inputs count b need 4 have 5
  [4]
  $ inputs '$s/$/ c u8[1,1] 0/'
  error: inputs extra c
  [4]
  $ inputs '3,4d'
  error: inputs missing b
  [4]
  $ inputs '1,2d'
  error: inputs missing a
  [4]
  $ inputs 'd'
  error: inputs missing a
  [4]
  $ inputs '3s/b/a/'
  error: inputs twice a
  [4]
  $ inputs '3s/1,4/2,2/'
  error: inputs shape b
  [4]
  $ inputs '3s/u8/i16/'
  error: inputs type b
  [4]
  $ inputs '3s/4]/3]/'
  error: inputs count b need 3 have 4
  [4]
  $ inputs '3s/4]/5]/'
  error: inputs count b need 5 have 4
  [4]
  $ inputs '1s/a/A/'
  error: inputs missing a
  [4]
  $ inputs '4s/$/;/'
  error: inputs unexpected at 38
  [4]

The same over greater arrays is accepted: their work, five times the elements of one, is far below the limit.

  $ sed 's/1,4/512,512/' sum.ven > try.ven
  $ venice check try.ven 3584
  y u8[512,512]
  need 7
  pass 1 map 512 512 tile 1 512 tiles 512
  bound 738197760
  $ sed 's/1,4/1024,1024/' sum.ven > try.ven
  $ venice check try.ven 65536
  y u8[1024,1024]
  need 7
  pass 1 map 1024 1024 tile 9 1024 tiles 114
  bound 2952790272
