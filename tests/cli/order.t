Of several refusals of `run` the first in this order is the answer: the words; the load of PROGRAM; its text and rules; the scratchpad;
the load of INPUTS; their text; whether they fit; the load of GRANTS; their text; the save. `build` goes the same way without inputs
and grants.

  $ venice() { "$TESTDIR/../../venice" "$@"; }
  $ echo 'input a u8[1,4]; input b u8[1,4]; output y = a + b;' > add.ven
  $ echo 'input a u8[1,4]; input b u8[1,4]; output y = a - c;' > bad.ven
  $ echo 'input a u8[1,4]; input b u8[1,4]; output y = a / c;' > worse.ven
  $ echo 'a u8[1,4] 1 2 3 250 b u8[1,4] 4 5 6 10' > add.arrays
  $ echo 'a u8[1,4] 1 2 3 250 b u8[1,4] 4 5 6' > bad.arrays
  $ echo 'a u8[1,4] 1 2 3 250 b u8[1,5] 4 5 6 10 11' > unfit.arrays
  $ echo 01 04 0f > add.grants
  $ echo 01 04 0g > bad.grants
  $ mkdir folder

The words before PROGRAM's load.

  $ venice run no.ven no.arrays folder 4 0 no.grants
  error: usage
  [2]
  $ venice build no.ven folder 0
  error: usage
  [2]

PROGRAM's load before all that follows.

  $ venice run no.ven no.arrays folder 4 6 no.grants
  error: file
  [8]
  $ venice build no.ven folder 6
  error: file
  [8]

The program's text, then its rules, before the scratchpad and INPUTS.

  $ venice run worse.ven no.arrays folder 4 6 no.grants
  error: program unexpected at 47
  [3]
  $ venice build worse.ven folder 6
  error: program unexpected at 47
  [3]
  $ venice run bad.ven no.arrays folder 4 6 no.grants
  error: program unknown at 49
  [3]
  $ venice build bad.ven folder 6
  error: program unknown at 49
  [3]

The scratchpad before INPUTS, with one byte less than the need, and with many.

  $ venice run add.ven no.arrays folder 4 6 no.grants
  error: scratchpad need 7 have 6
  [5]
  $ venice run add.ven bad.arrays folder 4 1
  error: scratchpad need 7 have 1
  [5]
  $ venice build add.ven folder 6
  error: scratchpad need 7 have 6
  [5]

INPUTS: their load, their text, whether they fit.

  $ venice run add.ven no.arrays folder 4 7 no.grants
  error: file
  [8]
  $ venice run add.ven bad.arrays folder 4 7 no.grants
  error: inputs count b need 4 have 3
  [4]
  $ venice run add.ven unfit.arrays folder 4 7 no.grants
  error: inputs shape b
  [4]
  $ venice run add.ven unfit.arrays folder 4 7 bad.grants
  error: inputs shape b
  [4]

GRANTS behind inputs that fit: their load and their text.

  $ venice run add.ven add.arrays folder 4 7 no.grants
  error: file
  [8]
  $ venice run add.ven add.arrays folder 4 7 bad.grants
  error: grants bad at 7
  [4]
  $ head -c 2097154 /dev/zero | tr '\0' 0 > many.grants
  $ venice run add.ven add.arrays folder 4 7 many.grants
  error: grants too long
  [4]

No image was saved so far. The save comes last, and what doesn't go into a file isn't printed either.

  $ venice run add.ven add.arrays add.image 4 7 bad.grants
  error: grants bad at 7
  [4]
  $ ls *.image
  ls: cannot access '*.image': No such file or directory
  [2]
  $ venice run add.ven add.arrays folder 4 7 add.grants
  error: save
  [14]
  $ venice build add.ven folder 7
  error: save
  [14]
  $ venice run add.ven add.arrays add.image 4 7 add.grants | head -n 2
  y u8[1,4]
  5 7 9 4
  $ ls *.image
  add.image
