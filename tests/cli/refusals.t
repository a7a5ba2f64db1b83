A program that is none, and inputs that don't fit, are refused by one line with what is wrong and where; places count bytes
from 0. `eval`, `check` and `explain` say the same of a program.

  $ venice() { "$TESTDIR/../../venice" "$@"; }
  $ echo 'a u8[1,4] 1 2 3 250 b u8[1,4] 4 5 6 10' > add.arrays
  $ try() { printf '%s' "$1" > try.ven; venice eval try.ven add.arrays; venice check try.ven 1 > other; echo "$? $(cat other)"; venice explain try.ven | cmp - other; }

A text that is no program, or passes a limit.

  $ try "$(printf 'let a = 1; # \303\251')"
  error: program not ascii at 13
  3 error: program not ascii at 13
  $ try 'let n23456789012345678901234567890xy = 1;'
  error: program name too long at 4
  3 error: program name too long at 4
  $ try 'let a = 4294967296;'
  error: program number too large at 8
  3 error: program number too large at 8
  $ try 'let a = a == 1 == 1;'
  error: program unexpected at 15
  3 error: program unexpected at 15
  $ try 'output y = 1'
  error: program unexpected at 12
  3 error: program unexpected at 12
  $ try "let a = $(printf '(%.0s' $(seq 65))"
  error: program too deep at 72
  3 error: program too deep at 72
  $ try "$(for k in $(seq 257); do printf 'let a = 1;'; done)"
  error: program too many statements at 2560
  3 error: program too many statements at 2560
  $ try "$(for k in $(seq 241); do printf 'let a = 1+1+1+1+1+1+1+1+1;'; done)"
  error: program too many nodes at 6264
  3 error: program too many nodes at 6264

A program that breaks a rule.

  $ try 'input a u8[1,1]; input a u8[1,1];'
  error: program twice at 23
  3 error: program twice at 23
  $ try 'input a u8[0,4];'
  error: program bad shape at 10
  3 error: program bad shape at 10
  $ try 'output y = z;'
  error: program unknown at 11
  3 error: program unknown at 11
  $ try 'output y = 1 + 2;'
  error: program literal alone at 11
  3 error: program literal alone at 11
  $ try 'input a u8[1,1]; input b i8[1,1]; output y = a + b;'
  error: program type mismatch at 47
  3 error: program type mismatch at 47
  $ try 'input a u8[1,1]; input b u8[1,2]; output y = a + b;'
  error: program shape mismatch at 47
  3 error: program shape mismatch at 47
  $ try 'input a u8[1,1]; output y = a + 256;'
  error: program literal range at 32
  3 error: program literal range at 32
  $ try 'input a u8[2,4]; output y = section(a,0,2,1,1,3,2);'
  error: program bad section at 28
  3 error: program bad section at 28
  $ try 'input a u8[1,1]; output y = stretch(a,0,1);'
  error: program bad stretch at 28
  3 error: program bad stretch at 28
  $ try 'input a u8[1,1];'
  error: program no output
  3 error: program no output
  $ try 'input a u8[1024,1024]; input b u8[1024,1024]; output p = a+b; output q = a+b; output r = a+b; output s = a+b; output t = a+b;'
  error: program too much work 17825792
  3 error: program too much work 17825792

Inputs that are no array file.

  $ echo 'input a u8[1,4]; input b u8[1,4]; output y = a - b;' > less.ven
  $ try() { printf '%s' "$1" > try.arrays; venice eval less.ven try.arrays; }
  $ try 'a u8[1,4] 1 2 3 250 b u8[1,4] 4 5 6 10'
  y u8[1,4]
  253 253 253 240
  $ try 'a u8[1,4] 1 2 ;'
  error: inputs unexpected at 14
  [4]
  $ try 'a u8[0,4]'
  error: inputs unexpected at 4
  [4]
  $ try "$(printf 'a u8[1,4] 1 2 3 4 # \303\251')"
  error: inputs unexpected at 20
  [4]
  $ try 'a u8[1,4] 1 2 3 4 a u8[1,4] 1 2 3 4'
  error: inputs twice a
  [4]
  $ try 'a u8[1,4] 1 2 3 256'
  error: inputs out of type at 16
  [4]
  $ try 'a u8[1,4] 1 2 - 3 256'
  error: inputs out of type at 14
  [4]
  $ try 'a u8[1,4] 1 2 3 b u8[1,4] 4 5 6 10'
  error: inputs count a need 4 have 3
  [4]
  $ try 'a u8[1,4] 1 2 3 4 5'
  error: inputs count a need 4 have 5
  [4]

Arrays that aren't the program's inputs: each input in the program's order is looked for, then for its type, then for its
shape; an array that is no input comes last.

  $ try ''
  error: inputs missing a
  [4]
  $ try 'c u8[1,1] 0 a i8[1,4] 1 2 3 4'
  error: inputs type a
  [4]
  $ try 'c u8[1,1] 0 a i8[4,1] 1 2 3 4'
  error: inputs type a
  [4]
  $ try 'c u8[1,1] 0 a u8[4,1] 1 2 3 4'
  error: inputs shape a
  [4]
  $ try 'c u8[1,1] 0 a u8[1,4] 1 2 3 4'
  error: inputs missing b
  [4]
  $ try 'c u8[1,1] 0 a u8[1,4] 1 2 3 4 b u8[1,4] 1 2 3 4'
  error: inputs extra c
  [4]

The program is judged before INPUTS is loaded, and a file that can't be read is refused at its place.

  $ echo 'output y = z;' > bad.ven
  $ venice eval bad.ven no.arrays
  error: program unknown at 11
  [3]
  $ venice eval no.ven no.arrays
  error: file
  [8]
  $ venice eval less.ven no.arrays
  error: file
  [8]
  $ venice check no.ven 1
  error: file
  [8]
  $ venice explain no.ven
  error: file
  [8]
