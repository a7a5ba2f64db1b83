The words have to be those of the command, with numbers in plain decimals: else the status is 2.

  $ venice() { "$TESTDIR/../../venice" "$@"; }
  $ echo 'input a u8[1,4]; input b u8[1,4]; output y = a + b;' > add.ven
  $ echo 'a u8[1,4] 1 2 3 250 b u8[1,4] 4 5 6 10' > add.arrays

No words, unknown commands, and options, of which there are none.

  $ venice
  error: usage
  [2]
  $ venice add add.ven add.arrays add.image 4 28
  error: usage
  [2]
  $ venice RUN add.ven add.arrays add.image 4 28
  error: usage
  [2]
  $ venice '' add.ven add.arrays add.image 4 28
  error: usage
  [2]
  $ venice --help
  error: usage
  [2]
  $ venice --version
  error: usage
  [2]

Too few words, and too many.

  $ venice run
  error: usage
  [2]
  $ venice run add.ven add.arrays add.image 4
  error: usage
  [2]
  $ venice run add.ven add.arrays add.image 4 28 add.grants more
  error: usage
  [2]
  $ venice build add.ven add.image 28 more
  error: usage
  [2]

LANES is 1 to 4, without a sign, a leading zero or a blank.

  $ for lanes in 0 5 04 +4 -4 4.0 0x4 ' 4' '' four 4294967300; do
  >   line=$(venice run add.ven add.arrays add.image "$lanes" 28)
  >   echo "$? $line: '$lanes'"
  > done
  2 error: usage: '0'
  2 error: usage: '5'
  2 error: usage: '04'
  2 error: usage: '+4'
  2 error: usage: '-4'
  2 error: usage: '4.0'
  2 error: usage: '0x4'
  2 error: usage: ' 4'
  2 error: usage: ''
  2 error: usage: 'four'
  2 error: usage: '4294967300'

SPAD is 1 to 1,048,576, in the same form.

  $ for spad in 0 028 1048577 +28 -28 28B 0x1C '' 99999999999999999999; do
  >   line=$(venice run add.ven add.arrays add.image 4 "$spad")
  >   echo "$? $line: '$spad'"
  > done
  2 error: usage: '0'
  2 error: usage: '028'
  2 error: usage: '1048577'
  2 error: usage: '+28'
  2 error: usage: '-28'
  2 error: usage: '28B'
  2 error: usage: '0x1C'
  2 error: usage: ''
  2 error: usage: '99999999999999999999'

BUDGET is 1 to 1,099,511,627,776, in the same form.

  $ for budget in 0 01 1099511627777 +1 -1 1.0 0x1 '' 99999999999999999999; do
  >   line=$(venice exec no.image no.arrays 1 1 "$budget")
  >   echo "$? $line: '$budget'"
  > done
  2 error: usage: '0'
  2 error: usage: '01'
  2 error: usage: '1099511627777'
  2 error: usage: '+1'
  2 error: usage: '-1'
  2 error: usage: '1.0'
  2 error: usage: '0x1'
  2 error: usage: ''
  2 error: usage: '99999999999999999999'
  $ venice exec no.image no.arrays 1 1 1099511627776
  error: file
  [8]

The other commands take just their words, too.

  $ for words in 'eval' 'eval a' 'check a' 'check a 0' 'check a 1048577' 'explain' 'run a b' 'run a b c 5 1 d' 'run a b c 1 0 d' 'build' 'build a b' 'build a 7' 'build a b 0' 'build a b 1048577' 'build a b 7 7' 'asm' 'asm a' 'asm a b c' 'disasm' 'disasm a b' 'exec a b 1 1' 'exec a b 1 1 1 c d' 'exec a b 5 1 1' 'exec a b 1 0 1 c' 'exec a b 1 1048577 1 c' 'exec a b 1 1 1099511627777 c'; do
  >   line=$(venice $words)
  >   echo "$? $line: $words"
  > done
  2 error: usage: eval
  2 error: usage: eval a
  2 error: usage: check a
  2 error: usage: check a 0
  2 error: usage: check a 1048577
  2 error: usage: explain
  2 error: usage: run a b
  2 error: usage: run a b c 5 1 d
  2 error: usage: run a b c 1 0 d
  2 error: usage: build
  2 error: usage: build a b
  2 error: usage: build a 7
  2 error: usage: build a b 0
  2 error: usage: build a b 1048577
  2 error: usage: build a b 7 7
  2 error: usage: asm
  2 error: usage: asm a
  2 error: usage: asm a b c
  2 error: usage: disasm
  2 error: usage: disasm a b
  2 error: usage: exec a b 1 1
  2 error: usage: exec a b 1 1 1 c d
  2 error: usage: exec a b 5 1 1
  2 error: usage: exec a b 1 0 1 c
  2 error: usage: exec a b 1 1048577 1 c
  2 error: usage: exec a b 1 1 1099511627777 c

The words come before everything else: no file is looked at.

  $ venice run no.ven no.arrays no.image 0 28
  error: usage
  [2]
  $ venice run no.ven no.arrays no.image 4 28 no.grants
  error: file
  [8]

Words that the system can't give as text: nothing is printed, and the status is 15.

  $ venice run add.ven add.arrays "$(printf '\377')" 4 28
  [15]
