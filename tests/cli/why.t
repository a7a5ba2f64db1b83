`tools/why` says why a call is refused. What could stand at a place is found by trying it and asking the program. It wants
python3, and is skipped without.

  $ command -v python3 > /dev/null || exit 80
  $ why() { "$TESTDIR/../../tools/why" "$@"; }
  $ cp "$TESTDIR"/../../examples/* .

Programs: what can't stand where it does.

  $ try() { printf '%s\n' "$@" > try.ven; why check try.ven 64; }
  $ try 'input a u8[2,2];' 'output y = a / 2;'
  error: program unexpected at 30
  try.ven:2:14: `/` can't stand here
      output y = a / 2;
                   ^
  here could stand: a binary sign (* + << >> & ^ | == != < <= > >=), `-`, `;`
  hint: there is no division; `x >> k` divides by 2 to the k, rounded down
  [3]
  $ try 'input a u8[2,2];' 'let w = u16(a)' 'output y = w;'
  error: program unexpected at 32
  try.ven:3:1: `output` can't stand here
      output y = w;
      ^
  here could stand: a binary sign (* + << >> & ^ | == != < <= > >=), `-`, `;`
  hint: is a `;` missing at the end of line 2?
  [3]
  $ try 'input a u8[2,2];' 'output y = min(a;'
  error: program unexpected at 33
  try.ven:2:17: `;` can't stand here
      output y = min(a;
                      ^
  here could stand: a binary sign (* + << >> & ^ | == != < <= > >=), `-`, `,`
  [3]
  $ try 'input a u8[2,2];' 'output y = ;'
  error: program unexpected at 28
  try.ven:2:12: `;` can't stand here
      output y = ;
                 ^
  here could stand: a name, a number, a type (u8 i8 u16 i16 u32 i32), a function (abs rowsum rowmin rowmax sum minval maxval min max select shift rotate section stretch transpose sadd ssub), `-`, `~`, `(`
  [3]
  $ try 'input sum u8[2,2];'
  error: program unexpected at 6
  try.ven:1:7: `sum` can't stand here
      input sum u8[2,2];
            ^
  here could stand: a name
  hint: `sum` is a word of the language, so no array can have this name
  [3]
  $ try 'input a u8[2,2];' 'output y = a < 1 < 2;'
  error: program unexpected at 34
  try.ven:2:18: `<` can't stand here
      output y = a < 1 < 2;
                       ^
  here could stand: a binary sign (* + << >> & ^ |), `-`, `;`
  hint: comparisons don't chain; put one into brackets
  [3]
  $ try 'input a u8[2,2]; // a picture'
  error: program unexpected at 17
  try.ven:1:18: `/` can't stand here
      input a u8[2,2]; // a picture
                       ^
  here could stand: `input`, `let`, `output`, the text's end
  hint: a comment begins with `#`
  [3]
  $ try 'input a u8[2,2];' 'output y = a'
  error: program unexpected at 30
  try.ven:2:13: the text ends here
      output y = a
                  ^
  here could stand: a binary sign (* + << >> & ^ | == != < <= > >=), `-`, `;`
  hint: is a `;` missing at the end of line 2?
  [3]
  $ try 'input a u8[2,2];' 'let b = a && 1;'
  error: program unexpected at 28
  try.ven:2:12: `&` can't stand here
      let b = a && 1;
                 ^
  here could stand: a name, a number, a type (u8 i8 u16 i16 u32 i32), a function (abs rowsum rowmin rowmax sum minval maxval min max select shift rotate section stretch transpose sadd ssub), `-`, `~`, `(`
  hint: `&` joins comparisons, which are 1 or 0: `(a > 1) & (a < 9)`
  [3]
  $ printf '\357\273\277input a u8[2,2];\n' > try.ven; why check try.ven 64
  error: program not ascii at 0
  try.ven:1:1: byte ef isn't ASCII
       input a u8[2,2];
      ^
  hint: the file begins with a byte order mark; save it as plain ASCII
  [3]

Programs: the rules that they break, with what the program says of the operands.

  $ try 'input a u8[2,2];' 'let w = u16(a);' 'output y = w + a * 2;'
  error: program type mismatch at 46
  try.ven:3:14: these operands have two types
      output y = w + a * 2;
                   ^
      `w` is u16[2,2]
      `a * 2` is u8[2,2]
  a cast, as `u16(a)`, gives an operand another type
  [3]
  $ try 'input a u8[2,2];' 'input b u8[2,3];' 'output y = abs(a) ^ b;'
  error: program shape mismatch at 52
  try.ven:3:19: these operands have two shapes
      output y = abs(a) ^ b;
                        ^
      `abs(a)` is u8[2,2]
      `b` is u8[2,3]
  `stretch` repeats rows or columns, and `section` takes a part
  [3]
  $ try 'input pixels u8[2,2];' 'output y = pixel;'
  error: program unknown at 33
  try.ven:2:12: no statement before this one declares `pixel`
      output y = pixel;
                 ^
  is `pixels` meant?
  [3]
  $ try 'input a u8[2,2];' 'let y = z;' 'let z = a;' 'output x = y;'
  error: program unknown at 25
  try.ven:2:9: no statement before this one declares `z`
      let y = z;
              ^
  line 3 declares it, but a name has to be declared before it is used
  [3]
  $ try 'input a u8[2,2];' 'output y = a + 256;'
  error: program literal range at 32
  try.ven:2:16: 256 isn't a number of the type of what stands beside it
      output y = a + 256;
                     ^
      `a` is u8[2,2]
  [3]
  $ try 'input a u8[2,2];' 'input a u8[2,2];'
  error: program twice at 23
  try.ven:2:7: `a` is declared a second time
      input a u8[2,2];
            ^
  try.ven:1:7: it is declared here first
      input a u8[2,2];
            ^
  [3]
  $ try 'input a u8[2,2];' 'output y = section(a, 1, 2, 1, 0, 1, 1);'
  error: program bad section at 28
  try.ven:2:12: bad section
      output y = section(a, 1, 2, 1, 0, 1, 1);
                 ^
  section(x, r0, nr, sr, c0, nc, sc) takes nr rows from r0 on in steps of sr, and columns so too: no count and no step is 0, and the last row and column have to be in x
      `a` is u8[2,2]
  [3]
  $ try 'input a u8[2,2];' 'output y = -5;'
  error: program literal alone at 28
  try.ven:2:12: this number stands with no array beside it, which would give it a type
      output y = -5;
                 ^
  a number takes the type and shape of the operands beside it, as in `a + 1`
  [3]
  $ try 'input a u8[2,2];'
  error: program no output
  try.ven: no statement is an `output`, so the program means nothing
  [3]
  $ why run blur.ven blur.arrays x 4 19
  error: scratchpad need 20 have 19
  the program's passes need a scratchpad of 20 bytes; SPAD has to be at least that
  [5]

Array files.

  $ try() { printf '%s\n' "$@" > try.arrays; why eval add.ven try.arrays; }
  $ try 'a u8[1,4] 1, 2, 3, 4'
  error: inputs unexpected at 11
  try.arrays:1:12: `,` can't stand here
      a u8[1,4] 1, 2, 3, 4
                 ^
  here could stand: a number
  hint: values are parted by blanks alone
  [4]
  $ try 'a u8[1,4] 1 2 3 256'
  error: inputs out of type at 16
  try.arrays:1:17: this value isn't of `a`'s type: u8 is 0 to 255
      a u8[1,4] 1 2 3 256
                      ^
  [4]
  $ try 'a u8[1,4] 1 2 3' 'b u8[1,4] 1 2 3 4'
  error: inputs count a need 4 have 3
  try.arrays:1:1: `a` has 3 values
      a u8[1,4] 1 2 3
      ^
  its shape [1,4] wants 4: 1 too few
  [4]
  $ try 'a u8[1,4] 1 2 3 4' 'a u8[1,4] 1 2 3 4'
  error: inputs twice a
  try.arrays:2:1: a second array `a`
      a u8[1,4] 1 2 3 4
      ^
  try.arrays:1:1: the first one
      a u8[1,4] 1 2 3 4
      ^
  [4]
  $ try 'a u8[1,4] 1 2 3 4'
  error: inputs missing b
  add.ven:3:7: the program's input
      input b u8[1,4];
            ^
  try.arrays has no array `b`; its arrays: a
  [4]
  $ try 'a u8[1,4] 1 2 3 4' 'b u16[1,4] 1 2 3 4'
  error: inputs type b
  try.arrays:2:1: `b` is u16[1,4]
      b u16[1,4] 1 2 3 4
      ^
  add.ven:3:7: the program's input
      input b u8[1,4];
            ^
  [4]
  $ try 'a u8[1,4] 1 2 3 4' 'b u8[1,4] 1 2 3 4' 'c u8[1,1] 0'
  error: inputs extra c
  try.arrays:3:1: `c` is u8[1,1]
      c u8[1,1] 0
      ^
  it is no input; the inputs: a, b
  [4]
  $ why eval add.ven add.asm
  error: inputs unexpected at 213
  add.asm:3:6: `12` can't stand here
      spad 12
           ^
  here could stand: a type (u8 i8 u16 i16 u32 i32)
  hint: this file is an assembler text
  [4]

Assembler texts. A fault of the image's table is at a byte of the image; here it is told at the word of the text.

  $ try() { printf '%s\n' 'spad 16' 'memory 8' "$@" > try.asm; why asm try.asm try.image; }
  $ try 'li 5' halt
  error: text unexpected at 20
  try.asm:3:4: `5` can't stand here
      li 5
         ^
  here could stand: a register, as `r1`
  hint: a register wants to stand here; `li r1 5` puts a number into one
  [6]
  $ try 'li r1, 5' halt
  error: text unexpected at 22
  try.asm:3:6: `,` can't stand here
      li r1, 5
           ^
  here could stand: a number
  hint: words are parted by blanks, with no commas
  [6]
  $ try 'vec sadd u8 vv' halt
  error: text unexpected at 21
  try.asm:3:5: `sadd` can't stand here
      vec sadd u8 vv
          ^
  here could stand: an operation (mov cast add sub mul and or xor shl shr min max abs eq ne lt le cmov)
  [6]
  $ try 'dma reed' halt
  error: text unexpected at 21
  try.asm:3:5: `reed` can't stand here
      dma reed
          ^
  here could stand: `read`, `write`
  [6]
  $ try 'li r32 5' halt
  error: text range at 20
  try.asm:3:4: `r32` is out of its range
      li r32 5
         ^
  registers are r0 to r31
  [6]
  $ try 'array a in u8[1,4] 0' 'array b out u8[1,4] 3' halt
  error: text table at 48
  try.asm:4:21: the place of array `b`
      array b out u8[1,4] 3
                          ^
  the array has to end in memory, and to share no byte with an earlier one
  `b` takes the bytes 3 to 6; memory has 8
  `a` takes the bytes 0 to 3
  [6]
  $ try 'array sum in u8[1,4] 0' halt
  error: text unexpected at 23
  try.asm:3:7: `sum` can't stand here
      array sum in u8[1,4] 0
            ^
  here could stand: a name
  [6]
  $ try 'loop: jmp lop' halt
  error: text label unknown at 27
  try.asm:3:11: no instruction has the label `lop`
      loop: jmp lop
                ^
  is `loop` meant?
  [6]
  $ try 'end:' 'end: halt'
  error: text label twice at 22
  try.asm:4:1: `end` labels a second place
      end: halt
      ^
  try.asm:3:1: the first one
      end:
      ^
  [6]
  $ try 'li r1 5'
  error: text no halt
  try.asm:3:1: the last instruction isn't `halt`
      li r1 5
      ^
  [6]
  $ why asm add.ven add.image
  error: text unexpected at 52
  add.ven:2:1: `input` can't stand here
      input a u8[1,4];
      ^
  here could stand: `version`, `spad`
  hint: this file is an array program
  [6]

Nothing was saved.

  $ test -e try.image
  [1]

Images, grants, and stops of the machine.

  $ venice() { "$TESTDIR/../../venice" "$@"; }
  $ venice asm race.asm race.image
  $ why exec race.asm race.arrays 4 16 100
  error: image magic
  race.asm: an image begins with `VNC1` or `VNC2`, and this file doesn't
  this file is an assembler text; `asm race.asm race.image` makes an image of it
  [6]
  $ head -c 60 race.image > cut.image
  $ why disasm cut.image
  error: image truncated at 60
  cut.image: instruction 3, the bytes (none) at 60, isn't whole
  [6]
  $ printf 'VNC1\020\0\0\0\0\0\0\0\377\377\377\377\1\0\0\0' > many.image
  $ why disasm many.image
  error: image table at 12
  many.image: the number of arrays breaks its rule
  [6]
  $ echo '00,00' > bad.grants
  $ why exec race.image race.arrays 4 16 100 bad.grants
  error: grants bad at 2
  bad.grants:1:3: two hexadecimal digits make a grant, with blanks and line ends between grants alone
      00,00
        ^
  [4]
  $ why exec race.image race.arrays 4 15 100
  error: scratchpad need 16 have 15
  the image wants a scratchpad of 16 bytes (its line `spad 16`); SPAD has to be at least that
  [5]
  $ why exec race.image race.arrays 4 16 3
  error: machine budget 3
  the machine made 3 steps, and hasn't come to `halt`: BUDGET is too small, or the code has a loop without an end
  [7]
  $ why exec race.image race.arrays 4 16 100 host.grants
  error: machine hazard pc 8 cycle 9
  disasm race.image:12:1: the machine stops before this work, work 2 (instruction 8), in cycle 9
      vec add u8 vs
      ^
      it reads cells 0 to 15
      it writes cells 0 to 15
  disasm race.image:11:1: it meets this one, work 1 (instruction 7), which the read channel may not have done yet
      dma read
      ^
      it reads bytes 0 to 15 of memory
      it writes cells 0 to 15
      they share cells 0 to 15
  missing between the two: `rwait`, with 0 in its register
  tried: with that wait just before the second work, the machine passes it under the same grants
  `tools/race` with the same words and `--text TEXT` says it in the lines of the text
  [7]
  $ printf '%s\n' 'spad 4' 'memory 4' 'li r1 4' 'set mbytes r1' 'dma read' halt > count.asm
  $ venice asm count.asm count.image
  $ why exec count.image /dev/null 1 4 100
  error: machine bad count pc 2
  disasm count.image:5:1: the machine stops before this work, work 1 (instruction 2)
      dma read
      ^
      its count `mrows` is 0
  [7]
  $ printf '%s\n' 'spad 4' 'memory 4' 'li r1 2' 'set mbytes r1' 'set mrows r1' 'again: set mem r1' 'dma read' 'addi r1 r1 1' 'jmp again' halt > range.asm
  $ venice asm range.asm range.image
  $ why exec range.image /dev/null 1 4 100
  error: machine out of range pc 4
  disasm range.image:7:1: the machine stops before this work, work 2 (instruction 4)
      dma read
      ^
      it reads bytes 3 to 4 of memory
      it writes cells 0 to 1
      there are the cells 0 to 3, and 4 bytes of memory
  [7]
  $ why eval blur.ven blur.arrays
  the program refuses nothing here
