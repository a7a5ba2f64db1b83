`tools/ven` is the program with help. It wants python3, and is skipped without.

  $ command -v python3 > /dev/null || exit 80
  $ ven() { "$TESTDIR/../../tools/ven" "$@"; }
  $ cp "$TESTDIR"/../../examples/add.* .

Its output and statuses are the program's.

  $ ven eval add.ven add.arrays
  y u8[1,4]
  5 7 9 4
  $ ven asm add.asm add.image
  $ ven exec add.image add.arrays 4 12 100
  y u8[1,4]
  5 7 9 4
  steps 24
  cycles 20

The commands, and the words of one.

  $ ven help
  usage: ven COMMAND WORDS..
  
    eval PROGRAM INPUTS                                       prints the outputs of the program, by the plain evaluator
    check PROGRAM SPAD                                        prints the outputs' shapes, the need, the passes with their tiles, and the bound
    explain PROGRAM                                           prints for each pass an order of evaluation, and how many results it holds
    run PROGRAM INPUTS IMAGE LANES SPAD [GRANTS]              compiles a program, saves its image, runs it, and prints the outputs, the steps and the cycles
    build PROGRAM IMAGE SPAD                                  compiles a program and saves its image; it prints nothing
    asm TEXT IMAGE                                            assembles a text and saves the image; it prints nothing
    disasm IMAGE                                              prints the canonical assembler text of an image
    exec IMAGE INPUTS LANES SPAD BUDGET [GRANTS]              runs an image, and prints its outputs, the steps and the cycles
  
  `ven help COMMAND` tells its words. A status other than 0 is a refusal:
  
     2  the words aren't a command's
     3  the program is refused
     4  the inputs or the grants are refused
     5  the scratchpad is too small
     6  the image or the assembler text is refused
     7  the machine stopped before `halt`
     8  a file can't be read
     9  the output wasn't taken
    10  memory ran out
    14  the image can't be saved
    15  a word isn't UTF-8
  $ ven help exec
  usage: ven exec IMAGE INPUTS LANES SPAD BUDGET [GRANTS]
  It runs an image, and prints its outputs, the steps and the cycles.
  
    IMAGE    the image, which `build` makes of a program and `asm` of an assembler text
    INPUTS   the array file with the inputs
    LANES    the number of lanes, 1 to 4
    SPAD     the bytes of the scratchpad, 1 to 1048576
    BUDGET   the most steps that the machine may make, 1 to 1099511627776
    GRANTS   who may step in each cycle; without it all may (tools/grants writes such files)
  
  for example: ven exec add.image examples/add.arrays 4 12 100
  $ ven help run
  usage: ven run PROGRAM INPUTS IMAGE LANES SPAD [GRANTS]
  It compiles a program, saves its image, runs it, and prints the outputs, the steps and the cycles.
  
    PROGRAM  the array program
    INPUTS   the array file with the inputs
    IMAGE    the file under which the image is saved
    LANES    the number of lanes, 1 to 4
    SPAD     the bytes of the scratchpad, 1 to 1048576
    GRANTS   who may step in each cycle; without it all may (tools/grants writes such files)
  
  for example: ven run examples/blur.ven examples/blur.arrays blur.image 4 64
  $ ven help sort
  `sort` is no command
  the commands are eval check explain run build asm disasm exec
  [2]

Words that aren't a command's: which is wrong, and what it may be. Whether a number is, the program is asked.

  $ ven
  usage: ven COMMAND WORDS..
  
    eval PROGRAM INPUTS                                       prints the outputs of the program, by the plain evaluator
    check PROGRAM SPAD                                        prints the outputs' shapes, the need, the passes with their tiles, and the bound
    explain PROGRAM                                           prints for each pass an order of evaluation, and how many results it holds
    run PROGRAM INPUTS IMAGE LANES SPAD [GRANTS]              compiles a program, saves its image, runs it, and prints the outputs, the steps and the cycles
    build PROGRAM IMAGE SPAD                                  compiles a program and saves its image; it prints nothing
    asm TEXT IMAGE                                            assembles a text and saves the image; it prints nothing
    disasm IMAGE                                              prints the canonical assembler text of an image
    exec IMAGE INPUTS LANES SPAD BUDGET [GRANTS]              runs an image, and prints its outputs, the steps and the cycles
  
  `ven help COMMAND` tells its words. A status other than 0 is a refusal:
  
     2  the words aren't a command's
     3  the program is refused
     4  the inputs or the grants are refused
     5  the scratchpad is too small
     6  the image or the assembler text is refused
     7  the machine stopped before `halt`
     8  a file can't be read
     9  the output wasn't taken
    10  memory ran out
    14  the image can't be saved
    15  a word isn't UTF-8
  [2]
  $ ven exce add.image add.arrays 4 12 100
  error: usage
  `exce` is no command; is `exec` meant?
  the commands are eval check explain run build asm disasm exec
  [2]
  $ ven exec add.image add.arrays 4 12
  error: usage
  BUDGET is missing
  usage: exec IMAGE INPUTS LANES SPAD BUDGET [GRANTS]
  [2]
  $ ven exec add.image add.arrays 5 012 100 add.grants more
  error: usage
  `more` is a word too many
  LANES is `5`: it has to be the number of lanes, 1 to 4, in plain decimals
  SPAD is `012`: it has to be the bytes of the scratchpad, 1 to 1048576, in plain decimals
  usage: exec IMAGE INPUTS LANES SPAD BUDGET [GRANTS]
  [2]
  $ ven check add.ven 1048577
  error: usage
  SPAD is `1048577`: it has to be the bytes of the scratchpad, 1 to 1048576, in plain decimals
  usage: check PROGRAM SPAD
  [2]

Files that aren't there.

  $ ven eval add.ven ad.arrays
  error: file
  INPUTS: there is no file `ad.arrays`; is `add.arrays` or `add.asm` meant?
  [8]
  $ ven exec add.image add.arrays 4 12 100 late.grants
  error: file
  GRANTS: there is no file `late.grants`
  [8]
  $ ven eval add.ven no/add.arrays
  error: file
  INPUTS: there is no file `no/add.arrays`; there is no folder `no`
  [8]
  $ ven eval . add.arrays
  error: file
  PROGRAM: `.` is a folder
  [8]

No image is saved over a file that is none; over an older one it is.

  $ ven asm add.asm add.ven
  error: save
  IMAGE is `add.ven`, which is there and is no image; remove it first
  [14]
  $ ven asm add.asm add.asm
  error: save
  IMAGE is `add.asm`, which is TEXT too, and would be lost
  [14]
  $ ven asm add.asm no/add.image
  error: save
  IMAGE: there is no folder `no`
  [14]
  $ ven asm add.asm add.image
  $ ven build add.ven add.ven 7
  error: save
  IMAGE is `add.ven`, which is PROGRAM too, and would be lost
  [14]
  $ ven run add.ven add.arrays add.arrays 4 7
  error: save
  IMAGE is `add.arrays`, which is INPUTS too, and would be lost
  [14]
  $ ven build add.ven add.image 7
  $ ven run add.ven add.arrays add.image 4 7
  y u8[1,4]
  5 7 9 4
  steps 712
  cycles 696

A refusal of a text is explained as tools/why does. The explanation goes to standard error.

  $ echo 'input a u8[1,4]; output y = a / 2;' > half.ven
  $ ven eval half.ven add.arrays 2> why.txt
  error: program unexpected at 30
  [3]
  $ cat why.txt
  half.ven:1:31: `/` can't stand here
      input a u8[1,4]; output y = a / 2;
                                    ^
  here could stand: a binary sign (* + << >> & ^ | == != < <= > >=), `-`, `;`
  hint: there is no division; `x >> k` divides by 2 to the k, rounded down
  $ ven exec add.asm add.arrays 4 12 100
  error: image magic
  add.asm: an image begins with `VNC1` or `VNC2`, and this file doesn't
  this file is an assembler text; `asm add.asm add.image` makes an image of it
  [6]
  $ ven exec add.ven add.arrays 4 12 100
  error: image magic
  add.ven: an image begins with `VNC1` or `VNC2`, and this file doesn't
  this file is an array program; `build add.ven add.image SPAD` makes an image of it
  [6]
  $ ven run add.ven add.arrays add.image 4 7 add.asm
  error: grants bad at 0
  add.asm:1:1: two hexadecimal digits make a grant, with blanks and line ends between grants alone
      # Adds two arrays of four bytes. With add.arrays, and the same sums as add.ven. Each work waits for  ...
      ^
  [4]
  $ ven run add.ven add.arrays add.image 4 6
  error: scratchpad need 7 have 6
  the program's passes need a scratchpad of 7 bytes; SPAD has to be at least that
  [5]
  $ ven build add.ven . 7
  error: save
  IMAGE: `.` is a folder
  [14]
  $ ven check add.ven 5
  error: scratchpad need 7 have 5
  the program's passes need a scratchpad of 7 bytes; SPAD has to be at least that
  [5]

A full disk under the output, and a reader that goes away.

  $ ven eval add.ven add.arrays > /dev/full
  [9]
  $ ven help > /dev/full
  [9]
  $ echo 'input a u8[1,1]; output y = stretch(a, 1024, 1024);' > great.ven
  $ echo 'a u8[1,1] 7' > great.arrays
  $ { ven eval great.ven great.arrays; echo $? > status; } | head -n 1
  y u8[1024,1024]
  $ cat status
  9
