A file that can't be read: status 8. A real file system doesn't tell what it holds, so a file that isn't there is a read
that failed, as any other.

  $ venice() { "$TESTDIR/../../venice" "$@"; }
  $ echo 'input a u8[1,2]; input b u8[1,2]; output y = a + b;' > add.ven
  $ echo 'a u8[1,2] 1 2 b u8[1,2] 3 4' > add.arrays
  $ venice run no.ven add.arrays add.image 4 28
  error: file
  [8]
  $ venice run add.ven no.arrays add.image 4 28
  error: file
  [8]
  $ venice run add.ven add.arrays add.image 4 28 no.grants
  error: file
  [8]
  $ venice run '' add.arrays add.image 4 28
  error: file
  [8]

A folder is no file.

  $ mkdir folder
  $ venice run folder add.arrays add.image 4 28
  error: file
  [8]
  $ venice run add.ven folder add.image 4 28
  error: file
  [8]
  $ venice run add.ven add.arrays add.image 4 28 folder
  error: file
  [8]
  $ venice run add.ven/ add.arrays add.image 4 28
  error: file
  [8]

The other commands.

  $ venice build folder add.image 28
  error: file
  [8]
  $ venice eval no.ven add.arrays
  error: file
  [8]
  $ venice eval add.ven folder
  error: file
  [8]
  $ venice check folder 7
  error: file
  [8]
  $ venice explain ''
  error: file
  [8]
  $ venice asm folder add.image
  error: file
  [8]
  $ venice disasm folder
  error: file
  [8]
  $ venice exec folder add.arrays 1 16 1
  error: file
  [8]

A device that gives its bytes piece by piece is read as a file is, up to the limit of a text and one byte more.

  $ cat add.arrays | venice eval add.ven /dev/stdin
  y u8[1,2]
  4 6
  $ venice run /dev/zero add.arrays add.image 4 28
  error: program too long
  [3]
  $ venice run /dev/null add.arrays add.image 4 28
  error: program no output
  [3]

Of all these calls none has written a file.

  $ ls
  add.arrays
  add.ven
  folder

A file that can't be saved: status 14. `asm`, `build` and `run` save, each under its word IMAGE alone, and print nothing else then.

  $ printf 'spad 16\nmemory 0\nhalt\n' > halt.asm
  $ venice asm halt.asm folder
  error: save
  [14]
  $ venice asm halt.asm ''
  error: save
  [14]
  $ venice build add.ven folder 28
  error: save
  [14]
  $ venice build add.ven '' 28
  error: save
  [14]
  $ venice run add.ven add.arrays folder 4 28
  error: save
  [14]
  $ venice run add.ven add.arrays no/such/folder 4 28
  error: save
  [14]
  $ venice run add.ven add.arrays /dev/full 4 28
  error: save
  [14]
  $ ls
  add.arrays
  add.ven
  folder
  halt.asm
  $ venice asm halt.asm halt.image
  $ venice disasm halt.image | cmp - halt.asm
  $ venice exec halt.image /dev/null 1 16 1
  steps 1
  cycles 1
  $ venice build add.ven add.image 28
  $ venice run add.ven add.arrays run.image 4 28 | head -n 2
  y u8[1,2]
  4 6
  $ cmp run.image add.image
  $ ls
  add.arrays
  add.image
  add.ven
  folder
  halt.asm
  halt.image
  run.image

An older file of that name is lost, whatever it was.

  $ seq 100000 > run.image
  $ venice run add.ven add.arrays run.image 4 28 | head -n 2
  y u8[1,2]
  4 6
  $ cmp run.image add.image

A word at a file's place is a file's name, whatever it begins with.

  $ cp add.ven -- --help
  $ cp add.arrays 'two words'
  $ venice run --help 'two words' -- 4 28 --
  error: file
  [8]
  $ venice run --help 'two words' -- 4 28 | head -n 2
  y u8[1,2]
  4 6
  $ cmp add.image ./--

Streams are files: standard input, a pipe, and for what is saved standard output. A stream has its bytes once.

  $ echo 'input a u8[1,2]; output y = a + 1;' > one.ven
  $ echo 'a u8[1,2] 1 2' > one.arrays
  $ venice eval /dev/stdin one.arrays < one.ven
  y u8[1,2]
  2 3
  $ mkfifo pipe
  $ cat one.arrays > pipe &
  $ venice run one.ven pipe one.image 4 28 | head -n 2
  y u8[1,2]
  2 3
  $ cat one.ven | venice eval /dev/stdin /dev/stdin
  error: inputs missing a
  [4]
  $ printf 'spad 1\nmemory 0\nhalt\n' > halt.asm
  $ venice asm halt.asm /dev/stdout | venice disasm /dev/stdin
  spad 1
  memory 0
  halt
  $ venice build one.ven /dev/stdout 28 | cmp - one.image
  $ printf 01040f0f | venice run one.ven one.arrays /dev/null 4 28 /dev/stdin | head -n 2
  y u8[1,2]
  2 3

An image may be saved over its text.

  $ cp halt.asm over.asm
  $ venice asm over.asm over.asm
  $ venice disasm over.asm | cmp - halt.asm
  $ venice asm over.asm over.asm
  error: text unexpected at 0
  [6]
  $ cp one.ven over.ven
  $ venice build over.ven over.ven 28
  $ cmp over.ven one.image
