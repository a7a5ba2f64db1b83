`disasm` reads an image and prints its canonical assembler text: one space between words, decimal numbers, no labels.

  $ venice() { "$TESTDIR/../../venice" "$@"; }
  $ cat > loop.asm <<END
  > # Counts down from 3.
  > spad 1
  > memory 4
  > array none in u8 [ 1 , 4 ] 0
  > li r1 0x3
  > li r2 1
  > again:
  > sub r1 r1 r2
  > bnz r1 again
  > halt
  > END
  $ venice asm loop.asm loop.image
  $ venice disasm loop.image
  spad 1
  memory 4
  array none in u8[1,4] 0
  li r1 3
  li r2 1
  sub r1 r1 r2
  bnz r1 2
  halt

The text is an assembler text of the same image, byte by byte.

  $ venice disasm loop.image > again.asm
  $ venice asm again.asm again.image
  $ cmp loop.image again.image

So it is for each of the examples.

  $ for name in copy add tiles; do
  >   venice asm "$TESTDIR/../../examples/$name.asm" $name.image
  >   venice disasm $name.image > $name.asm
  >   venice asm $name.asm again.image
  >   cmp $name.image again.image
  > done

Version 2 stands in the first line, where the image has it; all operations and modes have their words.

  $ cat > all.asm <<END
  > version 2
  > spad 1048576
  > memory 134217728
  > array a in u8[1024,1024] 0
  > array b out i32[1,1] 1048576
  > li r31 4294967295
  > addi r0 r1 2
  > add r1 r2 r3
  > mul r1 r2 r3
  > div r1 r2 r3
  > blt r1 r2 0
  > jmp 7
  > set vl r1
  > set sstep r2
  > vec mov u8 v
  > vec cast i32 u8 s acc
  > vec add i16 vs
  > vec cmov u32 vv
  > vec ssub i8 ss acc
  > dma read
  > dma write
  > rwait r1
  > wwait r2
  > vwait
  > tag r3
  > twait r3
  > halt
  > END
  $ venice asm all.asm all.image
  $ venice disasm all.image | cmp - all.asm

Bytes that are no image are refused by one line with what is wrong and where; places count bytes from 0.

  $ printf 'spad 16\nmemory 0\nhalt\n' > halt.asm
  $ venice asm halt.asm halt.image
  $ at() { cp halt.image try.image; printf "$2" | dd of=try.image bs=1 seek="$1" conv=notrunc status=none; venice disasm try.image; }
  $ head -c 27 halt.image > try.image
  $ venice disasm try.image
  error: image truncated at 27
  [6]
  $ at 28 '\0'
  error: image trailing at 28
  [6]
  $ at 0 '\0'
  error: image magic
  [6]
  $ at 4 '\0'
  error: image table at 4
  [6]
  $ at 27 '\001'
  error: image instruction at 20
  [6]
  $ at 20 '\011\0\0\0\001'
  error: image target at 20
  [6]
  $ at 20 '\017'
  error: image no halt
  [6]
  $ at 16 '\0'
  error: image no halt
  [6]
  $ : > try.image
  $ venice disasm try.image
  error: image truncated at 0
  [6]
  $ head -c 67108865 /dev/zero > try.image
  $ venice disasm try.image
  error: image too long
  [6]
  $ venice disasm no.image
  error: file
  [8]
