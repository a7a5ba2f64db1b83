`tools/race` says in the words of a text what raced in a run that stops at a hazard. It wants python3, and is skipped without.

  $ command -v python3 > /dev/null || exit 80
  $ race() { "$TESTDIR/../../tools/race" "$@"; }
  $ venice() { "$TESTDIR/../../venice" "$@"; }
  $ cp "$TESTDIR"/../../examples/* .

An assembler text is assembled for the moment, and the lines are its lines.

  $ race race.asm race.arrays 4 16 100 host.grants
  error: machine hazard pc 8 cycle 9
  race.asm:15:1: the machine stops before this work, work 2 (instruction 8), in cycle 9
      vec add u8 vs     # a wait before this one, `rwait r0`, would end the race
      ^
      it reads cells 0 to 15
      it writes cells 0 to 15
  race.asm:14:1: it meets this one, work 1 (instruction 7), which the read channel may not have done yet
      dma read          # from memory's place 0 to cell 0
      ^
      it reads bytes 0 to 15 of memory
      it writes cells 0 to 15
      they share cells 0 to 15
  missing between the two: `rwait`, with 0 in its register
  tried: with that wait just before the second work, the machine passes it under the same grants
  [7]
  $ race race.asm race.arrays 4 16 100
  this run meets no hazard; under other grants it may

The lines of an image are those of its canonical text, or of the text that it was made of.

  $ venice asm race.asm race.image
  $ race race.image race.arrays 4 16 100 host.grants | grep ^disasm
  disasm race.image:12:1: the machine stops before this work, work 2 (instruction 8), in cycle 9
  disasm race.image:11:1: it meets this one, work 1 (instruction 7), which the read channel may not have done yet
  $ race race.image race.arrays 4 16 100 host.grants --text race.asm | grep ^race.asm
  race.asm:15:1: the machine stops before this work, work 2 (instruction 8), in cycle 9
  race.asm:14:1: it meets this one, work 1 (instruction 7), which the read channel may not have done yet
  $ race race.image race.arrays 4 16 100 host.grants --text add.asm
  race: race.image isn't the image of add.asm: assemble it again
  [6]

In a loop it is told which of the works of one instruction it was: here the second read meets the first write.

  $ sed '/^wwait/d' serial.asm > loop.asm
  $ race loop.asm serial.arrays 1 512 1000
  error: machine hazard pc 10 cycle 57
  loop.asm:21:1: the machine stops before this work, work 4 (instruction 10), in cycle 57
      dma read
      ^
      it reads bytes 128 to 255 of memory
      it writes cells 0 to 127
  loop.asm:27:1: it meets this one, work 3 (instruction 16), which the write channel may not have done yet
      dma write
      ^
      it writes bytes 512 to 639 of memory
      it reads cells 0 to 127
      they share cells 0 to 127
  missing between the two: `wwait`, with 0 in its register
  tried: with that wait just before the second work, the machine passes it under the same grants
  [7]

A wait that leaves one read too many.

  $ sed 's/^rwait r2 .*/rwait r3/' double.asm > early.asm
  $ python3 "$TESTDIR/../../tools/grants" 'host*40' > host40.grants
  $ race early.asm serial.arrays 4 512 1000 host40.grants
  error: machine hazard pc 23 cycle 22
  early.asm:36:1: the machine stops before this work, work 3 (instruction 23), in cycle 22
      vec add u8 vs
      ^
      it reads cells 0 to 127
      it writes cells 256 to 383
  early.asm:17:1: it meets this one, work 1 (instruction 9), which the read channel may not have done yet
      dma read          # tile 0 goes to the first half, cells 0 to 127
      ^
      it reads bytes 0 to 127 of memory
      it writes cells 0 to 127
      they share cells 0 to 127
  missing between the two: `rwait`, with 1 in its register, the number of reads issued behind it
  tried: with that wait just before the second work, the machine passes it under the same grants
  [7]

Version 2: two transfers of one channel may overtake, and a wait names a tag.

  $ cat > tags.asm <<END
  > version 2
  > spad 32
  > memory 32
  > li r1 16
  > li r2 1
  > li r3 7
  > set mbytes r1
  > set mrows r2
  > tag r3
  > dma read
  > tag r2
  > set mem r1
  > twait r2
  > dma read
  > halt
  > END
  $ race tags.asm /dev/null 4 32 100 host40.grants
  error: machine hazard pc 10 cycle 11
  tags.asm:14:1: the machine stops before this work, work 2 (instruction 10), in cycle 11
      dma read
      ^
      it reads bytes 16 to 31 of memory
      it writes cells 0 to 15
  tags.asm:10:1: it meets this one, work 1 (instruction 6), which the read channel may not have done yet
      dma read
      ^
      it reads bytes 0 to 15 of memory
      it writes cells 0 to 15
      they share cells 0 to 15
  missing between the two: `twait`, with the work's tag, 7, in its register
  tried: with that wait just before the second work, the machine passes it under the same grants
  [7]

A run that stops otherwise, or not at all.

  $ race race.asm race.arrays 4 16 5
  error: machine budget 5
  no hazard stops this run; `tools/why exec race.asm race.arrays 4 16 5` says more
  [7]
  $ race race.asm race.arrays 4 16
  race: the words are IMAGE INPUTS LANES SPAD BUDGET [GRANTS] [--text TEXT]
  [2]
  $ race no.asm race.arrays 4 16 100
  race: no.asm: No such file or directory
  [8]
