Images whose steps and cycles, or whose stop, follow from docs/MACHINE.md by hand.

  $ venice() { "$TESTDIR/../../venice" "$@"; }
  $ : > empty.arrays
  $ asm() { cat > $1.asm; venice asm $1.asm $1.image; }

`halt` alone is one step, in the first cycle in which the host may step.

  $ asm halt <<END
  > spad 16
  > memory 0
  > halt
  > END
  $ venice exec halt.image empty.arrays 1 16 1
  steps 1
  cycles 1
  $ echo '00 00' > two.grants
  $ venice exec halt.image empty.arrays 1 16 1 two.grants
  steps 1
  cycles 3
  $ echo '0f 0f 0f' > three.grants
  $ venice exec halt.image empty.arrays 1 17 1 three.grants
  steps 1
  cycles 1
  $ venice exec halt.image empty.arrays 1 15 1
  error: scratchpad need 16 have 15
  [5]

Bytes that are no image.

  $ head -c 27 halt.image > bad.image
  $ venice exec bad.image empty.arrays 1 16 1
  error: image truncated at 27
  [6]
  $ { cat halt.image; printf '\0'; } > bad.image
  $ venice exec bad.image empty.arrays 1 16 1
  error: image trailing at 28
  [6]
  $ { printf '\0'; tail -c +2 halt.image; } > bad.image
  $ venice exec bad.image empty.arrays 1 16 1
  error: image magic
  [6]
  $ { head -c 27 halt.image; printf '\1'; } > bad.image
  $ venice exec bad.image empty.arrays 1 16 1
  error: image instruction at 20
  [6]

An addition of 1 that reads each number from where the one before was written: with 4 lanes it reads all three in one beat, with 1
lane one after another. In the table the output stands behind the input.

  $ asm carry <<END
  > spad 16
  > memory 32
  > array x in u32[1,4] 0
  > array y out u32[1,4] 16
  > li r1 16
  > li r2 1
  > li r3 4
  > li r4 3
  > set mbytes r1
  > set mrows r2
  > dma read
  > rwait r5
  > set vl r4
  > set rows r2
  > set dst r3
  > set b r2
  > vec add u32 vs
  > vwait
  > set mem r1
  > dma write
  > halt
  > END
  $ echo 'x u32[1,4] 5 0 0 0' > carry.arrays
  $ venice exec carry.image carry.arrays 4 16 100
  y u32[1,4]
  5 6 1 1
  steps 20
  cycles 17
  $ venice exec carry.image carry.arrays 1 16 100
  y u32[1,4]
  5 6 7 8
  steps 22
  cycles 19

A budget may be used up, if `halt` is the last of its steps.

  $ venice exec carry.image carry.arrays 4 16 20 | tail -n 2
  steps 20
  cycles 17
  $ venice exec carry.image carry.arrays 4 16 21 | tail -n 2
  steps 20
  cycles 17
  $ venice exec carry.image carry.arrays 4 16 19
  error: machine budget 19
  [7]
  $ venice exec carry.image carry.arrays 4 16 1
  error: machine budget 1
  [7]

Where only one unit may step in each cycle the outputs are the same, and the cycles depend on the order. The run goes on with all
units behind the list, and a list may be longer than the run.

  $ yes "01 02 04 08" | head -n 40 > up.grants
  $ yes "08 04 02 01" | head -n 40 > down.grants
  $ yes "01 01 04 08 02" | head -n 4 > mixed.grants
  $ for grants in up down mixed; do venice exec carry.image carry.arrays 4 16 100 $grants.grants; done
  y u32[1,4]
  5 6 1 1
  steps 20
  cycles 65
  y u32[1,4]
  5 6 1 1
  steps 20
  cycles 68
  y u32[1,4]
  5 6 1 1
  steps 20
  cycles 30
  $ for order in '01 02 04 08' '08 04 02 01' '04 01 08 02'; do
  >   yes "$order" | head -n 20 > alone.grants
  >   venice exec carry.image carry.arrays 1 16 100 alone.grants | tail -n 3
  > done
  5 6 7 8
  steps 22
  cycles 73
  5 6 7 8
  steps 22
  cycles 76
  5 6 7 8
  steps 22
  cycles 74

Half a million rows of two bytes are read into every second pair of cells, while the lanes write the cells between them. That no row of
the one meets a row of the other is found at once.

  $ asm rows <<END
  > spad 1048576
  > memory 16
  > li r1 500000
  > li r2 1
  > li r3 2
  > set mrows r1
  > set mbytes r2
  > set sstep r3
  > set vl r2
  > set rows r1
  > set dst r2
  > set dstep r3
  > dma read
  > vec mov u8 s
  > halt
  > END
  $ venice exec rows.image empty.arrays 1 1048576 2000000
  steps 1000013
  cycles 500012
  $ venice exec rows.image empty.arrays 1 1048576 1000013
  steps 1000013
  cycles 500012
  $ venice exec rows.image empty.arrays 1 1048576 1000012
  error: machine budget 1000012
  [7]
  $ sed 's/set dst r2/set dst r3/' rows.asm | asm meet
  $ venice exec meet.image empty.arrays 1 1048576 2000000
  error: machine hazard pc 11 cycle 12
  [7]

A second row that begins 4,294,967,295 bytes behind the first is out of range; with no rows at all the count is the fault.

  $ asm far <<END
  > spad 16
  > memory 0
  > li r1 1
  > li r2 2
  > li r3 4294967295
  > set vl r1
  > set rows r2
  > set a r1
  > set astep r3
  > vec mov u8 v
  > halt
  > END
  $ venice exec far.image empty.arrays 1 16 100
  error: machine out of range pc 7
  [7]
  $ sed 's/set rows r2/set rows r0/' far.asm | asm none
  $ venice exec none.image empty.arrays 1 16 100
  error: machine bad count pc 7
  [7]

A read may write one cell twice, row after row.

  $ asm twice <<END
  > spad 4
  > memory 8
  > array x in u8[1,2] 0
  > array y out u8[1,1] 4
  > li r1 1
  > li r2 2
  > li r3 4
  > set mrows r2
  > set mbytes r1
  > set mstep r1
  > dma read
  > rwait r0
  > set mrows r1
  > set mem r3
  > dma write
  > halt
  > END
  $ echo 'x u8[1,2] 7 9' > twice.arrays
  $ venice exec twice.image twice.arrays 1 4 100
  y u8[1,1]
  9
  steps 15
  cycles 13

The same in version 2, where the write waits for the read by its tag.

  $ asm twice2 <<END
  > version 2
  > spad 4
  > memory 8
  > array x in u8[1,2] 0
  > array y out u8[1,1] 4
  > li r1 1
  > li r2 2
  > li r3 4
  > set mrows r2
  > set mbytes r1
  > set mstep r1
  > tag r1
  > dma read
  > twait r1
  > set mrows r1
  > set mem r3
  > dma write
  > halt
  > END
  $ venice exec twice2.image twice.arrays 4 4 100
  y u8[1,1]
  9
  steps 16
  cycles 14
  $ venice disasm twice2.image | head -n 1
  version 2

A vector instruction, or a transfer, of no elements, rows or bytes; and a transfer past the end of memory.

  $ asm novec <<END
  > spad 4
  > memory 4
  > vec mov u8 s
  > halt
  > END
  $ venice exec novec.image empty.arrays 1 4 100
  error: machine bad count pc 0
  [7]
  $ asm past <<END
  > spad 4
  > memory 4
  > li r1 1
  > li r2 4
  > set mrows r1
  > set mbytes r2
  > set mem r1
  > dma read
  > halt
  > END
  $ venice exec past.image empty.arrays 1 4 100
  error: machine out of range pc 5
  [7]

Two reads into the same cells. In version 1 a channel does one after the other; in version 2 it may go on with the second, so they are
a hazard.

  $ asm same <<END
  > version 2
  > spad 32
  > memory 32
  > array x in u8[1,32] 0
  > li r1 32
  > li r2 1
  > set mrows r2
  > set mbytes r1
  > dma read
  > dma read
  > halt
  > END
  $ { echo 'x u8[1,32]'; seq 32; } > same.arrays
  $ venice exec same.image same.arrays 1 32 100
  error: machine hazard pc 5 cycle 6
  [7]
  $ tail -n +2 same.asm | asm first
  $ venice exec first.image same.arrays 1 32 100
  steps 11
  cycles 9

Two vector instructions, of which the first writes what the second reads, come one after the other, also in version 2.

  $ asm order <<END
  > version 2
  > spad 16
  > memory 0
  > li r1 8
  > li r2 1
  > set vl r1
  > set rows r2
  > vec add u8 vs
  > vec add u8 vs
  > halt
  > END
  $ echo '01 01 01 01 01 01' > six.grants
  $ venice exec order.image empty.arrays 1 16 100 six.grants
  steps 11
  cycles 11

In version 1 there are no tags.

  $ asm tags <<END
  > version 2
  > spad 48
  > memory 48
  > array x in u8[1,48] 0
  > li r1 32
  > li r2 1
  > li r3 16
  > set mrows r2
  > set mbytes r1
  > dma read
  > set mem r1
  > set spad r1
  > set mbytes r3
  > tag r2
  > dma read
  > twait r2
  > halt
  > END
  $ { echo 'x u8[1,48]'; seq 48; } > tags.arrays
  $ venice exec tags.image tags.arrays 1 48 100
  steps 16
  cycles 13
  $ tail -n +2 tags.asm | asm untagged
  error: text unexpected at 143
  [6]

Cells behind those that the image asks for are there, if the machine has them.

  $ asm behind <<END
  > spad 4
  > memory 8
  > array y out u8[1,4] 4
  > li r1 1
  > li r2 4
  > li r3 100
  > li r4 7
  > set vl r2
  > set rows r1
  > set dst r3
  > set a r4
  > vec mov u8 s
  > vwait
  > set mrows r1
  > set mbytes r2
  > set mem r2
  > set spad r3
  > dma write
  > halt
  > END
  $ venice exec behind.image empty.arrays 1 104 100
  y u8[1,4]
  7 7 7 7
  steps 18
  cycles 16
  $ venice exec behind.image empty.arrays 1 103 100
  error: machine out of range pc 8
  [7]

Outputs come in the order of the table, wherever they stand; the last one here ends with memory, which is as large as may be.

  $ asm end <<END
  > spad 4
  > memory 134217728
  > array late out u8[1,2] 134217726
  > array early out u16[2,1] 0
  > array x in u8[1,4] 4
  > li r1 1
  > li r2 4
  > li r3 134217724
  > set mrows r1
  > set mbytes r2
  > set mem r2
  > dma read
  > rwait r0
  > set mem r3
  > dma write
  > halt
  > END
  $ echo 'x u8[1,4] 1 2 3 4' > end.arrays
  $ venice exec end.image end.arrays 1 4 100
  late u8[1,2]
  3 4
  early u16[2,1]
  0
  0
  steps 13
  cycles 11
