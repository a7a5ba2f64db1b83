Many cycles at once. Where no grant is left, `exec` makes cycles in which the host waits and no work ends all at once. The same cycles
under a grant list of `0f` are made one by one. So both print the same, whatever the budget is.

  $ venice() { "$TESTDIR/../../venice" "$@"; }
  $ program=$(venice --program)
  $ for n in $(seq 400); do echo 0f; done > all.grants
  $ printf 'x u8[1,128]\n%s\n' "$(seq -s ' ' 1 128)" > x.arrays
  $ same() {
  >   "$program" exec $1.image x.arrays $2 512 $3 > at_once 2>&1
  >   echo $? >> at_once
  >   "$program" exec $1.image x.arrays $2 512 $3 all.grants > one_by_one 2>&1
  >   echo $? >> one_by_one
  >   cmp -s at_once one_by_one || echo "differs: $*"
  > }

Three units at work: a write of one row, a read of rows of two beats each, and an addition of rows whose beats depend on the lanes.
They end at different beats. Each budget up to the end stops a run at one of their last beats, or between them.

  $ cat > three.asm <<END
  > spad 512
  > memory 512
  > array x in u8[1,128] 0
  > array y out u8[1,128] 128
  > array z out u8[1,128] 384
  > li r1 128
  > li r2 1
  > li r3 7
  > li r4 20
  > li r5 25
  > set mbytes r1
  > set mrows r2
  > dma read          # the input, in cells 0 to 127
  > rwait r0
  > set spad r1
  > set mem r1
  > dma write         # 128 bytes in one row: 8 beats
  > li r6 256
  > set spad r6
  > set mem r5
  > set mrows r3
  > set mbytes r4
  > set mstep r4
  > set sstep r5
  > dma read          # 7 rows of 20 bytes, two beats each
  > li r7 9
  > set rows r3
  > set vl r7
  > set dstep r7
  > li r8 430
  > set dst r8
  > set a r0
  > set b r2
  > vec add u8 vv     # 7 rows of 9 elements
  > vwait
  > rwait r0
  > wwait r0
  > halt
  > END
  $ venice asm three.asm three.image
  $ for lanes in 1 2 3 4; do venice exec three.image x.arrays $lanes 512 1000 | tail -n 2 | paste -sd ' '; done
  steps 84 cycles 60
  steps 77 cycles 53
  steps 70 cycles 46
  steps 70 cycles 46
  $ for lanes in 1 2 3 4; do for budget in $(seq 30 85); do same three $lanes $budget; done; done

Works that read what they wrote, under version 2: an addition whose source lies one cell before its destination, a read of rows that
overlap in memory, and a write of such rows, each over the one before.

  $ cat > self.asm <<END
  > version 2
  > spad 512
  > memory 512
  > array x in u8[1,128] 0
  > array y out u8[1,128] 128
  > array z out u8[1,128] 256
  > li r1 128
  > li r2 1
  > li r3 9
  > li r4 20
  > set mbytes r1
  > set mrows r2
  > dma read          # the input, in cells 0 to 127
  > rwait r0
  > set rows r3
  > set vl r4
  > set a r0
  > set dst r2
  > set b r2
  > vec add u8 vs     # row by row, each element 1 more than the one before
  > li r5 3
  > set mrows r3
  > set mbytes r4
  > set mstep r5
  > set sstep r4
  > li r6 256
  > set spad r6
  > tag r2
  > dma read          # rows that overlap in memory
  > set sstep r5
  > li r7 300
  > li r8 512
  > sub r8 r8 r7
  > vwait
  > twait r2
  > set mem r1
  > set mstep r5
  > set spad r0
  > set sstep r2
  > dma write         # rows that overlap in memory, each after the one before
  > wwait r0
  > set spad r6
  > li r9 256
  > set mem r9
  > set mbytes r1
  > set mrows r2
  > dma write
  > wwait r0
  > halt
  > END
  $ venice asm self.asm self.image
  $ venice exec self.image x.arrays 1 512 1000 | cut -c 1-71
  y u8[1,128]
  1 2 3 2 3 4 3 4 5 4 5 6 5 6 7 6 7 8 7 8 9 8 9 10 9 10 11 12 13 14 15 16
  z u8[1,128]
  1 2 3 4 5 6 7 8 9 10 11 12 13 14 15 16 17 18 19 20 4 5 6 7 8 9 10 11 12
  steps 140
  cycles 105
  $ for lanes in 1 4; do for budget in $(seq 20 2 140) 1000; do same self $lanes $budget; done; done

A grant list that ends just before a work's last beat, or just behind it, is no different.

  $ for n in $(seq 30 60); do
  >   head -n $n all.grants > some.grants
  >   venice exec three.image x.arrays 1 512 1000 some.grants | tail -n 2 | paste -sd ' '
  > done | sort | uniq -c | sed 's/^ *//'
  31 steps 84 cycles 60
