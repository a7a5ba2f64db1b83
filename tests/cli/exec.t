`exec` runs an image on its inputs, and prints the outputs, the steps and the cycles.

  $ venice() { "$TESTDIR/../../venice" "$@"; }
  $ : > empty.arrays
  $ printf 'spad 16\nmemory 0\nhalt\n' > halt.asm
  $ venice asm halt.asm halt.image
  $ venice exec halt.image empty.arrays 1 16 1
  steps 1
  cycles 1

The examples.

  $ run() { venice asm "$TESTDIR/../../examples/$1.asm" $1.image && venice exec $1.image "$TESTDIR/../../examples/$1.arrays" $2 $3 1000; }
  $ run copy 1 16
  to u8[1,16]
  1 1 2 3 5 8 13 21 34 55 89 144 233 121 98 219
  steps 11
  cycles 9
  $ run add 4 12
  y u8[1,4]
  5 7 9 4
  steps 24
  cycles 20
  $ run tiles 4 16 | cut -c 1-59
  y u8[1,64]
  100 104 108 112 116 120 124 128 132 136 140 144 148 152 156
  steps 66
  cycles 54
  $ run tiles 1 16 | tail -n 2
  steps 78
  cycles 58

A program that reads 16 bytes and adds 1 to each, with nothing between the two. With four lanes the read is done before the
addition begins, if all may step in each cycle.

  $ cat > race.asm <<END
  > spad 16
  > memory 16
  > array a in u8[1,16] 0
  > li r1 16
  > li r2 1
  > set mbytes r1
  > set mrows r2
  > set vl r1
  > set rows r2
  > set b r2
  > dma read
  > vec add u8 vs
  > halt
  > END
  $ echo 'a u8[1,16] 1 2 3 4 5 6 7 8 9 10 11 12 13 14 15 16' > race.arrays
  $ venice asm race.asm race.image
  $ venice exec race.image race.arrays 4 16 100
  steps 12
  cycles 10
  $ venice exec race.image race.arrays 1 16 100
  steps 15
  cycles 13

The same image under three grant files. A grant is two hexadecimal digits: whose bit is set may step in that cycle. Where only the
host may step in the first nine cycles, the read is in flight at the addition.

  $ echo '01 01 01 01 01 01 01 01 01' > host.grants
  $ venice exec race.image race.arrays 4 16 100 host.grants
  error: machine hazard pc 8 cycle 9
  [7]
  $ echo '0101010101010101 04 01' > read.grants
  $ venice exec race.image race.arrays 4 16 100 read.grants
  steps 12
  cycles 12
  $ { for k in $(seq 8); do echo 00; done; echo 0F; } > late.grants
  $ venice exec race.image race.arrays 4 16 100 late.grants
  steps 12
  cycles 18

The scratchpad may be larger than the image's, and must not be smaller. It is looked at before INPUTS.

  $ venice exec race.image race.arrays 4 1048576 100
  steps 12
  cycles 10
  $ venice exec race.image no.arrays 4 15 100
  error: scratchpad need 16 have 15
  [5]

Inputs have to fit the image's table, and come before GRANTS.

  $ venice exec race.image no.arrays 4 16 100 no.grants
  error: file
  [8]
  $ venice exec race.image empty.arrays 4 16 100 no.grants
  error: inputs missing a
  [4]
  $ echo 'a u16[1,16] 0' > bad.arrays
  $ venice exec race.image bad.arrays 4 16 100
  error: inputs count a need 16 have 1
  [4]
  $ echo 'a i8[1,1] 0' > bad.arrays
  $ venice exec race.image bad.arrays 4 16 100
  error: inputs type a
  [4]
  $ echo 'a u8[1,1] 0' > bad.arrays
  $ venice exec race.image bad.arrays 4 16 100
  error: inputs shape a
  [4]
  $ venice exec halt.image race.arrays 4 16 100
  error: inputs extra a
  [4]

Grants: pairs of digits of either case, with blanks and line ends between them, and at most 1,048,576 of them.

  $ try() { printf "$1" > try.grants; venice exec halt.image empty.arrays 1 16 1 try.grants; }
  $ try ''
  steps 1
  cycles 1
  $ try '00 00\r\n\t00'
  steps 1
  cycles 4
  $ try '000'
  error: grants bad at 3
  [4]
  $ try '0g'
  error: grants bad at 1
  [4]
  $ try '00,00'
  error: grants bad at 2
  [4]
  $ try '0'
  error: grants bad at 1
  [4]
  $ try 'g0'
  error: grants bad at 0
  [4]
  $ try '00 0 0'
  error: grants bad at 4
  [4]
  $ try '00\n0\n'
  error: grants bad at 4
  [4]
  $ try '00 1'
  error: grants bad at 4
  [4]
  $ try '00-'
  error: grants bad at 2
  [4]
  $ try '\f00'
  error: grants bad at 0
  [4]
  $ head -c 2097152 /dev/zero | tr '\0' 0 > most.grants
  $ venice exec halt.image empty.arrays 1 16 1 most.grants
  steps 1
  cycles 1048577
  $ echo 00 >> most.grants
  $ venice exec halt.image empty.arrays 1 16 1 most.grants
  error: grants too long
  [4]
  $ head -c 67108865 /dev/zero | tr '\0' ' ' > try.grants
  $ venice exec halt.image empty.arrays 1 16 1 try.grants
  error: grants too long
  [4]
  $ rm try.grants
  $ venice exec halt.image empty.arrays 1 16 1 no.grants
  error: file
  [8]

The machine stops before a work with a count of 0, with a byte outside cells or memory, or that conflicts with one in flight; and
where the steps are made that it may make, and `halt` isn't among them. `pc` counts instructions from 0.

  $ printf 'spad 4\nmemory 4\nli r1 4\nset mbytes r1\ndma read\nhalt\n' > count.asm
  $ venice asm count.asm count.image
  $ venice exec count.image empty.arrays 1 4 100
  error: machine bad count pc 2
  [7]
  $ printf 'spad 4\nmemory 4\nli r1 4\nset mbytes r1\nset mrows r1\nset mem r1\ndma read\nhalt\n' > range.asm
  $ venice asm range.asm range.image
  $ venice exec range.image empty.arrays 1 4 100
  error: machine out of range pc 4
  [7]
  $ printf 'spad 1\nmemory 0\nli r1 1\nhere: bnz r1 here\nhalt\n' > loop.asm
  $ venice asm loop.asm loop.image
  $ venice exec loop.image empty.arrays 1 1 1000
  error: machine budget 1000
  [7]
  $ venice exec race.image race.arrays 4 16 11
  error: machine budget 11
  [7]
  $ venice exec race.image race.arrays 4 16 12
  steps 12
  cycles 10

A wait for the read ends the race, whatever the grants.

  $ sed 's/^vec/rwait r0\nvec/' race.asm > calm.asm
  $ venice asm calm.asm calm.image
  $ for grants in host read late; do venice exec calm.image race.arrays 4 16 100 $grants.grants; done
  steps 13
  cycles 13
  steps 13
  cycles 12
  steps 13
  cycles 19

In version 2 a channel may go on with its second transfer.

  $ cat > tags.asm <<END
  > version 2
  > spad 48
  > memory 48
  > array x in u8[1,48] 0
  > li r1 32
  > li r2 1
  > li r3 16
  > set mrows r2
  > set mbytes r1
  > dma read
  > set mem r1
  > set spad r1
  > set mbytes r3
  > tag r2
  > dma read
  > twait r2
  > halt
  > END
  $ { echo 'x u8[1,48]'; seq 48; } > tags.arrays
  $ venice asm tags.asm tags.image
  $ venice exec tags.image tags.arrays 1 48 100
  steps 16
  cycles 13
  $ echo '0101010101010101010101 14 01' > second.grants
  $ venice exec tags.image tags.arrays 1 48 100 second.grants
  steps 16
  cycles 16
  $ echo '0101010101010101010101 04 01' > first.grants
  $ venice exec tags.image tags.arrays 1 48 100 first.grants
  steps 16
  cycles 17
  $ echo '0101010101010101010101 14 14' > both.grants
  $ venice exec tags.image tags.arrays 1 48 100 both.grants
  steps 16
  cycles 15

IMAGE is read before all else, and is refused as by `disasm`.

  $ venice exec no.image no.arrays 1 1 1 no.grants
  error: file
  [8]
  $ venice exec halt.asm no.arrays 1 1 1 no.grants
  error: image magic
  [6]
  $ venice exec halt.image empty.arrays 0 16 1
  error: usage
  [2]
  $ venice exec halt.image empty.arrays 1 16 1099511627777
  error: usage
  [2]
