# Adds two arrays of 8,388,608 words into a third, eight times, in tiles of 32,768 words: a tile is read while the one before is added
# and the one before that is written. Each array has two halves in the scratchpad.
spad 786432
memory 100663296

li r1 131072      # the bytes of a tile
li r2 1
li r3 33554432    # the bytes of an array, and where the second begins
li r4 67108864    # where the third begins
li r8 32768       # the words of a tile
li r11 262144     # where the halves of the second array begin in the scratchpad
li r12 2          # the reads of a tile
li r13 524288     # where the halves of the third array begin in the scratchpad
li r14 8          # the rounds left
set mbytes r1
set mrows r2
set vl r8
set rows r2

round:
li r5 0           # where the tile begins in its array
set mem r5
set spad r6       # the tile's half: cell 0 or 131072
dma read
set mem r3
add r10 r6 r11
set spad r10
dma read
tile:
add r7 r5 r1      # where the next tile begins
sub r9 r1 r6      # and its half
blt r7 r3 next
rwait r0          # there is no next tile
jmp compute
next:
set mem r7
set spad r9
dma read
add r10 r7 r3
set mem r10
add r10 r9 r11
set spad r10
dma read
rwait r12         # the reads of this tile are done, and those of the next may be in flight
compute:
wwait r2          # the tile before the last is written, so that its half is free
set a r6
add r10 r6 r11
set b r10
add r10 r6 r13
set dst r10
vec add u32 vv
vwait
set spad r10
add r10 r5 r4
set mem r10
dma write
add r5 r7 r0
add r6 r9 r0
blt r5 r3 tile
wwait r0
sub r14 r14 r2
bnz r14 round
halt
