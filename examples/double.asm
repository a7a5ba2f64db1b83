# Adds 100 to each of 512 bytes, as serial.asm does, but with two halves for each buffer: while the lanes work on a tile, the
# read channel brings the next one into the other half, and the write channel takes the one before away. With serial.arrays.
spad 512
memory 1024
array x in u8[8,64] 0
array y out u8[8,64] 512

li r1 128         # the bytes of a tile, and of a half
li r2 1
li r3 512         # the bytes of the array, and where y begins
li r4 100
set mbytes r1
set mrows r2
set vl r1
set rows r2
set b r4          # B is a scalar, the number 100
dma read          # tile 0 goes to the first half, cells 0 to 127

tile:             # r5 is where the tile begins in x, r6 where its half begins: 0 or 128
add r7 r5 r1      # where the next tile begins, and r8 where its half does
sub r8 r1 r6
blt r7 r3 next
rwait r0          # there is no next tile: until all is read
jmp work
next:
set mem r7
set spad r8
dma read
rwait r2          # until at most one read is unfinished, that of the next tile

work:
addi r9 r6 256    # where the sums' half begins: 256 or 384
set a r6
set dst r9
wwait r2          # until the write that last took this half is done
vec add u8 vs
add r10 r5 r3
set mem r10
set spad r9
vwait
dma write
add r5 r7 r0      # on to the next tile and its half; r0 stays 0
add r6 r8 r0
blt r5 r3 tile
halt
