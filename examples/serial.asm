# Adds 100 to each of 512 bytes, tile by tile, one thing after another: a tile is read, then worked on, then written, and only
# then the next one is read. So two of lanes, read channel and write channel always stand still. With serial.arrays;
# double.asm does the same with the next tile read early, in fewer cycles.
spad 128
memory 1024
array x in u8[8,64] 0
array y out u8[8,64] 512

li r1 128         # the bytes of a tile
li r2 1
li r3 512         # the bytes of the array, and where y begins
li r4 100
set mbytes r1
set mrows r2
set vl r1
set rows r2
set b r4          # B is a scalar, the number 100

tile:             # r5 is where the tile begins in x
set mem r5
dma read
rwait r0          # until the tile is there
vec add u8 vs     # in place: A and the results are the cells 0 to 127
add r6 r5 r3
set mem r6
vwait             # until the sums are there
dma write
wwait r0          # until they are written, since their cells are taken again
add r5 r5 r1
blt r5 r3 tile
halt
