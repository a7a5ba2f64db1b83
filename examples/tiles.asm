# Adds 100 to each of 64 bytes, tile by tile: the scratchpad holds 16 of them. With tiles.arrays.
spad 16
memory 128
array x in u8[1,64] 0
array y out u8[1,64] 64

li r1 16          # the bytes of a tile
li r2 1
li r3 64          # the bytes of the array, and where y begins
li r4 100
set mbytes r1
set mrows r2
set vl r1
set rows r2
set b r4          # B is a scalar, the number 100

tile:             # r5 is where the tile begins in x: 0, 16, 32 and 48
set mem r5
wwait r0          # until the tile before is written, since its cells are taken again
dma read
rwait r0
vec add u8 vs
add r6 r5 r3      # where the tile begins in y
set mem r6
vwait
dma write
add r5 r5 r1
blt r5 r3 tile    # on to the next tile, if there is one
halt
