# Copies sixteen bytes from one place in memory to another, by way of the scratchpad. With copy.arrays.
spad 16
memory 32
array from in u8[1,16] 0
array to out u8[1,16] 16

li r1 16          # a transfer has one row of 16 bytes
li r2 1
set mbytes r1
set mrows r2
dma read          # from memory's place 0 to cell 0: what isn't set is 0
rwait r0          # until at most r0 reads are unfinished, and r0 is 0
set mem r1        # the other array begins at place 16
dma write
halt              # waits until all is done
