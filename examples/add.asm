# Adds two arrays of four bytes. With add.arrays, and the same sums as add.ven. Each work waits for what it needs, so the
# sums are the same whoever may step when: host.grants, late.grants and turns.grants.
spad 12
memory 12
array a in u8[1,4] 0
array b in u8[1,4] 4
array y out u8[1,4] 8

li r1 1
li r2 4
li r3 8
set mrows r1
set mbytes r2
dma read          # a comes to the cells 0 to 3
set mem r2
set spad r2
dma read          # b comes to the cells 4 to 7
set vl r2         # one row of four elements
set rows r1
set b r2          # A begins at cell 0, B at cell 4
set dst r3        # the sums go to the cells 8 to 11
rwait r0          # until both arrays are there
vec add u8 vv
set mem r3
set spad r3
vwait             # until the sums are there
dma write
halt
