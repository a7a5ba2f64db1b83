# A matrix times a vector, with one vector instruction: each row of the matrix times the vector, whose row is the same each
# time since its step is 0, and `acc` adds up the products of a row. With matvec.arrays; matvec.ven says the same.
spad 76
memory 76
array m in i32[3,4] 0
array v in i32[4,1] 48
array y out i32[3,1] 64

li r1 64          # m and v, one behind the other
li r2 1
set mbytes r1
set mrows r2
dma read          # to the cells 0 to 63
li r3 3
li r4 4
li r5 16
li r6 48
set rows r3       # three rows of four products
set vl r4
set astep r5      # a row of the matrix has 16 bytes
set b r6          # the vector begins at cell 48, and its step stays 0
set dst r1        # the sums go to the cells 64 to 75, 4 bytes apart
set dstep r4
rwait r0          # until both are there
vec mul i32 vv acc
li r7 12
set mbytes r7
set mem r1
set spad r1
vwait             # until the sums are there
dma write
halt
