# Reads 16 bytes and adds 1 to each, with nothing between the two: whether the read is done in time depends on who may step
# when. With race.arrays; host.grants, read.grants and late.grants say who may step.
spad 16
memory 16
array a in u8[1,16] 0

li r1 16
li r2 1
set mbytes r1     # a transfer of one row of 16 bytes
set mrows r2
set vl r1         # one row of 16 elements
set rows r2
set b r2          # B is a scalar, the number 1
dma read          # from memory's place 0 to cell 0
vec add u8 vs     # a wait before this one, `rwait r0`, would end the race
halt
