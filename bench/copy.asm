# Copies 64 MiB of memory behind themselves, eight times, by the channels alone: block by block of 512 KiB, each through one half of
# the scratchpad, so that a block is read while the one before is written. No lane works.
spad 1048576
memory 134217728

li r1 524288      # the bytes of a block
li r2 1
li r3 67108864    # the bytes that are copied, and where the copy begins
li r4 8           # the rounds left
set mbytes r1
set mrows r2

round:
li r5 0           # where the block begins
block:
set mem r5
set spad r6       # the block's half: cell 0 or 524288
dma read
rwait r0
add r7 r5 r3
set mem r7
dma write
wwait r2          # the block before is written, so that its half is free
sub r6 r1 r6
add r5 r5 r1
blt r5 r3 block
wwait r0          # the next round reads what no write changes, but let each round stand alone
sub r4 r4 r2
bnz r4 round
halt
