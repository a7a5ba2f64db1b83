# A loop of host instructions alone, 20,000,000 turns of five steps.
spad 1
memory 0

li r1 20000000
li r2 1
turn:
add r3 r3 r2
mul r4 r3 r3
set mem r4
sub r1 r1 r2
bnz r1 turn
halt
