# Adds 1 to the number at the beginning of segment 0, for ever, each time while the process holds the segment.

.size 64

lui x9, 0x40000         # where segment 0 begins

again: addi x10, x0, 0
addi x17, x0, 1         # acquire(segment 0): waits until the segment is free
ecall
lw x5, 0(x9)
addi x5, x5, 1
sw x5, 0(x9)
addi x10, x0, 0
addi x17, x0, 2         # release(segment 0)
ecall
jal x0, again
