# Each process runs this program: four times it adds 1 to the number at the beginning of segment 0, and writes what it has come to
# on its own line. So each number is written once, whichever process comes to it.

.size 512

addi x8, x0, 4          # how many numbers this process takes
lui x9, 0x40000         # where segment 0 begins
addi x17, x0, 5         # self(): the process's number, which is that of its line
ecall
addi x18, x10, 0        # keep it in x18

again: addi x10, x0, 0
addi x17, x0, 1         # acquire(segment 0)
ecall
lw x5, 0(x9)
addi x5, x5, 1
sw x5, 0(x9)
addi x10, x0, 0
addi x17, x0, 2         # release(segment 0)
ecall

sb x5, 256(x0)          # the number's low byte
addi x10, x18, 0        # the line
addi x11, x0, 256
addi x12, x0, 1
addi x17, x0, 4         # write(its line, address 256, length 1)
ecall
addi x8, x8, -1
bne x8, x0, again

addi x10, x0, 0
addi x17, x0, 0         # exit(0)
ecall
