# Two processes run this program. Each adds 1 to the number at the beginning of segment 0 a hundred times, each time while it
# holds the segment. Then process 1 exits, and process 0 waits until the number is 200 and writes it as one byte on line 0.

.size 512

addi x8, x0, 100        # how often it is still to be added
lui x9, 0x40000         # x9 = 0x40000000, where segment 0 begins: lui gives the upper 20 bits

add: addi x10, x0, 0    # a label may have the name of an instruction
addi x17, x0, 1         # acquire(segment 0): waits until the segment is free
ecall
lw x5, 0(x9)            # load the number,
addi x5, x5, 1          # add 1,
sw x5, 0(x9)            # and store it again
addi x10, x0, 0
addi x17, x0, 2         # release(segment 0): what was stored is safe from here on
ecall
addi x8, x8, -1
bne x8, x0, add         # again, until x8 is 0

addi x17, x0, 5         # self(): the process's number
ecall
bne x10, x0, end        # process 1 has nothing else to do

addi x6, x0, 200
see: addi x10, x0, 0
addi x17, x0, 1         # acquire, so that the number isn't looked at while it is changed
ecall
lw x5, 0(x9)
addi x10, x0, 0
addi x17, x0, 2         # release
ecall
bne x5, x6, see         # look again until all two hundred are there

sb x5, 256(x0)          # its low byte goes to address 256, behind the program
addi x10, x0, 0
addi x11, x0, 256
addi x12, x0, 1
addi x17, x0, 4         # write(line 0, address 256, length 1)
ecall

end: addi x10, x0, 0
addi x17, x0, 0         # exit(0)
ecall
