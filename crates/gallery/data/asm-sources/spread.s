# Stores to 17 different blocks of 32 bytes. A cache of 16 blocks has to be emptied on the way.

.size 4096

addi x5, x0, 1024       # the address of the first store
addi x6, x0, 1568       # the address behind the last: 1024 + 17 * 32

next: sw x5, 0(x5)      # store the address at itself
addi x5, x5, 32         # on to the next block
bne x5, x6, next

addi x10, x0, 0
addi x17, x0, 0         # exit(0)
ecall
