# Eight processes run this program, and each one comes to a trap of its own: the trap's cause is the process's number.

.size 96

addi x17, x0, 5         # self(): the process's number
ecall
slli x10, x10, 3        # eight bytes for each process
jalr x0, 16(x10)        # on to address 16 + 8 * number

# process 0, at 16: a jump to an address that isn't a multiple of four
jal x0, 2
.word 0

# process 1, at 24: a jump behind the private bytes (x2 holds how many those are), where nothing can be fetched
jalr x0, 0(x2)
.word 0

# process 2, at 32: a word that is no instruction
.word 0xffffffff
.word 0

# process 3, at 40
ebreak
.word 0

# process 4, at 48: a load of four bytes at an address that isn't a multiple of four
lw x5, 2(x0)
.word 0

# process 5, at 56: a load behind the private bytes
lw x5, 0(x2)
.word 0

# process 6, at 64: a store at an address that isn't a multiple of four
sw x5, 2(x0)
.word 0

# process 7, at 72: a store behind the private bytes
sw x5, 0(x2)
.word 0
