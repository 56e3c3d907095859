# Writes three bytes, the letters A, B and C, on line 0, and exits.

.size 64                # the private memory: 64 bytes

# write(line 0, address 32, length 3)
addi x10, x0, 0         # x10, which is a0: the line
addi x11, x0, 32        # x11, which is a1: where the bytes stand, behind the eight instructions
addi x12, x0, 3         # x12, which is a2: how many they are
addi x17, x0, 4         # x17, which is a7: the kernel call's number, 4 for write
ecall                   # x10 holds the answer now: how many bytes were written

# exit(code 0)
addi x10, x0, 0         # the code
addi x17, x0, 0         # call 0, exit
ecall

# what is written, at address 32
.byte 0x41              # the letter A
.byte 0x42              # the letter B
.byte 0x43              # the letter C
