# Changes 192 blocks again and again, each by one store, and between two rounds of stores takes 8,000 instructions of arithmetic. So
# nearly all instructions are fetched while the cache of a processor holds many changed blocks.

.size 8192

lui x8, 2               # 8192, where the last block ends
addi x9, x0, 2047
addi x9, x9, 1          # 2048, where the first one begins

fill: addi x5, x9, 0

next: sw x5, 0(x5)
addi x5, x5, 32
bne x5, x8, next

addi x6, x0, 1000

add: addi x7, x7, 1
add x11, x11, x7
xor x12, x11, x7
sub x13, x12, x11
or x14, x13, x12
and x15, x14, x7
addi x6, x6, -1
bne x6, x0, add
jal x0, fill
