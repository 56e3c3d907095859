# Copies 1,024 bytes, 32 blocks of them, from address 1024 to address 2048, word by word and for ever.

.size 4096

addi x8, x0, 1024       # where the bytes stand
addi x9, x8, 1024       # and where they go

begin: addi x5, x8, 0
addi x6, x9, 0

next: lw x7, 0(x5)
sw x7, 0(x6)
addi x5, x5, 4
addi x6, x6, 4
bne x5, x9, next        # until 2048, where the bytes end
jal x0, begin
