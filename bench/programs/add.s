# Arithmetic on registers, for ever: fifteen instructions of it, and the jump back.

.size 64

again: addi x5, x5, 1
add x6, x6, x5
sub x7, x6, x5
xor x8, x7, x6
and x9, x8, x5
or x11, x9, x7
slli x12, x11, 3
srl x13, x12, x5
addi x14, x13, -7
add x15, x14, x12
sltu x16, x15, x14
add x18, x18, x16
xori x19, x18, 85
sub x20, x19, x15
add x21, x21, x20
jal x0, again
