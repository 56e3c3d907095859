# Loads words, a half word and bytes, for ever: fifteen loads, and the jump back.

.size 128

again: lw x5, 64(x0)
lw x6, 68(x0)
lw x7, 72(x0)
lw x8, 76(x0)
lw x9, 80(x0)
lw x11, 84(x0)
lw x12, 88(x0)
lw x13, 92(x0)
lw x14, 96(x0)
lw x15, 100(x0)
lw x16, 104(x0)
lw x18, 108(x0)
lhu x19, 112(x0)
lbu x20, 114(x0)
lb x21, 115(x0)
jal x0, again
