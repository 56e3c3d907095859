# Jumps to itself for ever.

.size 64

jal x0, 0
