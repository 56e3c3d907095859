# Jumps to itself, for ever.

.size 32

jal x0, 0
