# Stores words, a half word and bytes into two blocks, for ever: fifteen stores, and the jump back.

.size 128

again: sw x2, 64(x0)
sw x2, 68(x0)
sw x2, 72(x0)
sw x2, 76(x0)
sw x2, 80(x0)
sw x2, 84(x0)
sw x2, 88(x0)
sw x2, 92(x0)
sw x2, 96(x0)
sw x2, 100(x0)
sw x2, 104(x0)
sw x2, 108(x0)
sh x2, 112(x0)
sb x2, 114(x0)
sb x2, 115(x0)
jal x0, again
