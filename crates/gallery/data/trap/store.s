# Stores into segment 0, which it doesn't hold.

.size 64

lui x9, 0x40000         # x9 = 0x40000000, where segment 0 begins
sw x5, 0(x9)            # the address is outside while the segment isn't held: trap 7
