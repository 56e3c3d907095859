# The branch names a label that stands nowhere.

addi x5, x0, 3
again: addi x5, x5, -1
bne x5, x0, agian
