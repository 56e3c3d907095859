# Writes the 64 bytes from address 64 on to line 0, as often as the line takes them: 16,384 times, and exits then.

.size 128

addi x11, x0, 64
addi x12, x0, 64

again: addi x10, x0, 0
addi x17, x0, 4         # write(line 0, address 64, length 64)
ecall
bge x10, x0, again      # an answer below zero: as much is written as a line may have

addi x10, x0, 0
addi x17, x0, 0         # exit(0)
ecall

.align
.space 28
.word 0x64636261
.word 0x68676665
.word 0x6c6b6a69
.word 0x706f6e6d
.word 0x74737271
.word 0x78777675
.word 0x42417a79
.word 0x46454443
.word 0x4a494847
.word 0x4e4d4c4b
.word 0x5251504f
.word 0x56555453
.word 0x5a595857
.word 0x33323130
.word 0x37363534
.word 0x0a0a3938
