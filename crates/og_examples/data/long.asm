# A loop of five instructions, 2,040 times: more than 10,000 events, and then one store.
    addi a0, zero, 2040     # how often
again:
    addi a1, a1, 5
    addi a1, a1, -2
    xor a2, a2, a1
    addi a0, a0, -1
    bne a0, zero, again     # four instructions back
    lui a3, 0x100           # a3 is 0x100000
    sd a2, 0(a3)            # stores 8 bytes
    addi a7, zero, 93       # the number of the exit call
    addi a0, zero, 0        # the value to exit with
    ecall                   # exits
