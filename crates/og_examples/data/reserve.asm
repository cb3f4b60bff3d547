# A counter is raised by a load-reserved and a store-conditional; a second store-conditional fails.
    lui a1, 0x100           # the counter's address
again:
    lr.w a2, (a1)           # loads the counter and reserves its place
    addi a2, a2, 1
    sc.w a3, a2, (a1)       # stores it where no store came between: then a3 is 0
    bne a3, zero, again
    addi a2, a2, 1
    sc.w a3, a2, (a1)       # no place is reserved any more: fails, and a3 is 1
    lw a0, 0(a1)            # the counter is the value to exit with
    addi a7, zero, 93
    ecall
