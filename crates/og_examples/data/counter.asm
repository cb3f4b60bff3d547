# A counter is raised three times by an atomic addition.
    lui a1, 0x100           # the counter's address
    addi a2, zero, 1
    addi a4, zero, 3        # three times
again:
    amoadd.w a3, a2, (a1)   # adds 1, and answers what was there
    addi a4, a4, -1
    bne a4, zero, again
    lw a0, 0(a1)            # the counter is the value to exit with
    addi a7, zero, 93
    ecall
