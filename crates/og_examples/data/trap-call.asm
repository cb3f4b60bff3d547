# An environment call with a number that isn't known.
    addi a7, zero, 2        # no call has this number
    ecall
