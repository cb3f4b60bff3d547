# A hart takes a lock, raises a counter and gives the lock back, again and again.
    lui a1, 0x100           # the lock
    addi a5, a1, 128        # the counter, in the next block
    addi a2, zero, 1
again:
    amoswap.w a3, a2, (a1)  # takes the lock
    bne a3, zero, again
    ld a4, 0(a5)
    addi a4, a4, 1
    sd a4, 0(a5)
    sw zero, 0(a1)          # gives it back
    addi s2, s2, 1
    jal zero, again
