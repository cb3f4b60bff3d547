# Each hart takes a spin lock by a load-reserved and a store-conditional, adds 1 to a counter in another block, and gives
# the lock back, ten times; then it exits with 0.

        .globl  _start
        .text
_start:
        la      a2, lock
        la      a3, counter
        li      s0, 10
again:
        li      t1, 1
take:
        lr.w.aq t0, (a2)
        bnez    t0, take                # another hart has it
        sc.w    t0, t1, (a2)
        bnez    t0, take                # another hart was quicker
        lw      t2, 0(a3)
        addi    t2, t2, 1
        sw      t2, 0(a3)
        amoswap.w.rl zero, zero, (a2)   # gives it back
        addi    s0, s0, -1
        bnez    s0, again
        li      a0, 0
        li      a7, 93
        ecall

        .bss
        .balign 128
lock:
        .zero   4
        .balign 128
counter:
        .zero   4
