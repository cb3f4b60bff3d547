# A lock by reservations. Each hart takes the lock three times, and raises a counter by 1 while it has it.
#
#   ./origin assemble examples/lock-spin.asm > examples/lock-spin.raw
#   ./origin simulate examples/lock-spin.raw --raw --nodes 3
#
# The lock is a word: 0 where it is free, 1 where a hart has it. A hart takes it by a load-reserved that finds 0, and a
# store-conditional, which stores 1 only where nobody stored to the lock's block in between.
# To look for: the lines of `sc`. Those that end in 0 take the lock; those that end in 1 came too late. Between two that
# take it stand the store to the counter, at 0x100080, and the store of 0 that gives the lock back. The greatest value
# that a hart exits with is three times the number of harts.
    lui s0, 0x100           # the lock; the counter is in the next block
    addi s1, zero, 1
    addi s2, zero, 3        # how often
again:
    lr.w t0, (s0)           # reads the lock, and reserves its place
    bne t0, zero, again     # another hart has it
    sc.w t0, s1, (s0)       # takes it: then t0 is 0
    bne t0, zero, again     # another hart was first
    ld a0, 128(s0)          # raises the counter: nobody else does so now
    addi a0, a0, 1
    sd a0, 128(s0)
    sw zero, 0(s0)          # gives the lock back
    addi s2, s2, -1
    bne s2, zero, again
    addi a7, zero, 93       # exits with what it last made of the counter
    ecall
