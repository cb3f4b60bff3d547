# A queue lock (MCS). Each hart takes the lock three times, and raises a counter by 1 while it has it.
#
#   ./origin assemble examples/lock-queue.asm > examples/lock-queue.raw
#   ./origin simulate examples/lock-queue.raw --raw --nodes 3
#
# Harts stand in a queue. A hart's place in it is the last block of its stack page: the address of the place behind it, or 0;
# and a word that is 1 while the hart waits. The lock is the address of the last place, or 0 where it is free. So a hart
# waits on a block of its own, and just one other hart ever writes there: the one before it, when it gives the lock on.
# To look for: the answer of a `swap` is the place before; where it is 0, the lock was free. A hart that waits makes no
# request while its copy is there: acts alone, until the store to its place. Where nobody is behind, the lock is freed by
# a load-reserved and a store-conditional of 0, which fails where a hart has come meanwhile.
    lui s0, 0x100           # the lock; the counter is in the next block
    addi s1, sp, -128       # this hart's place
    addi s2, zero, 3        # how often
    addi s3, zero, 1
again:
    sd zero, 0(s1)          # nobody is behind
    sd s3, 8(s1)            # it waits
    amoswap.d t0, s1, (s0)  # becomes the last; t0 is the place before
    beq t0, zero, have      # the lock was free
    sd s1, 0(t0)            # tells the hart before that it is behind
wait:
    ld t1, 8(s1)
    bne t1, zero, wait      # until the hart before gives the lock on
have:
    ld a0, 128(s0)          # raises the counter: nobody else does so now
    addi a0, a0, 1
    sd a0, 128(s0)
    ld t0, 0(s1)
    bne t0, zero, give      # a hart is behind
free:
    lr.d t1, (s0)
    bne t1, s1, behind      # this place isn't the last any more
    sc.d t1, zero, (s0)     # frees the lock: then t1 is 0
    bne t1, zero, free
    jal zero, done
behind:
    ld t0, 0(s1)            # a hart has come, and will say so
    beq t0, zero, behind
give:
    sd zero, 8(t0)          # it has the lock now
done:
    addi s2, s2, -1
    bne s2, zero, again
    addi a7, zero, 93       # exits with what it last made of the counter
    ecall
