# A ticket lock. Each hart takes the lock three times, and raises a counter by 1 while it has it.
#
#   ./origin assemble examples/lock-ticket.asm > examples/lock-ticket.raw
#   ./origin simulate examples/lock-ticket.raw --raw --nodes 3
#
# A hart draws a ticket by one atomic addition, and waits until its ticket is served. So harts have the lock in the order in
# which they came, and each waits by reading alone: its copy of the block with the served ticket is shared until the
# owner writes the next one, which sends every hart that waits an invalidation.
# To look for: the lines of `add` give out the tickets 0, 1, 2, .. in their answers; the stores to 0x100080 serve 1, 2, 3,
# .. . The hart that drew ticket n is the one that makes the counter, at 0x100100, n + 1.
    lui s0, 0x100           # the next ticket; in the next block the served one; and then the counter
    addi s1, zero, 1
    addi s2, zero, 3        # how often
again:
    amoadd.w t0, s1, (s0)   # draws a ticket
wait:
    lw t1, 128(s0)          # the ticket that is served
    bne t1, t0, wait
    ld a0, 256(s0)          # raises the counter: nobody else does so now
    addi a0, a0, 1
    sd a0, 256(s0)
    addi t1, t1, 1
    sw t1, 128(s0)          # serves the next ticket
    addi s2, s2, -1
    bne s2, zero, again
    addi a7, zero, 93       # exits with what it last made of the counter
    ecall
