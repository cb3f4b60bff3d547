# False sharing. Each hart raises a counter of its own eight times, which nobody else reads; then another one, eight times.
# The first counters are beside one another, in one block. The second ones have a block each.
#
#   ./origin assemble examples/false-sharing.asm > examples/false-sharing.raw
#   ./origin simulate examples/false-sharing.raw --raw --nodes 2
#
# To look for: the lines of `add` at 0x100000 and 0x100008, and how many lines of `take` stand between them: the block goes to
# and fro, though no hart uses the other's counter. At 0x100080 and 0x100100 each hart asks once for its block; from then on
# each of its additions is made on its own copy, by one act.
    lui s0, 0x100
    addi s1, zero, 1
    addi s2, zero, 8        # how often
    addi s3, zero, 8
    slli t0, a0, 3
    add t0, t0, s0          # 8 bytes for each hart, in one block
    slli t1, a0, 7
    add t1, t1, s0
    addi t1, t1, 128        # 128 bytes for each hart: a block, from the second one on
beside:
    amoadd.d zero, s1, (t0)
    addi s2, s2, -1
    bne s2, zero, beside
apart:
    amoadd.d zero, s1, (t1)
    addi s3, s3, -1
    bne s3, zero, apart
    ld a0, 0(t1)
    addi a7, zero, 93
    ecall
