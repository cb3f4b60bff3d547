# A producer and a consumer. Hart 0 puts four numbers into a box, one after another; hart 1 takes each out and emits it.
#
#   ./origin assemble examples/producer.asm > examples/producer.raw
#   ./origin simulate examples/producer.raw --raw --nodes 2
#
# The box is a number, and in the next block a word that is 1 where the box is full. Each hart writes that word only where
# the other one waits for it, so no atomics are needed.
# To look for: the lines of `emit`, with 1, 4, 9 and 16; and the two stores to the word between them, of 1 by hart 0 and of
# 0 by hart 1. A hart that waits reads its own copy, until the other hart's store has it invalidated.
    lui s0, 0x100           # the number; in the next block whether the box is full
    addi s1, zero, 1
    addi s2, zero, 4        # how many
    bne a0, zero, consume
produce:
    addi t0, t0, 1          # the next number
    addi t1, t1, 1          # its square, t0 * t0
    add t2, t2, t1
    addi t1, t1, 1
is_full:
    lw t3, 128(s0)
    bne t3, zero, is_full
    sd t2, 0(s0)            # puts it into the box
    sw s1, 128(s0)
    bne t0, s2, produce
    jal zero, done
consume:
    lw t3, 128(s0)
    beq t3, zero, consume
    ld a0, 0(s0)            # takes it out
    sw zero, 128(s0)
    addi a7, zero, 1        # emits it
    ecall
    addi s2, s2, -1
    bne s2, zero, consume
done:
    addi a7, zero, 93
    addi a0, zero, 0
    ecall
